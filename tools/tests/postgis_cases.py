#!/usr/bin/python3
"""tools/postgis beside a real server, which the test starts. Run by test_postgis.py; or alone: postgis_cases.py [NAME ..]"""
import os
import random
import signal
import sys
import threading
import time
import unittest

sys.path[:0] = [os.path.dirname(os.path.abspath(__file__)), os.path.dirname(os.path.dirname(os.path.abspath(__file__)))]

import psycopg2
import psycopg2.errors

from beside import SETUP, Case, Client, until
from postgres import Server, has_extension
from working import PROGRAM


# How often the service or topo is killed under load.
KILLS = int(os.environ.get('KILLS', 6))


def setUpModule() -> None:
    Case.server = Server()


def tearDownModule() -> None:
    Case.server.close()


class SetUp(Case):
    def refused(self, *words: str) -> str:
        done = self.tool('setup', self.dsn, *words)
        self.assertEqual((done.returncode, done.stdout), (2, ''))
        return done.stderr

    def test_what_cannot_be_is_told_and_nothing_is_done(self) -> None:
        self.user.rows('create table heap (nr int, geom geometry(Polygon, 25832)); create table far (nr int primary key, geom geometry(Point, 4326))')
        for words, text in ((['--table', 'parcels'], 'the first set-up needs --grid'),
                            (['--grid', '0', '--table', 'parcels'], 'the grid has to be over 0'),
                            (['--grid', '1', '--table', 'lakes'], 'there is no table lakes'),
                            (['--grid', '1', '--table', 'heap'], 'heap has no primary key of one column: name a column that is unique'),
                            (['--grid', '1', '--table', 'parcels', 'p', 'geom'], 'parcels has no unique column `geom`'),
                            (['--grid', '1', '--table', 'parcels', 'a b'], '`a b` is no name of a class'),
                            (['--grid', '1', '--table', 'parcels', '--table', 'far'], 'far has the coordinate system 4326, and the others have 25832'),
                            (['--grid', '1', '--table', 'parcels', '--rule', 'polygon_must_not_overlapp', 'parcels'], 'did you mean `polygon_must_not_overlap`'),
                            (['--grid', '1e-9', '--table', 'parcels'], 'take a coarser one')):
            self.assertIn(text, self.refused(*words))
        self.assertIsNone(self.user.one("select to_regnamespace('topo')::text"))

    def test_set_up_grows_and_is_taken_away(self) -> None:
        told = self.set_up('--grid', '0.001', '--table', 'parcels')
        self.assertEqual(told, 'the origin is 500100 5700000\nparcels is the class parcels of polygons, known by id\n')
        service = self.start()
        self.assertEqual(self.errors(), [])
        self.move(self.user, 3, 0.5)
        self.set_up('--rule', 'polygon_must_not_overlap', 'parcels', '--table', 'wells', 'wells', 'nr', 'place')
        service.said('judged after')
        self.assertEqual(self.pairs(), [(3, 4)])
        self.set_up('--drop-rule', '1', '--rule', 'point_must_be_disjoint', 'wells')
        service.said('judged after')
        self.assertEqual(self.errors(), [])
        service.end()
        self.assertEqual(self.tool('remove', self.dsn).returncode, 0)
        self.move(self.user, 3, 0.5)
        self.assertIsNone(self.user.one("select to_regnamespace('topo')::text"))

    def test_a_class_gets_another_table(self) -> None:
        self.set_up()
        service = self.start()
        self.user.rows('create table lots (nr int primary key, geom geometry(Polygon, 25832)); insert into lots select id, geom from parcels')
        self.set_up('--table', 'lots', 'parcels')
        service.said('judged after')
        self.move(self.user, 3, 0.5)
        self.user.rows('update lots set geom = st_translate(geom, 0.5, 0) where nr = 7')
        until(lambda: self.pairs() == [(7, 8)], 'the errors of the new table alone')
        self.assertIn('the rule 2, point_must_be_disjoint, would have lost its class: --drop-rule 2', self.refused('--drop-table', 'wells'))
        self.user.rows('drop table wells')
        service.said('waiting: class wells: its table is gone')
        self.set_up('--drop-table', 'wells', '--drop-rule', '2')
        service.said('judged after')
        self.assertEqual(self.pairs(), [(7, 8)])

    def test_a_role_sees_and_marks_and_no_more(self) -> None:
        self.user.rows("drop role if exists ann; create role ann login; grant update, select on parcels to ann")
        self.addCleanup(self.server.sql, 'drop role if exists ann', 'postgres')
        self.addCleanup(self.user.rows, 'drop owned by ann')
        self.set_up(*SETUP, '--role', 'ann')
        ann = Client(self.server.dsn(self.name, 'ann'))
        self.addCleanup(ann.db.close)
        self.move(ann, 3, 0.5)
        self.assertEqual(ann.rows('select who, class, key, gone from topo.waiting'), [('ann', 'parcels', '3', False)])
        self.start()
        ann.rows("update topo.error set mark = 'exception'")
        self.settled()
        self.assertEqual(ann.rows('select who, subject from topo.exception'), [('ann', '3')])
        for text in ('delete from topo.change', 'update topo.found set mark = mark', "update topo.error set word = ''", 'select * from topo.wish'):
            with self.assertRaises(psycopg2.errors.InsufficientPrivilege):
                ann.rows(text)
        with self.assertRaises(psycopg2.errors.CheckViolation):
            ann.rows("update topo.error set mark = 'maybe'")
        done = self.tool('status', self.server.dsn(self.name, 'nobody_known'))
        self.assertEqual(done.returncode, 2)
        self.assertIn('role "nobody_known" does not exist', done.stderr)


class Followed(Case):
    def test_errors_of_each_commit(self) -> None:
        self.set_up()
        self.start()
        self.move(self.user, 3, 0.5)
        self.user.rows("insert into wells values ('a', 'SRID=25832;POINT(500001.5 5700001.25)'), ('b', 'SRID=25832;POINT(500001.5 5700001.25)')")
        until(lambda: len(self.errors()) == 2, 'two errors')
        self.assertEqual(self.errors(), [
            (1, 'parcels', '3', 'parcels', '4', 'cells', 'error', '', 'MULTIPOLYGON(((500080.5 5700000,500080.5 5700020,500080 5700020,500080 5700000,500080.5 5700000)))',
             None, None),
            (2, 'wells', 'a', 'wells', 'b', 'cells', 'error', '', None, None, 'MULTIPOINT((500001.5 5700001.25))')])
        kept = self.user.one('select id from topo.error where rule = 1')
        self.user.rows("update wells set nr = 'c' where nr = 'b'; delete from wells where nr = 'a'")
        until(lambda: len(self.errors()) == 1, 'one error')
        self.assertEqual(self.user.one('select id from topo.error'), kept)

    def test_a_transaction_counts_as_it_ends(self) -> None:
        self.set_up()
        self.start()
        other = self.client(False)
        self.move(other, 3, 5)
        other.rows('savepoint here')
        self.move(other, 5, 5)
        other.rows('rollback to savepoint here; delete from parcels where id = 4; insert into parcels select 4, geom from parcels where id = 8')
        self.assertEqual(self.pairs(), [])
        other.db.commit()
        until(lambda: self.pairs() == [(4, 8)], 'the errors of the whole transaction')

    def test_rows_that_cannot_be_read_are_told_and_left_out(self) -> None:
        self.set_up()
        self.start()
        self.move(self.user, 3, 0.5)
        until(lambda: self.pairs() == [(3, 4)], 'one error')
        self.user.rows("insert into parcels values (11, 'SRID=25832;POLYGON((0 0,1 1,1 0,0 0))'), (12, null); update parcels set geom = "
                       "'SRID=25832;POLYGON((500000 5700000,500001 5700001,500001 5700000,500000 5700001,500000 5700000))' where id = 3")
        self.user.rows("insert into wells values ('e', 'SRID=25832;POINT EMPTY')")
        told = [('parcels', '11', 'its vertex 0 0 is beyond the reach of the grid', False), ('parcels', '12', 'it is empty', True),
                ('parcels', '3', 'its segments 0 and 2 cross at 500000.5 5700000.5', False), ('wells', 'e', 'it is empty', False)]
        asked = 'select class, key, why, place is null from topo.refused order by 1, 2'
        until(lambda: self.user.rows(asked) == told, 'four rows left out')
        self.assertEqual(self.pairs(), [])
        self.user.rows('update parcels set geom = st_makeenvelope(500060, 5700000, 500081, 5700020, 25832) where id = 3; delete from parcels where id > 10')
        until(lambda: self.pairs() == [(4, 3)], 'the error is back')
        self.settled()
        self.assertEqual(self.user.rows(asked), told[3:])

    def test_curves_and_heights(self) -> None:
        self.user.rows('alter table parcels alter geom type geometry(GeometryZ, 25832) using st_force3d(geom)')
        self.user.rows("insert into parcels values (20, 'SRID=25832;CURVEPOLYGONZ(COMPOUNDCURVEZ(CIRCULARSTRINGZ(500000 5700000 1,500001 5700001 1,500002 5700000 1),"
                       "(500002 5700000 1,500000 5700000 1)))')")
        self.set_up()
        self.move(self.user, 3, 0.5)
        self.start()
        self.assertEqual(self.pairs(), [(3, 4)])
        self.assertEqual(self.user.rows('select key, left(why, 12) from topo.refused'), [('20', 'CURVEPOLYGON')])


class Order(Case):
    def test_who_begins_first_and_ends_last_is_not_lost(self) -> None:
        """A reader that keeps the greatest number of a change, or of a transaction, would lose the first one."""
        self.set_up()
        self.start()
        one, two = self.client(False), self.client(False)
        self.move(one, 3, 0.5)
        self.move(two, 7, 0.5)
        two.db.commit()
        until(lambda: self.pairs() == [(7, 8)], 'the second transaction')
        one.db.commit()
        until(lambda: self.pairs() == [(3, 4), (7, 8)], 'the first transaction')

    def test_in_one_batch_each_row_is_as_it_was_committed(self) -> None:
        """The transaction that began later changed and ended; then the earlier one got the row: it comes last."""
        self.set_up()
        one, two = self.client(False), self.client(False)
        self.move(one, 9, 0.25)
        self.move(two, 3, 0.5)
        two.db.commit()
        one.rows('update parcels set geom = st_translate(geom, 1, 0) where id = 3')
        one.db.commit()
        numbers = self.user.rows('select xid::text::bigint, max(id) from topo.change group by 1 order by 2')
        self.assertGreater(numbers[0][0], numbers[1][0])
        service = self.start()
        service.end()
        self.move(self.user, 3, -1.5)
        self.move(one, 9, -0.25)
        self.move(two, 3, 0.5)
        two.db.commit()
        self.move(one, 3, 1)
        one.db.commit()
        self.start()
        self.assertEqual(self.user.rows("select subject_id, st_xmax(polygons)::text from topo.error where subject_id = '3'"), [('3', '500081.5')])

    def test_order_of_a_running_service(self) -> None:
        """The same while the service runs, stopped so that both stand in one batch."""
        self.set_up()
        service = self.start()
        service.process.send_signal(signal.SIGSTOP)
        one, two = self.client(False), self.client(False)
        self.move(one, 9, 0.25)
        self.move(two, 3, 0.5)
        two.db.commit()
        self.move(one, 3, 1)
        one.db.commit()
        service.process.send_signal(signal.SIGCONT)
        until(lambda: self.user.rows("select 1 from topo.error where subject_id = '3' and st_xmax(polygons) = 500081.5"), 'the last shape')


class Marks(Case):
    def marked(self) -> list[tuple]:
        return self.user.rows("select subject_id, note from topo.error where mark = 'exception'")

    def test_a_mark_outlives_a_kill_and_lapses_with_its_error(self) -> None:
        self.set_up()
        service = self.start()
        self.move(self.user, 3, 0.5)
        until(self.pairs, 'an error')
        number = self.user.one('select id from topo.error')
        self.user.rows("update topo.error set mark = 'exception', note = 'the old wall' where id = %s", number)
        until(lambda: self.marked() == [('3', 'the old wall')], 'a mark')
        self.assertEqual(self.user.rows('select subject, other, who, note, lapsed, st_area(place) from topo.exception'), [('3', '4', 'postgres', 'the old wall', None, 10.0)])
        service.end(signal.SIGKILL)
        service = self.start()
        self.assertEqual((self.marked(), self.user.one('select id from topo.error')), ([('3', 'the old wall')], number))
        self.move(self.user, 5, 0.5)
        until(lambda: len(self.pairs()) == 2, 'another error')
        self.assertEqual(self.marked(), [('3', 'the old wall')])
        self.move(self.user, 3, 0.25)
        until(lambda: not self.marked(), 'no mark')
        self.assertEqual(self.user.one('select count(*) from topo.exception where lapsed is not null'), 1)
        self.user.rows("update topo.error set mark = 'exception' where subject_id = '3'")
        until(self.marked, 'a mark again')
        self.user.rows("update topo.error set mark = 'error' where subject_id = '3'")
        until(lambda: not self.marked(), 'no mark')
        self.settled()
        self.assertEqual(self.user.rows('select * from topo.exception'), [])
        service.end()

    def test_a_mark_counts_for_the_error_that_was_seen(self) -> None:
        self.set_up()
        service = self.start()
        self.move(self.user, 3, 0.5)
        until(self.pairs, 'an error')
        service.process.send_signal(signal.SIGSTOP)
        self.move(self.user, 3, 0.5)
        self.user.rows("update topo.error set mark = 'exception'")
        service.process.send_signal(signal.SIGCONT)
        self.settled()
        self.assertEqual((len(self.pairs()), self.marked()), (1, []))

    def test_a_mark_lapses_that_changed_while_nobody_looked(self) -> None:
        self.set_up()
        service = self.start()
        self.two_errors()
        self.user.rows("update topo.error set mark = 'exception'")
        until(lambda: len(self.marked()) == 2, 'two marks')
        service.end()
        self.move(self.user, 3, 0.25)
        self.start()
        self.assertEqual(self.marked(), [('7', '')])
        self.assertEqual(self.user.rows('select subject, lapsed is null from topo.exception order by 1'), [('3', False), ('7', True)])


class Failures(Case):
    def test_kills_under_load(self) -> None:
        """The service and topo are killed at random; at the end the errors are those of a start, and those that PostGIS finds."""
        self.user.rows('insert into parcels select 100 + i * 20 + j, st_makeenvelope(500000 + i * 20, 5700100 + j * 20, 500020 + i * 20, 5700120 + j * 20, 25832) '
                       'from generate_series(0, 19) i, generate_series(0, 19) j')
        self.set_up()
        lot, ended = random.Random(7), threading.Event()
        threads = [threading.Thread(target=self.edit, args=(number, ended)) for number in range(4)]
        service = self.start()
        for thread in threads:
            thread.start()
        for kill in range(KILLS):
            time.sleep(lot.uniform(0.1, 0.5))
            if kill % 3 == 2:
                os.kill(service.child(), signal.SIGKILL)       # topo alone: the service begins anew
                service.said('topo ended')
                service.said('judged after')
            else:
                service.end(signal.SIGKILL)
                service = self.start()
        ended.set()
        for thread in threads:
            thread.join()
        self.settled()
        kept = self.errors()
        numbers = self.user.rows('select id from topo.found order by 1')
        service.end()
        self.start()
        self.assertEqual(kept, self.errors())
        self.assertEqual(numbers, self.user.rows('select id from topo.found order by 1'))
        by_postgis = self.user.rows("select a.id, b.id from parcels a join parcels b on a.geom && b.geom and a.id < b.id where st_relate(a.geom, b.geom, 'T********')")
        self.assertGreater(len(kept), 10)
        self.assertEqual(sorted(tuple(sorted(pair)) for pair in self.pairs()), sorted(by_postgis))

    def edit(self, number: int, ended: threading.Event) -> None:
        lot, client = random.Random(number), Client(self.dsn)
        while not ended.is_set():
            key = 100 + lot.randrange(400)
            client.rows('update parcels set geom = st_translate(geom, %s, %s) where id = %s', lot.randint(-999, 999) / 1000, lot.randint(-999, 999) / 1000, key)
            if lot.random() < 0.1:
                client.rows('delete from parcels where id = %s', key)
                client.rows('insert into parcels select %s, geom from parcels where id <> %s order by random() limit 1 on conflict do nothing', key, key)
            time.sleep(lot.uniform(0, 0.02))
        client.db.close()

    def test_what_nobody_judged_is_told_and_taken_later(self) -> None:
        self.set_up()
        service = self.start()
        self.assertEqual(self.tool('status', self.dsn).returncode, 0)
        service.end(signal.SIGKILL)
        self.move(self.user, 3, 0.5)
        self.user.rows("begin; set local topo.who = 'ann'; delete from parcels where id = 9; commit")
        self.assertEqual(self.user.rows('select who, key, gone, st_xmin(place) from topo.waiting order by id'), [('postgres', '3', False, 500060.5), ('ann', '9', True, None)])
        done = self.tool('status', self.dsn)
        self.assertEqual(done.returncode, 1)
        self.assertIn('no service runs\n', done.stdout)
        self.assertIn('2 changes wait, the first since 20', done.stdout)
        self.start()
        self.assertEqual((self.pairs(), self.user.rows('select * from topo.waiting')), ([(3, 4)], []))

    def test_one_service_alone(self) -> None:
        self.set_up()
        self.start()
        done = self.tool('run', self.dsn)
        self.assertEqual((done.returncode, done.stderr), (2, 'topo-postgis: another service runs beside this database\n'))

    def test_a_link_that_breaks(self) -> None:
        self.set_up()
        service = self.start()
        self.user.rows('select pg_terminate_backend(pid) from pg_stat_activity where datname = current_database() and pid <> pg_backend_pid()')
        service.said('it begins anew in 1 s')
        self.move(self.user, 3, 0.5)
        service.said('judged after')
        self.assertEqual(self.pairs(), [(3, 4)])
        self.user.db.close()
        self.server.stop(signal.SIGQUIT)
        service.said('it begins anew in 1 s')
        service.said('it begins anew in 2 s')
        self.server.start()
        service.said('judged after')
        self.user = self.client()
        self.assertEqual(self.pairs(), [(3, 4)])

    def test_a_database_that_says_no(self) -> None:
        """Without a right no service begins; if one loses a right, it tries again until it has it."""
        self.user.rows('drop role if exists clerk; create role clerk login')
        self.addCleanup(self.server.sql, 'drop role if exists clerk', 'postgres')
        self.addCleanup(self.user.rows, 'drop owned by clerk cascade')
        dsn = self.server.dsn(self.name, 'clerk')
        done = self.tool('setup', dsn, *SETUP)
        self.assertEqual((done.returncode, self.user.one("select to_regnamespace('topo')::text")), (2, None))
        self.assertIn('permission denied for', done.stderr)
        self.user.rows('grant create on database %s to clerk; alter table parcels owner to clerk; alter table wells owner to clerk' % self.name)
        self.assertEqual(self.tool('setup', dsn, *SETUP).returncode, 0)
        self.user.rows('revoke select on parcels from clerk')
        done = self.tool('run', dsn, '--program', PROGRAM[0])
        self.assertEqual((done.returncode, done.stderr), (2, 'topo-postgis: permission denied for table parcels\n'))
        self.user.rows('grant select on parcels to clerk')
        service = self.start(dsn)
        self.user.rows('revoke delete on topo.change from clerk')
        self.move(self.user, 3, 0.5)
        service.said('permission denied for table change; it begins anew in 1 s')
        self.user.rows('grant delete on topo.change to clerk')
        service.said('judged after')
        self.assertEqual(self.pairs(), [(3, 4)])

    def test_a_restored_copy(self) -> None:
        self.set_up()
        service = self.start()
        self.two_errors()
        self.user.rows("update topo.error set mark = 'exception', note = 'so it is' where subject_id = '7'")
        until(lambda: self.user.rows('select 1 from topo.exception'), 'an exception')
        service.end()
        self.move(self.user, 5, 0.5)
        self.server.call('pg_dump', '-F', 'c', '-f', os.path.join(self.server.folder, 'dump'), self.dsn)
        self.server.sql('create database restored', 'postgres')
        self.server.call('pg_restore', '--exit-on-error', '-d', self.server.dsn('restored'), os.path.join(self.server.folder, 'dump'))
        self.start()
        self.start(self.server.dsn('restored'))
        copy = Client(self.server.dsn('restored'))
        self.addCleanup(copy.db.close)
        self.assertEqual(len(self.errors()), 3)
        self.assertEqual(self.errors(), self.errors(copy))
        self.move(copy, 9, 0.5)
        until(lambda: len(self.errors(copy)) == 4, 'the copy is followed')
        self.assertEqual(len(self.errors()), 3)

    def test_columns_and_triggers_that_change(self) -> None:
        self.set_up()
        service = self.start()
        self.user.rows('alter table parcels add remark text; update parcels set remark = %s', 'x')
        self.assertEqual(self.user.rows('select * from topo.waiting'), [])
        self.user.rows('alter table parcels rename geom to shape')
        service.said('waiting: class parcels: parcels has no column geom any more')
        self.user.rows('update parcels set shape = st_translate(shape, 0.5, 0) where id = 3')
        self.assertEqual(self.user.one('select note from topo.status'), 'class parcels: parcels has no column geom any more')
        self.set_up('--table', 'parcels')
        service.said('judged after')
        self.assertEqual((self.pairs(), self.user.one('select note from topo.status')), ([(3, 4)], ''))
        self.user.rows('alter table parcels alter shape type geometry(MultiPolygon, 25832) using st_multi(shape)')
        service.said('judged after')
        self.user.rows('alter table parcels disable trigger topo_log')
        service.said('the trigger topo_log of parcels is gone or switched off')
        self.user.rows('delete from parcels where id = 4; alter table parcels enable always trigger topo_log')
        service.said('judged after')
        self.assertEqual(self.pairs(), [])
        self.user.rows("begin; set local session_replication_role = replica; update parcels set shape = st_translate(shape, 0.5, 0) where id = 6; commit")
        until(lambda: self.pairs() == [(6, 7)], 'a replica is followed too')
        self.user.rows('truncate parcels')
        service.said('judged after')
        self.assertEqual(self.pairs(), [])
        self.user.rows('drop table wells')
        service.said('waiting: class wells: its table is gone')


class Windows(Case):
    def test_dirt_is_shown_until_somebody_asks(self) -> None:
        self.set_up(*SETUP, '--validate', 'asked')
        self.start()
        self.move(self.user, 3, 0.5)
        self.move(self.user, 7, 0.5)
        dirt = 'select st_xmin(place), st_ymin(place), st_xmax(place), st_ymax(place) from topo.dirty order by 1'
        until(lambda: len(self.user.rows(dirt)) == 4, 'dirty areas')
        self.assertEqual(self.pairs(), [])
        self.user.rows('select topo.validate(500050, 5699990, 500100.0004, 5700030)')
        until(lambda: self.pairs() == [(3, 4)], 'the errors of the window')
        self.assertEqual([row[0] for row in self.user.rows(dirt)], [500140.0, 500140.5])
        for number in ("'NaN'", "'Infinity'", 'null'):
            with self.assertRaises(psycopg2.errors.CheckViolation):
                self.user.rows('select topo.validate(0, 0, 1, %s)' % number)
        self.user.rows("insert into topo.change (class, key, gone) values ('heaps', '1', true)")
        self.user.rows('select topo.validate(-1e9, -1e9, 1e9, 1e9)')
        until(lambda: self.pairs() == [(3, 4), (7, 8)], 'all errors')
        self.settled()
        self.assertEqual(self.user.rows(dirt), [])

    def test_who_holds_what(self) -> None:
        self.set_up()
        other = self.client(False)
        other.rows("set application_name = 'a map'")
        self.move(other, 3, 0.5)
        other.rows('select from parcels where id = 5 for update')
        other.rows('select from parcels where id = 6 for key share')
        self.assertEqual(self.user.rows('select number, class, key, who, application, st_xmin(place) from topo.held'),
                         [(1, 'parcels', '3', 'postgres', 'a map', 500060.0), (2, 'parcels', '5', 'postgres', 'a map', 500100.0)])
        other.db.commit()
        self.assertEqual(self.user.rows('select * from topo.held'), [])


@unittest.skipUnless(has_extension('plpython3u'), 'plpython3u is not installed (package postgresql-plpython3)')
class Gate(Case):
    def setUp(self) -> None:
        super().setUp()
        self.set_up(*SETUP, '--gate', os.path.join(self.server.folder, 'gate'))

    def test_a_commit_with_new_errors_is_refused(self) -> None:
        self.start()
        with self.assertRaisesRegex(psycopg2.errors.CheckViolation, 'polygon_must_not_overlap of parcels 3 and parcels 4'):
            self.move(self.user, 3, 0.5)
        with self.assertRaisesRegex(psycopg2.errors.CheckViolation, 'parcels 11: it is empty'):
            self.user.rows('insert into parcels values (11, null)')
        self.assertEqual((self.user.one('select st_xmin(geom) from parcels where id = 3'), self.errors()), (500060.0, []))
        self.move(self.user, 10, 5)
        both = self.client(False)
        self.move(both, 9, 5)
        self.move(both, 10, 5)
        both.db.commit()
        self.settled()
        self.assertEqual(self.errors(), [])

    def test_old_errors_and_marks_are_no_hindrance(self) -> None:
        self.set_up('--gate', '-')
        service = self.start()
        self.two_errors()
        self.user.rows("update topo.error set mark = 'exception' where subject_id = '7'")
        until(lambda: self.user.rows('select 1 from topo.exception'), 'an exception')
        self.set_up('--gate', os.path.join(self.server.folder, 'gate'))
        service.said('judged after')
        self.move(self.user, 3, -0.25)
        with self.assertRaisesRegex(psycopg2.errors.CheckViolation, 'of parcels 7 and parcels 8'):
            self.move(self.user, 7, -0.25)
        self.settled()
        self.assertEqual(self.user.rows("select subject_id, mark from topo.error order by 1"), [('3', 'error'), ('7', 'exception')])
        self.move(self.user, 7, -0.5)
        until(lambda: self.pairs() == [(3, 4)], 'mended')

    def test_without_a_service_no_commit_goes_through(self) -> None:
        with self.assertRaisesRegex(psycopg2.OperationalError, 'topo does not answer'):
            self.move(self.user, 10, 5)
        self.set_up('--gate', '-')
        self.move(self.user, 10, 5)


if __name__ == '__main__':
    unittest.main(verbosity=int(os.environ.get('VERBOSE', 0)))
