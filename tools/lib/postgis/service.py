"""The service: it begins anew from the tables as one snapshot has them, and then takes what is committed, batch by batch.

A batch is one transaction of the database. It takes the changes that it sees out of topo.change, and writes what is wrong now. If it
fails, nothing of it stands: the changes are still there, and the service begins anew.
"""
from __future__ import annotations

import select
import sys
import time
from typing import Iterable, NamedTuple, Optional, TextIO

import psycopg2
import psycopg2.errors
from psycopg2.extensions import cursor as Cursor

from ..grid import exact
from .gate import Door
from .judge import Edit, Judge, Outcome, Place
from .run import Ended
from .source import faults_of, rows_of, setting_of, signature_of
from .tables import Tables, name_of

# A run of topo takes 256 MiB of lines; before that a new one begins, but not before it has taken some.
MOST_BYTES, SPARE_BYTES = 200 << 20, 16 << 20
POLL = 0.5
FIRST_PAUSE, LONGEST_PAUSE = 1, 30
KEY, WAIT = 7070, '2s'


class Anew(Exception):
    """The service has to begin anew; the text says why."""


class Occupied(Exception):
    """Another service runs beside the database."""


class Transaction(NamedTuple):
    """The changes of a transaction: its greatest number of a change, its user, and the last change of each row."""

    xid: str
    last: int
    who: str
    edits: dict[Place, Edit]


def say(text: str) -> None:
    print('topo-postgis: ' + text, file=sys.stderr, flush=True)


def transactions_of(rows: Iterable[tuple]) -> list[Transaction]:
    """Changes by transactions, in an order that agrees with each row's: who changes a row that another has changed gets it when that one
    has ended, and numbers its change then. So the greatest number of a transaction tells who came last."""
    found: dict[str, Transaction] = {}
    for number, xid, who, of_class, key, gone, wkt in sorted(rows):
        edits = found[xid].edits if xid in found else {}
        edits[of_class, key] = Edit((of_class, key), gone, wkt)
        found[xid] = Transaction(xid, number, who, edits)
    return sorted(found.values(), key=lambda of: of.last)


class Service:
    """One topo beside one database."""

    def __init__(self, dsn: str, program: list[str], log: Optional[TextIO] = None) -> None:
        self.program, self.log = program, log
        self.db, self.ear = psycopg2.connect(dsn), psycopg2.connect(dsn)
        self.db.set_session(isolation_level='REPEATABLE READ')
        self.ear.autocommit = True
        self.judge: Optional[Judge] = None
        self.door: Optional[Door] = None
        self.fault = ''
        self.listen()

    def listen(self) -> None:
        """Listens before the first snapshot is taken; there is one service for a database and no more."""
        cursor = self.ear.cursor()
        cursor.execute("listen topo; set lock_timeout = '%s'" % WAIT)
        try:
            cursor.execute('select pg_advisory_lock(%s)', (KEY,))
        except psycopg2.errors.LockNotAvailable:
            raise Occupied('another service runs beside this database') from None

    def close(self) -> None:
        for part in (self.judge, self.door, self.db, self.ear):
            if part:
                part.close()

    # ---- a start

    def begin(self) -> None:
        """Takes all rows as one snapshot has them, judges them, and writes what differs from what the tables say."""
        cursor, since = self.db.cursor(), time.monotonic()
        self.signature = signature_of(cursor)
        self.setting = setting_of(cursor)
        if self.is_faulty(cursor):
            return
        self.judge = Judge(self.program, self.setting.grid, self.setting.kinds, self.setting.rules)
        self.tables = Tables(self.setting.grid, self.setting.srid)
        self.tables.read_numbers(cursor)
        cursor.execute('delete from topo.change')          # what the snapshot sees of them, it sees in the rows
        outcome = self.judge.session('import', (edit for source in self.setting.sources for edit in rows_of(cursor, source)))
        self.judge.mirror.settle()
        self.judge.validate()
        self.tables.write_rows_anew(cursor, outcome, self.judge.handles)
        self.write_errors_anew(cursor)
        self.tables.write_state(cursor, len(self.judge.handles))
        self.db.commit()
        self.most = max(MOST_BYTES, self.judge.run.sent + SPARE_BYTES)
        self.open_door()
        say('%s features, %s left out, %s errors; judged after %.1f s' % (
            format(len(self.judge.handles), ','), format(len(outcome.refused), ','), format(len(self.tables.ids), ','), time.monotonic() - since))

    def write_errors_anew(self, cursor: Cursor) -> None:
        """Sets the marks of errors that have the same cells as when they were marked, and writes all errors."""
        found, same, lapsed = self.judge.whole(), [], []
        exceptions = self.tables.exceptions(cursor)
        blocks = {name_of(*self.judge.rule_and_places(block.key)): block for block in found.come} if exceptions else {}
        for name, listing in exceptions:
            if name in blocks and blocks[name].text == listing:
                same.append(blocks[name].key)
            else:
                lapsed.append(name)
        self.judge.marked('mark', same)
        self.tables.lapse(cursor, lapsed)
        self.tables.write_anew(cursor, [self.judge.errors.by_key[block.key] for block in found.come], self.judge)

    def is_faulty(self, cursor: Cursor) -> bool:
        """Whether tables cannot be followed as they are. Then it is said, in the tables too, and what stands there stays."""
        faults = faults_of(cursor)
        if not faults:
            self.fault = ''
            return False
        cursor.execute('update topo.state set note = %s', ('; '.join(faults),))
        self.db.commit()
        if self.fault != '; '.join(faults):
            self.fault = '; '.join(faults)
            say('waiting: ' + self.fault)
        return True

    def open_door(self) -> None:
        if self.setting.socket and (self.door is None or self.door.path != self.setting.socket):
            self.door = Door(self.setting.socket)

    # ---- what comes after

    def check(self, cursor: Cursor) -> None:
        """Raises Anew where what is followed is not what it was, or the run of topo has taken all that it may."""
        if signature_of(cursor) != self.signature:
            raise Anew('the tables or the rules have changed')
        if self.judge and self.judge.run.sent > self.most:
            raise Anew('the run of topo has taken %d MiB of lines' % (self.most >> 20))

    def batch(self) -> int:
        """Takes what is committed, judges it, writes what is wrong; how many transactions and wishes it took."""
        cursor = self.db.cursor()
        self.check(cursor)
        if self.fault:
            self.db.rollback()
            return 0
        cursor.execute('delete from topo.change returning id, xid::text, who, class, key, gone, wkt')
        transactions = transactions_of(row for row in cursor.fetchall() if row[3] in self.setting.kinds)
        cursor.execute('delete from topo.wish returning id, word, error, note, who, x0, y0, x1, y1')
        wishes = sorted(cursor.fetchall())
        if not transactions and not wishes:
            self.db.commit()
            return 0
        self.edit(cursor, transactions)
        self.validate([wish[5:] for wish in wishes if wish[1] == 'validate'], bool(transactions))
        self.tables.write(cursor, self.judge.near() if self.setting.validates else self.judge.whole(), self.judge)
        self.mark(cursor, [wish[1:5] for wish in wishes if wish[1] != 'validate'])
        self.tables.write_dirt(cursor, [] if self.setting.validates else self.judge.dirty())
        self.tables.write_state(cursor, len(self.judge.handles))
        self.db.commit()
        self.write_log(transactions)
        if self.judge.missed:
            say('errors beside what changed: all of them were listed anew')
            self.judge.missed = 0
        return len(transactions) + len(wishes)

    def edit(self, cursor: Cursor, transactions: list[Transaction]) -> None:
        outcome = Outcome()
        for transaction in transactions:
            outcome.add(self.judge.session(transaction.who, transaction.edits.values()))
        self.tables.write_rows(cursor, outcome, self.judge.handles)

    def validate(self, windows: list[tuple], has_edits: bool) -> None:
        """Judges what is dirty: all of it, or where somebody asked for it."""
        if self.setting.validates:
            if has_edits:
                self.judge.validate()
            return
        grid = self.setting.grid
        for x0, y0, x1, y1 in windows:
            xs, ys = ([grid.units(exact(text), origin)[0] for text in of] for of, origin in (((x0, x1), grid.x), ((y0, y1), grid.y)))
            self.judge.validate_window((min(xs), min(ys), max(xs), max(ys)))

    def mark(self, cursor: Cursor, wishes: list[tuple]) -> None:
        """Marks errors, and takes marks away; what has changed since somebody saw it is another error, and stays as it is."""
        keys = {number: key for key, number in self.tables.ids.items()} if wishes else {}
        for word, number, note, who in wishes:
            if number not in keys:
                continue
            self.tables.write(cursor, self.judge.marked(word, [keys[number]]), self.judge)
            is_exception = self.judge.errors.by_key[keys[number]].mark == 'exception'
            if word == 'mark' and is_exception:
                self.tables.except_error(cursor, number, who, note)
            elif word == 'unmark' and not is_exception:
                self.tables.drop_exception(cursor, number)

    def write_log(self, transactions: list[Transaction]) -> None:
        """Writes when the errors of each transaction stood in the tables, if it was asked to."""
        if self.log:
            now = time.time()
            self.log.write(''.join('%s %.6f %d\n' % (of.xid, now, len(transactions)) for of in transactions))
            self.log.flush()

    # ---- the loop

    def answer(self) -> None:
        """Answers a commit that asks, when all before it is taken."""
        while self.batch():
            pass
        guest = self.door.guest()
        guest.say(self.judge.trial([edit for edit in guest.edits() if edit.place[0] in self.setting.kinds]))

    def serve(self) -> None:
        """Takes what comes, woken by a notification, at the latest after half a second."""
        while True:
            while self.batch():
                pass
            runs = [self.judge.run, self.judge.lens.run] if self.judge else []
            ready = select.select([self.ear, *([self.door] if self.door else []), *runs], [], [], POLL)[0]
            for run in runs:
                if run in ready:                           # nothing was asked, so this is its end
                    run.read()
            if self.door in ready:
                self.answer()
            if self.ear in ready:
                self.ear.poll()
                self.ear.notifies.clear()


class Keeper:
    """Keeps a service: whenever the link, the run of topo or a transaction fails, a new one begins, after a pause that grows while none
    does."""

    def __init__(self, dsn: str, program: list[str], log: Optional[TextIO] = None) -> None:
        self.dsn, self.program, self.log = dsn, program, log
        self.pause, self.has_begun = FIRST_PAUSE, False

    def run_once(self) -> None:
        service = Service(self.dsn, self.program, self.log)
        try:
            service.begin()
            self.pause, self.has_begun = FIRST_PAUSE, True
            service.serve()
        finally:
            service.close()

    def rest(self, fault: Exception) -> None:
        say('%s; it begins anew in %d s' % (str(fault).strip().split('\n')[0], self.pause))
        time.sleep(self.pause)
        self.pause = min(2 * self.pause, LONGEST_PAUSE)

    def run(self) -> None:
        """Until it is ended from outside; raises what keeps the first service from beginning."""
        while True:
            try:
                self.run_once()
            except Anew as why:
                say('%s: it begins anew' % why)
            except (psycopg2.Error, Ended, Occupied, OSError) as fault:
                if not self.has_begun:
                    raise
                self.rest(fault)
