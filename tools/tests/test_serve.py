"""The service for several desks: nothing is lost, nobody holds up the others, and who may not, cannot.

The long form of the first is `tools/tests/kill_service`.
"""
from __future__ import annotations

import os
import re
import resource
import shlex
import shutil
import signal
import socket
import ssl
import subprocess
import sys
import tempfile
import threading
import time
import types
import unittest
from typing import Optional, cast

from lib.serve.journal import Journal
from lib.serve.records import NO_SEAL, Block, Damaged, GroupReader, Kept, Torn, group_text, head_text
from lib.serve.replay import MOST
from lib.serve.rights import Rights, Verdict, WrongRights, fields
from lib.serve.service import RESERVE, Item, Receiver, Service, Settings
from lib.serve.snapshots import Snapshots
from lib.serve.store import Store
from serving import Desk, Office, SecureDesk, Serving, free_port, own_user, rights_text
from working import PROGRAM, TOOLS, Case

HERE = os.path.dirname(os.path.abspath(__file__))
OTHER_USER = 65534
# A reply that waits for nobody comes sooner, in seconds, also on a busy machine.
SOON = 15
IS_ROOT = os.geteuid() == 0
RIGHTS = rights_text(ann='user=%s editor=ann steward=yes mark=yes' % own_user())
# How often the service comes to a place before the test wants it to be killed there.
TIMES = {'torn': '3', 'unsynced': '3', 'kept': '3', 'archived': '2', 'removed': '2'}
WELLS = 'class wells point', 'rule point_must_be_disjoint wells', 'begin ann'


class Served(Case):
    """A test of a service that is killed at the end, where it still runs; in memory, if the system has a place for that."""

    def setUp(self) -> None:
        self.folder = tempfile.mkdtemp(dir='/dev/shm' if os.path.isdir('/dev/shm') else None)
        self.addCleanup(shutil.rmtree, self.folder)

    def serve(self, *words: str, rights: str = RIGHTS, program: Optional[list[str]] = None, start: bool = True) -> Serving:
        serving = Serving(self.folder, rights, *words, program=program)
        self.addCleanup(serving.end)
        return serving.start() if start else serving

    def desk(self, serving: Serving, uid: Optional[int] = None) -> Desk:
        desk = Desk(serving, uid)
        self.addCleanup(desk.close)
        return desk

    def ask(self, desk: Desk, *lines: str) -> list[str]:
        return [reply for line in lines for reply in desk.ask(line)]

    def same_as_replay(self, serving: Serving, desk: Desk) -> None:
        """What it lists is what one replay of all kept lines lists."""
        script = serving.script()
        listed = [line for listing in ('rules', 'errors', 'dirty', 'features') for line in desk.ask(listing)]
        self.assertEqual(self.replay('\n'.join(script + ['rules', 'errors', 'dirty', 'features']) + '\n')[len(script):], listed)


class NothingLost(Served):
    @unittest.skipUnless(shutil.which('openssl'), 'openssl is not installed')
    def test_killed_under_sixteen_editors(self) -> None:
        done = self.run_words([sys.executable, os.path.join(HERE, 'kill_service'), '--kills', '5', '--folder', self.folder, *PROGRAM])
        self.assertEqual((done.status, done.told), (0, ''), done.out)
        self.assertIn('0 wrong', done.out)

    def test_killed_at_each_place(self) -> None:
        """A line is synced, or a project is saved anew, and the service is killed there: it stands where it stood."""
        serving = self.serve('--save-each', '8', start=False)
        lines = list(WELLS) + ['by ann add wells POINT (%d 4)' % x for x in range(7)] + ['end ann', 'begin ann']
        for turn, place in enumerate(('torn', 'unsynced', 'kept', 'saved', 'synced', 'placed', 'named', 'archived', 'removed')):
            with self.subTest(place):
                desk = self.desk(serving.start(place, TIMES.get(place, '1')))
                count = int(desk.ask('last')[0].split()[1])
                told = []
                for line in lines if not turn else ['begin ann', *lines[3:], 'end ann']:
                    if not (reply := desk.ask(line)):
                        break
                    told.append((line, reply))
                self.assertEqual(serving.wait(), -signal.SIGKILL)
                after = self.desk(serving.start())
                kept = int(after.ask('last')[0].split()[1])
                self.assertIn(kept - count, (len(told), len(told) + 1))
                self.assertEqual(serving.script()[count:count + len(told)], [line for line, _ in told])
                self.same_as_replay(serving, after)
                self.ask(after, 'end ann')
                self.assertEqual(serving.stop(), 0)
        self.assertLessEqual(len(os.listdir(os.path.join(serving.town, 'projects'))), 2)

    def test_a_full_disk(self) -> None:
        """Lines are refused while no room is left, nothing is lost, and it goes on."""
        limit = 20000
        serving = self.serve(start=False).start(before=lambda: resource.setrlimit(resource.RLIMIT_FSIZE, (limit, resource.RLIM_INFINITY)))
        desk = self.desk(serving)
        self.ask(desk, *WELLS)
        replies = [desk.ask('by ann add wells POINT (%d %d)' % (i % 100, i // 100))[0] for i in range(400)]
        full = replies.index('refused full')
        self.assertEqual(replies[full:], ['refused full'] * (400 - full))
        self.assertEqual(replies[:full], ['ok %d' % (i + 1) for i in range(full)])
        self.assertEqual(desk.ask('last'), ['ok %d %d ok %d' % (full + 3, full + 3, full)])
        self.assertEqual(desk.ask('features')[-1], 'total %d' % full)
        resource.prlimit(serving.process.pid, resource.RLIMIT_FSIZE, (resource.RLIM_INFINITY, resource.RLIM_INFINITY))
        self.assertEqual(desk.ask('by ann add wells POINT (500 500)'), ['ok %d' % (full + 1)])
        serving.end()
        desk = self.desk(serving.start())
        self.assertEqual(desk.ask('last'), ['ok %d %d ok %d' % (full + 4, full + 4, full + 1)])
        self.same_as_replay(serving, desk)
        self.assertIn(b'no line is kept', serving.told())

    @unittest.skipUnless(IS_ROOT, 'only root can mount a small disk')
    def test_a_small_disk_that_is_full(self) -> None:
        """The same on a file system of its own, where a project cannot be saved either."""
        place = self.path('disk')
        os.mkdir(place)
        if subprocess.run(['mount', '-t', 'tmpfs', '-o', 'size=200k', 'tmpfs', place], capture_output=True).returncode:
            self.skipTest('nothing can be mounted here')
        self.addCleanup(lambda: subprocess.run(['umount', '-l', place]))
        serving = Serving(place, RIGHTS, '--save-each', '2000')
        self.addCleanup(serving.end)
        serving.told_path = self.path('told')
        desk = self.desk(serving.start())
        self.ask(desk, *WELLS)
        with open(os.path.join(place, 'ballast'), 'wb') as ballast:
            ballast.write(bytes(140000))
        count = 0
        while (reply := desk.ask('by ann add wells POINT (%d %d)' % (count % 100, count // 100))) == ['ok %d' % (count + 1)]:
            count += 1
        self.assertEqual((reply, count > 100), (['refused full'], True))
        os.unlink(os.path.join(place, 'ballast'))
        self.assertEqual(desk.ask('by ann add wells POINT (500 500)'), ['ok %d' % (count + 1)])
        serving.end()
        desk = self.desk(serving.start())
        self.assertEqual(desk.ask('features')[-1], 'total %d' % (count + 1))
        self.same_as_replay(serving, desk)

    def test_a_disk_that_reports_an_error(self) -> None:
        """The service stops, since nobody knows what the disk has; what was answered stands."""
        serving = self.serve(start=False)
        desk = self.desk(serving.start('broken', '4'))
        self.assertEqual(self.ask(desk, *WELLS), ['ok 1', 'ok 1', 'ok'])
        self.assertEqual(desk.ask('by ann add wells POINT (1 1)'), [])
        self.assertEqual(serving.wait(), 1)
        self.assertIn(b'Input/output error', serving.told())
        self.assertEqual(self.desk(serving.start()).ask('last'), ['ok 3 3 ok'])

    def test_a_torn_end_is_dropped_and_told(self) -> None:
        serving = self.serve()
        self.ask(self.desk(serving), *WELLS)
        serving.end()
        path = os.path.join(serving.town, 'journal', '000000000001.journal')
        with open(path, 'ab') as out:
            out.write(b'l 4 2026-12-01T00:00:00.000Z ann by ann add we')
        desk = self.desk(serving.start())
        self.assertIn(b'46 bytes that were never answered: dropped', serving.told())
        self.assertEqual(desk.ask('last'), ['ok 3 3 ok'])
        self.assertEqual(desk.ask('by ann add wells POINT (1 1)'), ['ok 1'])

    def damaged(self, serving: Serving, old: bytes, new: bytes, told: bytes) -> None:
        path = os.path.join(serving.town, 'journal', '000000000001.journal')
        with open(path, 'rb') as file:
            text = file.read()
        with open(path, 'wb') as out:
            out.write(text.replace(old, new, 1))
        self.assertEqual(serving.start().wait(), 3)
        self.assertIn(told, serving.told())
        with open(path, 'wb') as out:
            out.write(text)

    def test_a_damaged_journal_stops_the_service(self) -> None:
        serving = self.serve()
        self.ask(self.desk(serving), *WELLS, 'by ann add wells POINT (1 1)', 'by ann add wells POINT (2 2)')
        serving.end()
        self.damaged(serving, b'POINT (1 1)', b'POINT (1 7)', b'is damaged after line 3')
        self.damaged(serving, b'POINT (2 2)', b'POINT (2 7)', b'is damaged after line 4')
        self.damaged(serving, b'topo journal 1 after 0', b'topo journal 1 after 9', b'does not follow')
        self.assertEqual(serving.start().process.poll(), None)

    def test_another_project_stops_the_service(self) -> None:
        serving = self.serve()
        serving.end()
        with open(os.path.join(serving.town, 'projects', '000000000000.project'), 'ab') as out:
            out.write(b'\n')
        self.assertEqual(serving.start().wait(), 3)
        self.assertIn(b'is not the project that was saved', serving.told())

    def test_a_program_that_replies_otherwise_stops_the_service(self) -> None:
        serving = self.serve()
        desk = self.desk(serving)
        self.ask(desk, *WELLS)
        desk.send(b''.join(b'by ann add wells POINT (%d 1)\n' % x for x in range(1100)))
        self.assertEqual([desk.reply() for _ in range(1100)][-1], ['ok 1100'])
        self.ask(desk, 'by ann undo')
        serving.end()
        with open(self.path('other'), 'w', encoding='utf-8') as out:
            out.write('#!/bin/sh\n"$0".program "$@" | sed -u s/^ok\\ 7$/ok\\ 8/\n')
        os.chmod(self.path('other'), 0o755)
        with open(self.path('other.program'), 'w', encoding='utf-8') as out:
            out.write('#!/bin/sh\nexec %s "$@"\n' % ' '.join(PROGRAM))
        os.chmod(self.path('other.program'), 0o755)
        serving.words[serving.words.index('--program') + 1] = self.path('other')
        self.assertEqual(serving.start().wait(), 3)
        self.assertIn(b'the replies to lines 1 to 1000 are not those that were given', serving.told())

    def test_saved_anew_while_editing(self) -> None:
        """Each project that is saved, and each run that is begun anew, replies as the first would."""
        serving = self.serve('--save-each', '50', '--run-bytes', '5000')
        desk = self.desk(serving)
        self.ask(desk, *WELLS[:2])
        turn, end = 0, time.monotonic() + 30
        while (serving.told().count(b'saved: ') < 3 or b'begun anew' not in serving.told()) and time.monotonic() < end:
            turn += 1
            lines = ['begin ann', *['by ann add wells POINT (%d %d)' % (x, turn % 1000) for x in range(20)], 'validate all', 'by ann undo', 'end ann']
            desk.send(''.join(line + '\n' for line in lines).encode())
            self.assertEqual([desk.reply()[0][:2] for _ in lines], ['ok'] * len(lines))
        self.same_as_replay(serving, desk)
        self.assertEqual(serving.stop(), 0)
        self.assertGreater(serving.told().count(b'saved: '), 2)
        self.assertIn(b'begun anew', serving.told())
        self.same_as_replay(serving, self.desk(serving.start()))
        self.assertGreater(len(os.listdir(os.path.join(serving.town, 'archive'))), 1)

    def test_sessions_that_never_end_are_ended(self) -> None:
        """Where a run becomes long, or a session has no line for long, the service ends it by a line of its own."""
        serving = self.serve('--run-bytes', '2000', '--idle', '1')
        desk = self.desk(serving)
        self.ask(desk, *WELLS)
        for x in range(200):
            self.ask(desk, 'by ann add wells POINT (%d 0)' % x)
        end = time.monotonic() + 20
        while b'begun anew' not in serving.told() and time.monotonic() < end:
            time.sleep(0.05)
        self.assertIn(b'begun anew', serving.told())
        self.assertEqual(self.ask(desk, 'by ann undo', 'begin ann'), ['refused E12', 'ok'])
        end = time.monotonic() + 20
        while desk.ask('end ann') == ['ok'] and time.monotonic() < end:
            self.ask(desk, 'begin ann')
            time.sleep(2.5)
        self.assertIn(('-', b'end ann'), [(kept.name, kept.line) for kept in serving.kept()])


class LongRuns(unittest.TestCase):
    def test_what_does_not_fit_into_the_run_is_refused(self) -> None:
        """All of a group or nothing of it, but what the service itself says."""
        for sent, want in ((MOST - RESERVE - 20, [None, None, None]), (MOST - RESERVE - 19, [b'refused later\n', b'refused later\n', None])):
            somebody = cast(Receiver, object())
            group = [Item(somebody, 'ann', b'by ann un', Verdict.KEPT), Item(somebody, 'ann', b'by ann re', Verdict.KEPT),
                     Item(None, '-', b'end ann', Verdict.KEPT)]
            Service.check_room(cast(Service, types.SimpleNamespace(live=types.SimpleNamespace(sent=sent))), group)
            self.assertEqual([item.answer and item.answer() for item in group], want)

    def test_sessions_are_ended_only_if_one_was_open_all_the_time(self) -> None:
        """A run that grew while a project was saved is no reason to end anybody's session."""
        settings = Settings(run_bytes=1000)
        for sent, open_bytes, saving, want in ((2000, 1000, None, True), (9000, 999, None, False), (1999, 1500, None, False), (2000, 1000, 'a task', False)):
            run = types.SimpleNamespace(live=types.SimpleNamespace(sent=sent), open_bytes=open_bytes, saving=saving, settings=settings, retry_at=0.0)
            self.assertIs(Service.is_too_long(cast(Service, run)), want)

    def test_saving_leaves_what_the_journal_makes_meanwhile(self) -> None:
        with tempfile.TemporaryDirectory() as folder:
            store = Store(folder)
            store.take()
            self.addCleanup(store.release)
            for name in 'journal', '1-1.project':
                store.write(name, b'half')
            Snapshots(store, Journal(store), []).clear()
            self.assertEqual(os.listdir(store.work), ['journal'])


class Records(unittest.TestCase):
    """A file of a journal, cut and changed at each byte."""

    def setUp(self) -> None:
        first, seal = group_text([Kept(1, 'now', 'ann', b'class lots polygon')], [], NO_SEAL)
        second, self.seal = group_text([Kept(2, 'now', 'bob', b's 1 \0'), Kept(3, 'now', 'bob', b'')], [Block(1, 1, 'a' * 32)], seal)
        self.head = head_text(0, NO_SEAL)
        self.groups = [first, second]
        self.text = self.head + first + second

    def read(self, text: bytes) -> tuple[int, object]:
        """How many groups are read, and how it ends."""
        import io
        count = 0
        try:
            for group in GroupReader(io.BytesIO(text), 'it').groups():
                count += 1
        except (Damaged, Torn) as error:
            return count, type(error)
        return count, None

    def test_cut_at_each_byte(self) -> None:
        ends = [len(self.head), len(self.head) + len(self.groups[0]), len(self.text)]
        for size in range(len(self.text) + 1):
            whole = sum(end <= size for end in ends[1:])
            want = (0, Damaged) if size < ends[0] else (whole, None if size in ends else Torn)
            self.assertEqual(self.read(self.text[:size]), want, size)

    def test_each_byte_changed(self) -> None:
        for at in range(len(self.head), len(self.text)):
            for byte in 0, ord('s'), ord('\n'), self.text[at] ^ 1:
                if byte != self.text[at]:
                    changed = self.text[:at] + bytes([byte]) + self.text[at + 1:]
                    count, end = self.read(changed)
                    self.assertIs(end, Damaged, (at, byte, count))

    def test_blocks_that_were_never_written(self) -> None:
        torn = self.text + b'l 4 now ann' + bytes(600) + b'\ns 4 ' + b'0' * 32 + b'\n'
        self.assertEqual(self.read(torn), (2, Torn))


class StrangeClients(Served):
    """None of them holds up the others."""

    def setUp(self) -> None:
        super().setUp()
        self.serving = self.serve('--line-seconds', '1', '--buffer', '200000', '--clients', '20', '--clients-of-name', '12')
        self.good = self.desk(self.serving)
        self.ask(self.good, *WELLS)

    def is_well(self) -> None:
        start = time.monotonic()
        self.assertEqual(self.good.ask('by ann change 1 POINT (1 1)')[0][:2], 're')
        self.assertLess(time.monotonic() - start, SOON)

    def test_a_line_of_two_mebibytes(self) -> None:
        strange = self.desk(self.serving)
        strange.send(b'#' * (2 << 20))
        self.assertEqual((strange.reply(), strange.reply()), (['refused E02'], []))
        self.is_well()
        self.assertIn(b'ann is let go: E02', self.serving.told())

    def test_the_longest_line(self) -> None:
        strange = self.desk(self.serving)
        strange.send(b'validate ' + b'x' * (1048576 - 9) + b'\r\n')
        self.assertEqual(strange.reply(), ['refused E01'])
        strange.send(b'x' * 1048577 + b'\n')
        self.assertEqual(strange.reply(), ['refused E02'])
        self.assertEqual(strange.reply(), [])

    def test_half_a_line_and_never_more(self) -> None:
        strange, trickling = self.desk(self.serving), self.desk(self.serving)
        strange.send(b'by ann delete 1')
        start = time.monotonic()
        trickling.send(b'b')
        while time.monotonic() < start + 0.8:
            trickling.send(b'y')
            time.sleep(0.1)
        self.assertEqual((strange.reply(), trickling.reply()), (['refused slow'], ['refused slow']))
        self.assertLess(time.monotonic() - start, SOON)
        leaving = self.desk(self.serving)
        leaving.send(b'by ann add wells POINT (7 7)')
        leaving.socket.shutdown(socket.SHUT_WR)
        self.assertEqual(leaving.reply(), [])
        self.assertEqual(self.good.ask('features'), ['total 0'])

    def test_silent_clients_and_too_many(self) -> None:
        inside = [self.desk(self.serving) for _ in range(11)]
        for desk in inside:
            self.assertEqual(desk.ask('errors'), ['total 0'])
        self.assertEqual(self.desk(self.serving).reply(), ['refused many'])
        self.is_well()
        inside[0].close()
        time.sleep(0.2)
        self.assertEqual(self.desk(self.serving).ask('errors'), ['total 0'])

    def test_ten_thousand_connections(self) -> None:
        """As many at once as the system lets this test have, up to ten thousand."""
        soft, hard = resource.getrlimit(resource.RLIMIT_NOFILE)
        count = 10000 if hard == resource.RLIM_INFINITY else min(10000, hard - 200)
        resource.setrlimit(resource.RLIMIT_NOFILE, (count + 200, hard))
        self.addCleanup(resource.setrlimit, resource.RLIMIT_NOFILE, (soft, hard))
        before, inside = self.memory(), []
        for number in range(count):
            inside.append(socket.socket(socket.AF_UNIX))
            inside[-1].connect(self.serving.socket)
            if number % 1000 == 0:
                self.is_well()
        self.is_well()
        self.assertLess(self.memory() - before, 20000)
        for each in inside:
            each.close()
        self.assertIn(b'turned away', self.serving.told())

    def memory(self) -> int:
        """Resident memory of the service, in KiB."""
        with open('/proc/%d/status' % self.serving.process.pid, encoding='utf-8') as file:
            return int(re.search(r'VmRSS:\s+(\d+)', file.read())[1])

    def test_a_client_that_reads_nothing(self) -> None:
        self.ask(self.good, *['by ann add wells POINT (%d 9)' % x for x in range(500)])
        before = self.memory()
        strange = self.desk(self.serving)
        try:
            for _ in range(200):
                strange.send(b'features\n' * 10)
        except OSError:
            pass
        end = time.monotonic() + 20
        while b'reads nothing' not in self.serving.told() and time.monotonic() < end:
            self.assertEqual(self.good.ask('by ann change 1 POINT (1 1)'), ['ok'])
        self.assertIn(b'ann reads nothing: let go', self.serving.told())
        self.assertLess(self.memory() - before, 20000)

    def test_odd_bytes(self) -> None:
        strange = self.desk(self.serving)
        for text, want in ((b'by ann delete \0\n', 'refused E01'), (b'by \xff\xfe add\n', 'refused forbidden'), (b'\0\n', 'refused E01'),
                           (b'\r\n# remark\n \t\nerrors\r\n', 'total 0'), (b'by  ann\tdelete  9 \n', 'refused E19')):
            strange.send(text)
            self.assertEqual(strange.reply(), [want], text)

    def test_a_listing_holds_up_edits_no_longer_than_it_takes(self) -> None:
        self.good.send(b''.join(b'by ann add wells POINT (%d %d)\n' % (i % 100, i // 100) for i in range(1000)))
        for _ in range(1000):
            self.good.reply()
        stop = threading.Event()
        lister = self.desk(self.serving)

        def list_on() -> None:
            while not stop.is_set():
                lister.ask('features')

        thread = threading.Thread(target=list_on)
        thread.start()
        slowest = 0.0
        for _ in range(20):
            start = time.monotonic()
            self.assertEqual(self.good.ask('by ann change 1 POINT (1 1)'), ['ok'])
            slowest = max(slowest, time.monotonic() - start)
        stop.set()
        thread.join()
        self.assertLess(slowest, SOON)


class Batches(Served):
    def test_no_line_parts_a_batch(self) -> None:
        rights = rights_text(ann='user=%s editor=ann steward=yes' % own_user())
        serving = self.serve(rights=rights)
        self.ask(self.desk(serving), *WELLS)
        desks = [self.desk(serving) for _ in range(5)]

        def work(desk: Desk, number: int) -> None:
            for turn in range(30):
                desk.send(b'batch 4\n# a remark\n' + b'by ann add wells POINT (%d %d)\n' % (number, turn) * 3)
                self.assertEqual(desk.reply(), ['ok 4'])
                handles = [int(desk.reply()[0][3:]) for _ in range(3)]
                self.assertEqual(handles, list(range(handles[0], handles[0] + 3)))

        threads = [threading.Thread(target=work, args=(desk, number)) for number, desk in enumerate(desks)]
        for thread in threads:
            thread.start()
        for thread in threads:
            thread.join()
        lines = serving.script()[3:]
        self.assertEqual((len(lines), [lines[i:i + 3] for i in range(0, 450, 3)]), (450, [[line] * 3 for line in lines[::3]]))

    def test_what_is_no_batch(self) -> None:
        serving = self.serve('--line-seconds', '0.5')
        for text in (b'batch\n', b'batch 0\n', b'batch 1001\n', b'batch x\n', b'batch 2 2\n'):
            desk = self.desk(serving)
            desk.send(text)
            self.assertEqual((desk.reply(), desk.reply()), (['refused batch'], []))
        desk = self.desk(serving)
        desk.send(b'batch 2\nclass wells point\n')
        self.assertEqual(desk.reply(), ['refused slow'])
        self.assertEqual(serving.script(), [])


class WhoMay(Served):
    def test_the_lines_of_another(self) -> None:
        """What a client may say, by the rights; no refused line reaches the journal."""
        serving = self.serve(rights=rights_text(bob='user=%s editor=bob' % own_user()))
        desk = self.desk(serving)
        for line in ('begin ann', 'end ann', 'discard ann', 'by ann add wells POINT (1 1)', 'by\tann delete 1', 'by annbob delete 1', 'by', 'begin',
                     'class wells point', 'rule point_must_be_disjoint wells', 'droprule 1', 'mark 1 1 0', 'unmark 1 1 0', 'version 1', 'BY bob undo'):
            self.assertEqual(desk.ask(line), ['refused forbidden'], line)
        self.assertEqual(serving.script(), [])
        self.assertEqual(self.ask(desk, 'begin bob', 'by bob undo', 'validate all', 'errors', 'end bob'),
                         ['ok', 'refused E22', 'ok judged 0 errors 0 dirty 0', 'total 0', 'ok'])

    def test_who_only_looks(self) -> None:
        serving = self.serve(rights=rights_text(eve='user=%s' % own_user()))
        self.assertEqual(self.ask(self.desk(serving), 'begin eve', 'by eve undo', 'features', 'validate all', 'corners 1 1 0'),
                         ['refused forbidden', 'refused forbidden', 'total 0', 'ok judged 0 errors 0 dirty 0', 'refused E25'])
        self.assertEqual(serving.script(), ['validate all'])

    @unittest.skipUnless(IS_ROOT, 'only root can be another user')
    def test_the_socket_of_another_user(self) -> None:
        serving = self.serve('--mode', '666', rights=rights_text(ann='user=%s editor=ann' % own_user(), bob='user=12345 editor=bob'))
        os.chmod(self.folder, 0o755)
        self.assertEqual(self.desk(serving, OTHER_USER).reply(), ['refused forbidden'])
        self.assertEqual(self.ask(self.desk(serving, 12345), 'begin ann', 'begin bob'), ['refused forbidden', 'ok'])
        self.assertEqual(self.ask(self.desk(serving), 'begin ann', 'begin bob'), ['ok', 'refused forbidden'])
        self.assertIn(b'user 65534 is not in the file of rights', serving.told())

    def test_a_user_who_is_not_in_the_file(self) -> None:
        serving = self.serve(rights=rights_text(ann='user=nobody-here editor=ann'))
        self.assertEqual(self.desk(serving).reply(), ['refused forbidden'])

    @unittest.skipUnless(IS_ROOT, 'only root can be another user')
    def test_the_mode_of_the_socket(self) -> None:
        serving = self.serve('--mode', '600')
        os.chmod(self.folder, 0o755)
        with self.assertRaises(PermissionError):
            Desk(serving, OTHER_USER)

    @unittest.skipUnless(shutil.which('openssl'), 'openssl is not installed')
    def test_certificates(self) -> None:
        office, other, port = Office(self.path('office'), ['ann', 'bob', 'carl']), Office(self.path('other'), ['ann']), free_port()
        serving = self.serve(*office.words(port), rights=rights_text(ann='certificate=ann editor=ann', bob='certificate=bob editor=bob'))
        desk = SecureDesk(office, port, 'ann')
        self.addCleanup(desk.close)
        self.assertEqual(self.ask(desk, 'begin bob', 'begin ann'), ['refused forbidden', 'ok'])
        unlisted = SecureDesk(office, port, 'carl')
        self.addCleanup(unlisted.close)
        self.assertEqual(unlisted.reply(), ['refused forbidden'])
        for name, of in ((None, office), ('ann', other)):
            self.assertIsNone(self.secure_reply(of, port, name, office))
        plain = socket.create_connection(('127.0.0.1', port))
        self.addCleanup(plain.close)
        plain.sendall(b'begin ann\n')
        self.assertNotIn(b'ok', plain.recv(100))
        self.assertEqual(self.ask(desk, 'by ann undo'), ['refused E22'])
        self.no_secret(serving, office)

    @unittest.skipUnless(shutil.which('openssl'), 'openssl is not installed')
    def test_the_desk_of_the_examples(self) -> None:
        office, port = Office(self.path('office'), ['bob']), free_port()
        serving = self.serve(*office.words(port), rights=RIGHTS + rights_text(bob='certificate=bob editor=bob'))
        desk = os.path.join(os.path.dirname(TOOLS), 'examples', 'desk')
        self.assertEqual(self.run_words([desk, serving.socket], b'# wells\nclass wells point\n\nfeatures\nbegin bob\n').out,
                         'ok 1\ntotal 0\nrefused forbidden\n')
        files = [office.path(name) for name in ('authority.pem', 'bob.pem', 'bob.key')]
        done = self.run_words([desk, '127.0.0.1:%d' % port, *files], b'begin bob\nby bob add wells POINT (1 1)\n')
        self.assertEqual((done.out, done.told), ('ok\nok 1\n', ''))

    def secure_reply(self, of: Office, port: int, name: Optional[str], office: Office) -> Optional[bytes]:
        """The reply to one who comes with a certificate of this name and authority; none where there is none."""
        context = of.context(name)
        context.load_verify_locations(office.path('authority.pem'))
        try:
            with context.wrap_socket(socket.create_connection(('127.0.0.1', port), 10), server_hostname='127.0.0.1') as desk:
                desk.sendall(b'errors\n')
                return desk.recv(100) or None
        except (ssl.SSLError, OSError):
            return None

    def no_secret(self, serving: Serving, office: Office) -> None:
        """No line of a key stands in what was told, or in any file of the service."""
        texts = [serving.told()]
        for folder, _, names in os.walk(serving.town):
            for name in names:
                with open(os.path.join(folder, name), 'rb') as file:
                    texts.append(file.read())
        for name in os.listdir(office.folder):
            if name.endswith('.key'):
                with open(office.path(name), 'rb') as file:
                    for line in file.read().splitlines()[1:-1]:
                        self.assertFalse(any(line in text for text in texts))

    def test_rights_that_are_read_again(self) -> None:
        serving = self.serve()
        desk = self.desk(serving)
        self.ask(desk, *WELLS)
        serving.write_rights('[ann\n')
        serving.process.send_signal(signal.SIGHUP)
        time.sleep(0.3)
        self.assertEqual(desk.ask('by ann add wells POINT (1 1)'), ['ok 1'])
        serving.write_rights(rights_text(bob='user=%s editor=bob' % own_user()))
        serving.process.send_signal(signal.SIGHUP)
        self.assertEqual(desk.reply(), [])
        self.assertEqual(self.ask(self.desk(serving), 'by ann undo', 'begin bob'), ['refused forbidden', 'ok'])

    def test_files_of_rights(self) -> None:
        for text, want in (('[a b]', 'no name of a client'), ('[a]\neditor=1x', 'no name of an editor'), ('[a]\nrights=all', 'no key `rights`'),
                           ('[a]\nmark=perhaps', 'Not a boolean'), ('[a]\n[a]', 'already exists'), ('a=b', 'no section headers'),
                           ('[a]\neditor=x\n[b]\neditor=x', 'same editor'), ('[a]\nuser=x\n[b]\nuser=x', 'same user')):
            with self.subTest(text), self.assertRaisesRegex(WrongRights, want):
                path = '/proc/self/fd/%d' % self.file_of(text)
                Rights.read(path)

    def file_of(self, text: str) -> int:
        file = os.memfd_create('rights')
        self.addCleanup(os.close, file)
        os.write(file, text.encode())
        return file

    def test_fields(self) -> None:
        self.assertEqual(fields(b' by\t ann  add\r', 2), [b'by', b'ann'])
        self.assertEqual(fields(b'by', 2), [b'by'])
        self.assertEqual(fields(b'end ann\r', 3), [b'end', b'ann'])


class Started(Served):
    def test_one_service_a_folder(self) -> None:
        first = self.serve()
        second = Serving(self.folder, RIGHTS)
        second.told_path = self.path('told of the second')
        self.addCleanup(second.end)
        second.socket = second.words[second.words.index('--socket') + 1] = self.path('another socket')
        self.assertEqual(second.start().wait(), 1)
        self.assertIn(b'another service has', second.told())
        self.assertEqual(self.desk(first).ask('errors'), ['total 0'])

    def test_begun_with_a_project(self) -> None:
        self.run_words(PROGRAM + ['replay', '-', 'saved'], b'class wells point\nbegin ann\nby ann add wells POINT (3 4)\n')
        serving = self.serve('--from', self.path('saved'))
        self.assertEqual(self.desk(serving).ask('features'), ['feature 1 wells POINT (3 4)', 'total 1'])

    def test_all_that_was_kept(self) -> None:
        serving = self.serve()
        self.ask(self.desk(serving), *WELLS, 'by ann undo', 'errors')
        self.assertEqual(self.tool('serve', serving.town, '--script').out.splitlines(), [*WELLS, 'by ann undo'])
        told = self.tool('serve', serving.town, '--log').out.splitlines()
        self.assertRegex(told[3], r'^4 20\d\d-\d\d-\d\dT\d\d:\d\d:\d\d\.\d{3}Z ann by ann undo$')

    def test_stopped_while_lines_are_on_their_way(self) -> None:
        serving = self.serve()
        desk = self.desk(serving)
        self.ask(desk, *WELLS)
        desk.send(b''.join(b'by ann add wells POINT (%d 1)\n' % x for x in range(200)))
        self.assertEqual(desk.reply(), ['ok 1'])
        self.assertEqual(serving.stop(), 0)
        answered = 1
        while (reply := desk.reply()) and reply[0].startswith('ok'):
            answered += 1
        self.assertEqual(self.desk(serving.start()).ask('last'), ['ok %d %d ok %d' % (answered + 3, answered + 3, answered)])

    def test_wrong_words(self) -> None:
        for words in ('town',), ('town', '--rights', 'r', '--listen', 'localhost:1'), ('town', '--rights', 'r', '--key', 'k'), ():
            self.assertEqual(self.tool('serve', *words).status, 2)
        self.assertEqual(self.tool('serve', 'town', '--rights', 'missing').status, 1)
        with open(self.path('rights'), 'w', encoding='utf-8') as out:
            out.write(RIGHTS)
        rest = ['--rights', 'rights', '--program', shlex.join(PROGRAM)]
        self.assertIn('nowhere to listen', self.tool('serve', 'town', *rest).told)
        self.assertIn('status 11', self.tool('serve', 'new', *rest, '--socket', 's', '--from', 'missing').told)

    def test_one_service_a_socket(self) -> None:
        first = self.serve()
        second = Serving(self.path('second'), RIGHTS)
        self.addCleanup(second.end)
        second.words[second.words.index('--socket') + 1] = first.socket
        self.assertEqual(second.start().wait(), 1)
        self.assertEqual(self.desk(first).ask('errors'), ['total 0'])

    def test_started_by_systemd(self) -> None:
        """A socket that was opened before, and a word when it is ready."""
        told = socket.socket(socket.AF_UNIX, socket.SOCK_DGRAM)
        self.addCleanup(told.close)
        told.bind(self.path('notify'))
        told.settimeout(20)
        listener = socket.socket(socket.AF_UNIX)
        self.addCleanup(listener.close)
        listener.bind(self.path('socket'))
        listener.listen()
        serving = self.serve(start=False)
        at = serving.words.index('--socket')
        del serving.words[at:at + 2]
        shell = 'exec 3<&%d; export LISTEN_FDS=1 LISTEN_PID=$$ NOTIFY_SOCKET=%s; exec "$@"' % (listener.fileno(), self.path('notify'))
        words = ['sh', '-c', shell, 'sh', sys.executable, os.path.join(TOOLS, 'serve'), serving.town, *serving.words]
        with open(serving.told_path, 'wb') as out:
            serving.process = subprocess.Popen(words, pass_fds=[listener.fileno()], stderr=out)
        self.assertEqual(told.recv(100), b'READY=1')
        self.assertEqual(self.ask(self.desk(serving), *WELLS), ['ok 1', 'ok 1', 'ok'])
        self.assertEqual(serving.stop(), 0)
        self.assertEqual(told.recv(100), b'STOPPING=1')


if __name__ == '__main__':
    unittest.main()
