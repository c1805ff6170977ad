"""A script is answered as it comes: each reply before the next line is sent, and how much is read by the time a write fails."""
from __future__ import annotations

import fcntl
import os
import resource
import select
import signal
import subprocess
import time
import unittest
from typing import Callable, NamedTuple, Optional

from lib.replies import reply_of
from talking import bytes_in, send, wait_until_taken, watched
from working import PROGRAM, Case

# So many bytes are read at a time, at most.
PIECE = 65536
# What a pipe is told to hold.
ROOM = 4096
# Longer than a reply takes that waits for nothing, in seconds.
SOON = 0.1

WELLS = [
    ('class wells point', 'ok 1\n'), ('rule point_must_be_disjoint wells', 'ok 1\n'), ('begin ann', 'ok\n'), ('# two wells', ''),
    ('by ann add wells POINT (3 4)', 'ok 1\n'), ('by ann add wells POINT (3 4)', 'ok 2\n'),
]
LISTING = ('dirty', 'dirty -4194304 -4194304 4194304 4194304\ntotal 1\n')
LONG_SCRIPT = WELLS + [LISTING] * 200000

# A line of each kind, after those above, with its reply.
TALK = [
    (b'', ''), (b' \t', ''), (b'\r', ''), (b' # a remark', ''), (b'#' * 1048576, ''), (b'#' * 1048577, 'refused E02\n'),
    (b'x' * 65535, 'refused E01\n'), (b'x' * 65536, 'refused E01\n'), (b'frobnicate', 'refused E01\n'), (b'dirty all', 'refused E01\n'),
    (b'\xff\xfe', 'refused E01\n'), (b'by ann add wells POINT (1 1', 'refused E01\n'), (b'class wells line', 'refused E03\n'),
    (b'class lots polygon\r', 'ok 2\n'), (b'rule polygon_must_not_overlap lots', 'ok 2\n'), (b'begin bob', 'ok\n'),
    (b'by bob add lots POLYGON ((0 0, 9 0, 0 9, 0 0))', 'ok 3\n'),
    (b'by bob add lots POLYGON ((0 0, 9 9, 9 0, 0 9, 0 0))', 'refused E18 cross 0 2\n'),
    (b'by bob change 1 POINT (5 5)', 'refused E20 ann\n'), (b'by bob change 3 POLYGON ((0 0, 8 0, 0 8, 0 0))', 'ok\n'),
    (b'by bob undo', 'ok\n'), (b'by bob redo', 'ok\n'), (b'by bob delete 3', 'ok\n'), (b'errors', 'total 0\n'), (b'cells', 'total 0\n'),
    (b'validate 0 0 3 4', 'ok judged 2 errors 1 dirty 4\n'), (b'validate all', 'ok judged 2 errors 1 dirty 0\n'), (b'dirty', 'total 0\n'),
    (b'mark 1 1 2', 'ok\n'), (b'errors', 'exception 1 1 2 cells 3 4 3 4\ntotal 1\n'), (b'unmark 1 1 2', 'ok\n'),
    (b'cells', 'error 1 1 2 cells 3 4 3 4\ncell 1 0 -3 =, 0 1 -4 =\ntotal 1\n'),
    (b'features', 'feature 1 wells POINT (3 4)\nfeature 2 wells POINT (3 4)\ntotal 2\n'),
    (b'rules', 'rule 1 point_must_be_disjoint wells\nrule 2 polygon_must_not_overlap lots\ntotal 2\n'),
    (b'droprule 2', 'ok\n'), (b'end bob', 'ok\n'), (b'discard ann', 'ok\n'), (b'dirty', 'dirty 3 4 3 4\ntotal 1\n'),
    (b'features', 'total 0\n'),
]


class Broken(NamedTuple):
    """How a run ended, and how many bytes of its script it took."""

    status: int
    taken: int


def text_of(lines: list[tuple[str, str]]) -> bytes:
    return ''.join(line + '\n' for line, _ in lines).encode()


def replies_of(lines: list[tuple[str, str]]) -> bytes:
    return ''.join(reply for _, reply in lines).encode()


def upto_line_of(written: int) -> int:
    """The bytes of the long script up to the end of the first line whose reply is not within so many bytes of the replies."""
    at = replied = 0
    for line, reply in LONG_SCRIPT:
        at, replied = at + len(line) + 1, replied + len(reply)
        if replied > written:
            break
    return at


def no_file_beyond(most: int) -> Callable[[], None]:
    """For a child: a write beyond so many bytes of a file fails, and raises no signal."""
    def limit() -> None:
        signal.signal(signal.SIGXFSZ, signal.SIG_IGN)
        resource.setrlimit(resource.RLIMIT_FSIZE, (most, most))
    return limit


def talk() -> subprocess.Popen:
    return subprocess.Popen(PROGRAM + ['replay'], stdin=subprocess.PIPE, stdout=subprocess.PIPE)


def said(process: subprocess.Popen) -> str:
    """The next reply."""
    return ''.join(line + '\n' for line in reply_of(process.stdout))


class Pieces(Case):
    def setUp(self) -> None:
        super().setUp()
        self.script = text_of(LONG_SCRIPT)
        with open(self.path('long.topo'), 'wb') as out:
            out.write(self.script)

    def broken(self, out: int, words: tuple[str, ...] = (), limit: Optional[Callable[[], None]] = None,
               meanwhile: Callable[[], None] = lambda: None) -> Broken:
        """Replays the long script from a file. Its place in the file, which the program shares, tells what was taken."""
        with open(self.path('long.topo'), 'rb', buffering=0) as source:
            process = subprocess.Popen([*PROGRAM, 'replay', *words], stdin=source, stdout=out, cwd=self.folder, preexec_fn=limit)
            with watched(process):
                meanwhile()
                return Broken(process.wait(), os.lseek(source.fileno(), 0, os.SEEK_CUR))

    def assert_soon(self, taken: int, upto: int) -> None:
        """What was taken has the line up to whose end there are so many bytes, and fewer than a piece beyond it."""
        self.assertGreaterEqual(taken, upto)
        self.assertLess(taken, upto + PIECE)

    def test_a_file_that_is_full(self) -> None:
        replies = replies_of(LONG_SCRIPT)
        for most in 0, 1, 4, 5, 6, 20, 200, 5000, 65535, 65536, 65537, 300000, 3000000, len(replies) - 1:
            with self.subTest(most=most):
                with open(self.path('replies'), 'wb') as out:
                    done = self.broken(out.fileno(), limit=no_file_beyond(most))
                with open(self.path('replies'), 'rb') as out:
                    self.assertEqual((done.status, out.read() == replies[:most]), (4, True))
                self.assert_soon(done.taken, upto_line_of(most))

    def test_a_full_device(self) -> None:
        with open('/dev/full', 'wb') as out:
            self.assertEqual(self.broken(out.fileno()), (4, PIECE))

    def test_a_run_that_breaks_off_saves_nothing(self) -> None:
        with open('/dev/full', 'wb') as out:
            self.assertEqual(self.broken(out.fileno(), words=('-', 'target')), (4, PIECE))
        self.assertEqual(os.listdir(self.folder), ['long.topo'])

    def test_a_reader_that_goes_away(self) -> None:
        """It reads the first reply. More than this and what the pipe holds cannot have been written."""
        reader, writer = os.pipe()
        room = fcntl.fcntl(writer, fcntl.F_SETPIPE_SZ, ROOM)

        def read_the_first() -> None:
            os.close(writer)
            self.assertEqual(os.read(reader, 5), b'ok 1\n')
            os.close(reader)
        done = self.broken(writer, meanwhile=read_the_first)
        self.assertEqual(done.status, 4)
        self.assertLess(done.taken, upto_line_of(5 + room) + PIECE)

    def test_a_script_in_a_pipe(self) -> None:
        """What was taken is what was put into the pipe, without what is left there."""
        source, feed = os.pipe()
        os.set_blocking(feed, False)
        rest = memoryview(self.script)
        with open('/dev/full', 'wb') as out, watched(subprocess.Popen(PROGRAM + ['replay'], stdin=source, stdout=out)) as process:
            while process.poll() is None and rest:
                try:
                    rest = rest[os.write(feed, rest):]
                except BlockingIOError:
                    time.sleep(0.001)
            taken = len(self.script) - len(rest) - bytes_in(source)
            os.close(feed)
            os.close(source)
            self.assertEqual(process.wait(), 4)
        self.assertLessEqual(taken, PIECE)

    def test_each_reply_comes_before_the_next_line_is_sent(self) -> None:
        with watched(talk()) as process:
            for line, reply in [(line.encode(), reply) for line, reply in WELLS] + TALK:
                send(process, line + b'\n')
                if reply:
                    self.assertEqual(said(process), reply, line[:60])
            send(process, b'rules')
            process.stdin.close()
            self.assertEqual(process.stdout.read(), b'rule 1 point_must_be_disjoint wells\ntotal 1\n')
            self.assertEqual(process.wait(), 1)

    def test_a_line_is_answered_when_it_has_ended(self) -> None:
        with watched(talk()) as process:
            for part in b'class wells poi', b'nt', b'\r':
                send(process, part)
                self.assertEqual(select.select([process.stdout], [], [], SOON)[0], [])
            send(process, b'\ndirty\nru')
            self.assertEqual((said(process), said(process)), ('ok 1\n', 'total 0\n'))
            self.assertEqual(select.select([process.stdout], [], [], SOON)[0], [])
            send(process, b'les\n')
            self.assertEqual(said(process), 'total 0\n')

    def test_many_replies_to_what_is_sent_at_once(self) -> None:
        """They are more than are collected before a write."""
        lines = WELLS + [LISTING] * 5000
        with watched(talk()) as process:
            send(process, text_of(lines))
            replies = replies_of(lines)
            self.assertTrue(process.stdout.read(len(replies)) == replies)
            self.assertIsNone(process.poll())

    def test_pieces_of_one_byte(self) -> None:
        script = text_of(WELLS) + b''.join(line + b'\n' for line, _ in TALK if len(line) < 1000) + b'rules'
        whole = self.run_words(PROGRAM + ['replay'], script)
        self.assertEqual((whole.status, whole.out[:13]), (1, 'ok 1\nok 1\nok\n'))
        with open(self.path('replies'), 'wb+', buffering=0) as out:
            process = subprocess.Popen(PROGRAM + ['replay'], stdin=subprocess.PIPE, stdout=out, bufsize=0)
            with watched(process):
                for byte in script:
                    process.stdin.write(bytes([byte]))
                    wait_until_taken(process)
                process.stdin.close()
                status = process.wait()
            out.seek(0)
            self.assertEqual((status, out.read().decode()), (whole.status, whole.out))


if __name__ == '__main__':
    unittest.main()
