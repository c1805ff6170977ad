"""One run of topo that is kept open: lines go in, replies come out."""
from __future__ import annotations

import fcntl
import os
import subprocess
import threading

# The replies to so few lines fit in a pipe while nobody reads; more lines are written by a thread.
FEW = 200
PIECE = 1 << 20
SET_PIPE_SIZE = 1031


class Ended(Exception):
    """topo ended, or gave a reply that it cannot give; the text says how."""


class Run:
    """A run of `topo replay`; `sent` counts the bytes of its lines."""

    def __init__(self, program: list[str]) -> None:
        self.process = subprocess.Popen(program + ['replay'], stdin=subprocess.PIPE, stdout=subprocess.PIPE, bufsize=0)
        self.rest = b''
        self.sent = 0
        for pipe in (self.process.stdin, self.process.stdout):
            widen(pipe.fileno())

    def fileno(self) -> int:
        """What can be read when topo has ended, since nothing is asked meanwhile."""
        return self.process.stdout.fileno()

    def read(self) -> bytes:
        piece = os.read(self.fileno(), PIECE)
        if not piece:
            raise Ended('topo ended with status %s' % self.process.wait())
        return piece

    def write(self, text: bytes) -> None:
        try:
            view = memoryview(text)
            while view:
                view = view[os.write(self.process.stdin.fileno(), view):]
        except BrokenPipeError:
            pass                                           # the reader learns the status

    def send(self, lines: list[str]) -> None:
        text = ('\n'.join(lines) + '\n').encode('ascii')
        self.sent += len(text)
        if len(lines) < FEW:
            self.write(text)
        else:
            threading.Thread(target=self.write, args=(text,), daemon=True).start()

    def ask(self, lines: list[str]) -> list[str]:
        """The one-line replies to lines that are no listings, in their order."""
        if not lines:
            return []
        self.send(lines)
        pieces, count = [self.rest], self.rest.count(b'\n')
        while count < len(lines):
            pieces.append(self.read())
            count += pieces[-1].count(b'\n')
        replies = b''.join(pieces).decode('ascii').split('\n')
        self.rest = replies.pop().encode()
        if len(replies) != len(lines):
            raise Ended('topo gave %d replies to %d lines' % (len(replies), len(lines)))
        return replies

    def listing(self, word: str) -> bytes:
        """The lines of a listing, without its total; each ends with LF."""
        self.send([word])
        pieces = [self.rest, self.read()]
        while not is_whole(pieces):
            pieces.append(self.read())
        self.rest = b''
        text = b''.join(pieces)
        return text[:text.rstrip(b'\n').rfind(b'\n') + 1]

    def close(self) -> None:
        self.process.kill()
        self.process.wait()
        for pipe in (self.process.stdin, self.process.stdout):
            pipe.close()


def widen(pipe: int) -> None:
    """Lets a pipe hold a megabyte, where the system allows it."""
    try:
        fcntl.fcntl(pipe, SET_PIPE_SIZE, PIECE)
    except OSError:
        pass


def is_whole(pieces: list[bytes]) -> bool:
    """Whether the last line of the pieces is the total of a listing."""
    if not pieces[-1].endswith(b'\n'):
        return False
    tail = b''.join(pieces[-2:])[-40:]
    last = tail[:-1].rsplit(b'\n', 1)[-1]
    return last.startswith(b'total ') and (len(last) < len(tail) - 1 or len(pieces) == 2)
