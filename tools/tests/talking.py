"""What a test needs that talks to the program through pipes."""
from __future__ import annotations

import fcntl
import os
import struct
import subprocess
import termios
import threading
from contextlib import contextmanager
from typing import IO, Iterator

# No reply takes this long, in seconds.
LONG = 60


def bytes_in(pipe: int) -> int:
    """How many bytes stand in a pipe, of which this is an end."""
    return struct.unpack('i', fcntl.ioctl(pipe, termios.FIONREAD, bytes(4)))[0]


def wait_until_taken(process: subprocess.Popen) -> None:
    """Until the program has read all that is in the pipe, or has ended."""
    while bytes_in(process.stdin.fileno()) and process.poll() is None:
        os.sched_yield()


def send(process: subprocess.Popen, text: bytes) -> None:
    process.stdin.write(text)
    process.stdin.flush()


@contextmanager
def watched(process: subprocess.Popen) -> Iterator[subprocess.Popen]:
    """The process is killed after a long time, and at the end, if it is still there; its pipes are closed then."""
    watch = threading.Timer(LONG, process.kill)
    watch.start()
    try:
        yield process
    finally:
        watch.cancel()
        process.kill()
        process.wait()
        for pipe in process.stdin, process.stdout:
            if pipe is not None:
                close_quietly(pipe)


def close_quietly(pipe: IO[bytes]) -> None:
    """Closes it, also where what is left in its buffer has no reader any more."""
    try:
        pipe.close()
    except BrokenPipeError:
        pass
