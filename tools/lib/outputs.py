"""Files that tools write: beside the name that was asked for, and given that name when they are whole."""
from __future__ import annotations

import contextlib
import io
import os
import secrets
import stat
import sys
from typing import BinaryIO, Iterator, Optional, TextIO, cast

# The files that have no name of their own yet.
BEGUN: set[str] = set()


def in_utf_8(newline: Optional[str] = None) -> TextIO:
    """Standard output, which then writes UTF-8, and a question mark for what no text can have."""
    out = cast(io.TextIOWrapper, sys.stdout)
    out.reconfigure(encoding='utf-8', errors='replace', newline=newline)
    return out


def is_plain(path: str) -> bool:
    """Whether a name is free or is that of a plain file, and not of a pipe or a device."""
    try:
        return stat.S_ISREG(os.stat(path).st_mode)
    except FileNotFoundError:
        return True


def remove(path: str) -> None:
    with contextlib.suppress(FileNotFoundError):
        os.remove(path)


def remove_begun() -> None:
    """Removes what was begun and not ended."""
    for path in list(BEGUN):
        remove(path)


def begun(beside: str, path: str) -> BinaryIO:
    """A new file beside a name; a fault names that name."""
    try:
        return open(os.open(beside, os.O_WRONLY | os.O_CREAT | os.O_EXCL | os.O_NOFOLLOW, 0o666), 'wb')
    except OSError as fault:
        raise OSError(fault.errno, fault.strerror, path) from None


@contextlib.contextmanager
def binary_output(path: str) -> Iterator[BinaryIO]:
    """A file that has this name when it is whole. Where anything fails, what had the name before stays as it was. A link is replaced, not
    followed; a pipe or a device is written as it is."""
    if not is_plain(path):
        with open(path, 'wb') as out:
            yield out
        return
    beside = os.path.join(os.path.dirname(path), '.topo-' + secrets.token_hex(8))
    BEGUN.add(beside)
    try:
        with begun(beside, path) as out:
            yield out
        os.replace(beside, path)
    finally:
        remove(beside)
        BEGUN.discard(beside)


@contextlib.contextmanager
def text_output(path: str) -> Iterator[TextIO]:
    """The same for a text in UTF-8 with LF at the end of its lines; what is no text is replaced."""
    with binary_output(path) as out:
        text = io.TextIOWrapper(out, encoding='utf-8', errors='replace', newline='')
        yield text
        text.flush()
        text.detach()


def synced(path: str) -> None:
    """What stands in a file or a folder is on the disk."""
    opened = os.open(path, os.O_RDONLY)
    try:
        os.fsync(opened)
    finally:
        os.close(opened)
