"""The journal of a service: files of sealed groups, appended and synced, read again by a recovery."""
from __future__ import annotations

import errno
import os
from datetime import datetime, timezone
from typing import BinaryIO, Iterator

from ..outputs import synced
from .records import NO_SEAL, Block, Damaged, Group, GroupReader, Kept, Torn, group_text, head_text
from .store import Store, move

END = '.journal'
NO_ROOM = errno.ENOSPC, errno.EDQUOT, errno.EFBIG


class NoRoom(Exception):
    """The disk is full: nothing of the group was kept, and the journal is as it was."""


def now() -> str:
    """The time, in UTC and milliseconds."""
    return datetime.now(timezone.utc).isoformat(timespec='milliseconds').replace('+00:00', 'Z')


def files_of(folder: str) -> list[str]:
    """The files of a journal in a folder, in the order of their lines."""
    return [os.path.join(folder, name) for name in sorted(os.listdir(folder)) if name.endswith(END)]


class Reading:
    """Reads the groups of files that follow one another; the first begins after line `start` or earlier.

    `last`, `seal` and `size` are of what has been read: the last line, its seal, and the bytes of its file. What is torn at the very end is
    left out: `torn` says where it begins in the last file, and is negative where nothing is. Raises Damaged.
    """

    def __init__(self, paths: list[str], start: int) -> None:
        self.paths = paths
        self.start = start
        self.last, self.seal, self.size, self.torn = -1, NO_SEAL, 0, -1

    def groups(self) -> Iterator[Group]:
        for path in self.paths:
            with open(path, 'rb') as file:
                reader = self.reader(file, path)
                self.size = reader.end
                yield from self.of_file(reader)

    def reader(self, file: BinaryIO, path: str) -> GroupReader:
        reader = GroupReader(file, path)
        follows = reader.last <= self.start if self.last < 0 else (reader.last, reader.seal) == (self.last, self.seal)
        if not follows:
            raise Damaged('%s does not follow what was kept before it' % path)
        self.last, self.seal = reader.last, reader.seal
        return reader

    def of_file(self, reader: GroupReader) -> Iterator[Group]:
        try:
            for group in reader.groups():
                self.last, self.seal, self.size = reader.last, reader.seal, reader.end
                yield group
        except Torn as torn:
            if reader.path != self.paths[-1]:
                raise Damaged('%s is damaged after line %d' % (reader.path, reader.last)) from None
            self.torn = torn.end


def truncate(path: str, size: int) -> None:
    """Takes the end off a file, and syncs it."""
    file = os.open(path, os.O_WRONLY)
    try:
        os.ftruncate(file, size)
        os.fsync(file)
    finally:
        os.close(file)


def write_whole(file: int, text: bytes) -> None:
    rest = memoryview(text)
    while rest:
        rest = rest[os.write(file, rest):]


class Journal:
    """The journal that a service appends to; its methods may run in another thread, one at a time."""

    def __init__(self, store: Store) -> None:
        self.store = store
        self.file = -1
        self.path = ''
        self.size = 0
        self.last = 0
        self.seal = NO_SEAL
        self.torn = 0

    def recover(self, start: int) -> Iterator[Group]:
        """All groups of the journal from line `start` on; when they end, the journal is ready to be appended to."""
        reading = Reading(files_of(self.store.journal), start)
        yield from reading.groups()
        if not reading.paths:
            self.last = start
            self.begin_file()
            return
        if reading.last < start:
            raise Damaged('the journal ends with line %d, and the project was saved after line %d' % (reading.last, start))
        self.path = reading.paths[-1]
        if reading.torn >= 0:
            self.torn = os.path.getsize(self.path) - reading.torn
            truncate(self.path, reading.torn)
        self.last, self.seal, self.size = reading.last, reading.seal, reading.size
        self.file = self.opened(self.path)

    @staticmethod
    def opened(path: str) -> int:
        return os.open(path, os.O_WRONLY | os.O_APPEND | os.O_CLOEXEC)

    def begin_file(self) -> None:
        """Goes on in a new file; the one before it stays as it is. An OSError leaves all as it was."""
        path = os.path.join(self.store.journal, '%012d%s' % (self.last + 1, END))
        if path == self.path:
            return
        head = head_text(self.last, self.seal)
        try:
            move(self.store.write('journal', head), path)
            file = self.opened(path)
        except OSError:
            if os.path.exists(path):
                os.unlink(path)
            raise
        if self.file >= 0:
            os.close(self.file)
        self.path, self.size, self.file = path, len(head), file

    def append(self, lines: list[Kept], blocks: list[Block]) -> None:
        """Keeps these lines: when it returns, they are on the disk. Raises NoRoom where they were not kept; an OSError where nobody
        knows."""
        text, seal = group_text(lines, blocks, self.seal)
        try:
            write_whole(self.file, text)
            self.sync()
        except OSError as error:
            os.ftruncate(self.file, self.size)
            self.sync()
            if error.errno in NO_ROOM:
                raise NoRoom(os.strerror(error.errno)) from None
            raise
        self.size += len(text)
        self.last, self.seal = lines[-1].number, seal

    def sync(self) -> None:
        os.fdatasync(self.file)

    def kept_between(self, start: int, last: int) -> Iterator[Kept]:
        """The kept lines after line `start` up to line `last`, which was kept before this call."""
        for group in Reading(files_of(self.store.journal), start).groups():
            yield from (kept for kept in group.lines if start < kept.number <= last)
            if group.lines[-1].number >= last:
                return

    def archive(self, line: int) -> None:
        """Moves the files all of whose lines stand in the project that was saved after this line to the archive."""
        paths = files_of(self.store.journal)
        for path, following in zip(paths, paths[1:]):
            if int(os.path.basename(following)[:-len(END)]) > line + 1:
                break
            os.replace(path, os.path.join(self.store.archive, os.path.basename(path)))
        synced(self.store.archive)
        synced(self.store.journal)

    def close(self) -> None:
        if self.file >= 0:
            os.close(self.file)
            self.file = -1
