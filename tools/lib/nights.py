"""The folder of a map that is checked each night: each night has a folder of its own in it, and `current` names the last one that is whole."""
from __future__ import annotations

import contextlib
import fcntl
import os
import re
import shutil
import time
from typing import Iterator, Optional

from .frame import ToolError
from .outputs import synced

# What a night is named, what names the last whole one, where one is made, and where the next link is.
NAME = re.compile(r'[0-9]{4}-[0-9]{2}-[0-9]{2}T[0-9]{6}(?:-[0-9]+)?')
CURRENT, MADE, LINK, LOCK, NIGHTS = 'current', '.night', '.current', '.lock', 'nights'


@contextlib.contextmanager
def locked(folder: str) -> Iterator[None]:
    """Holds the folder; a ToolError where another night is at work in it."""
    with open(os.path.join(folder, LOCK), 'w', encoding='utf-8') as lock:
        try:
            fcntl.flock(lock, fcntl.LOCK_EX | fcntl.LOCK_NB)
        except BlockingIOError:
            raise ToolError('another night is at work in %s' % folder) from None
        yield


class Nights:
    """The nights of a folder. What is made stands beside them until it is whole and on the disk; then one rename makes it current."""

    def __init__(self, folder: str) -> None:
        self.folder = folder

    def path(self, *names: str) -> str:
        return os.path.join(self.folder, *names)

    def current(self) -> Optional[str]:
        """The folder of the last whole night; none before the first one."""
        if not os.path.islink(self.path(CURRENT)):
            return None
        return self.path(os.readlink(self.path(CURRENT)))

    def names(self) -> list[str]:
        return sorted(filter(NAME.fullmatch, os.listdir(self.path(NIGHTS))))

    def begin(self) -> str:
        """An empty folder for what is made; what a night left that was cut off is removed."""
        shutil.rmtree(self.path(MADE), ignore_errors=True)
        os.makedirs(self.path(NIGHTS), exist_ok=True)
        current = self.current()
        for name in self.names():
            if current is None or name > os.path.basename(current):
                shutil.rmtree(self.path(NIGHTS, name))
        os.mkdir(self.path(MADE))
        return self.path(MADE)

    def free_name(self) -> str:
        """A name for this night that comes behind all others."""
        name = time.strftime('%Y-%m-%dT%H%M%S')
        last = max(self.names(), default='')
        if name > last:
            return name
        stem, _, number = last.rpartition('-') if last.count('-') > 2 else (last, '', '0')
        return '%s-%06d' % (stem, int(number) + 1)

    def end(self) -> str:
        """Makes what was made current: all of it is on the disk before it has a name, and it has one before it is current."""
        for name in os.listdir(self.path(MADE)):
            synced(self.path(MADE, name))
        synced(self.path(MADE))
        name = self.free_name()
        os.rename(self.path(MADE), self.path(NIGHTS, name))
        synced(self.path(NIGHTS))
        with contextlib.suppress(FileNotFoundError):
            os.remove(self.path(LINK))
        os.symlink(os.path.join(NIGHTS, name), self.path(LINK))
        os.replace(self.path(LINK), self.path(CURRENT))
        synced(self.folder)
        return self.path(NIGHTS, name)

    def keep(self, count: int) -> None:
        """Removes all but so many of the last nights."""
        for name in self.names()[:-count]:
            shutil.rmtree(self.path(NIGHTS, name))
