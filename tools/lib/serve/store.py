"""Where a service keeps what must not be lost: a folder of its own, and how files come into it."""
from __future__ import annotations

import fcntl
import hashlib
import json
import os
from typing import NamedTuple

from ..outputs import synced
from .records import Damaged

PROJECT = '.project'
# The project that a service began with; it stays, since the archive begins with it.
FIRST = '%012d%s' % (0, PROJECT)
FOLDERS = 'journal', 'archive', 'projects', 'work'


class Last(NamedTuple):
    """What was kept of a client last: how many of its lines, the number of the last one, and the reply to that."""

    lines: int
    number: int
    reply: str


class Pair(NamedTuple):
    """A saved project, the line up to which it was saved, and what was kept of each client by then."""

    line: int
    project: str
    sha256: str
    names: dict[str, Last]


def move(source: str, target: str) -> None:
    """Gives a synced file its place, and syncs both folders."""
    os.replace(source, target)
    for folder in {os.path.dirname(source), os.path.dirname(target)}:
        synced(folder)


def sum_of_file(path: str) -> str:
    """SHA-256 of a file, in hexadecimal digits."""
    found = hashlib.sha256()
    with open(path, 'rb') as file:
        while piece := file.read(1 << 20):
            found.update(piece)
    return found.hexdigest()


class Store:
    """The folder of a service: its pair, its projects, its journal, its archive, and a place for what is not whole yet."""

    def __init__(self, folder: str) -> None:
        self.folder = os.path.abspath(folder)
        self.journal, self.archive, self.projects, self.work = (os.path.join(self.folder, name) for name in FOLDERS)
        self.pair_path = os.path.join(self.folder, 'pair')
        self.lock = -1

    def take(self) -> None:
        """Makes the folder where it is missing, and locks it; BlockingIOError where another service has it."""
        for path in (self.folder, self.journal, self.archive, self.projects, self.work):
            os.makedirs(path, mode=0o750, exist_ok=True)
        synced(self.folder)
        self.lock = os.open(os.path.join(self.folder, 'lock'), os.O_CREAT | os.O_RDWR | os.O_CLOEXEC, 0o640)
        fcntl.flock(self.lock, fcntl.LOCK_EX | fcntl.LOCK_NB)

    def release(self) -> None:
        if self.lock >= 0:
            os.close(self.lock)
            self.lock = -1

    def is_new(self) -> bool:
        return not os.path.exists(self.pair_path)

    def project_path(self, pair: Pair) -> str:
        return os.path.join(self.projects, pair.project)

    def write(self, name: str, text: bytes) -> str:
        """Writes a file in the place for what is not whole yet, and syncs it; its path."""
        path = os.path.join(self.work, name)
        with open(path, 'wb') as out:
            out.write(text)
            out.flush()
            os.fsync(out.fileno())
        return path

    def write_pair(self, pair: Pair) -> None:
        text = json.dumps({**pair._asdict(), 'names': {name: list(last) for name, last in pair.names.items()}}, indent=1)
        move(self.write('pair', text.encode() + b'\n'), self.pair_path)

    def read_pair(self) -> Pair:
        """The pair, whose project is as it was saved; Damaged where it is not."""
        try:
            with open(self.pair_path, encoding='utf-8') as file:
                told = json.load(file)
            names = {name: Last(*last) for name, last in told['names'].items()}
            pair = Pair(int(told['line']), str(told['project']), str(told['sha256']), names)
        except (ValueError, KeyError, TypeError, AttributeError) as error:
            raise Damaged('%s is not the text of a pair: %s' % (self.pair_path, error)) from None
        path = self.project_path(pair)
        if not os.path.isfile(path) or sum_of_file(path) != pair.sha256:
            raise Damaged('%s is not the project that was saved' % path)
        return pair

    def begin(self, saved: str) -> Pair:
        """The first pair, of a project that was saved in the place for what is not whole yet."""
        synced(saved)
        pair = Pair(0, FIRST, sum_of_file(saved), {})
        move(saved, self.project_path(pair))
        self.write_pair(pair)
        return pair

    def remove_others(self, pair: Pair) -> None:
        """Removes the projects that are neither the pair's nor the first."""
        for name in set(os.listdir(self.projects)) - {pair.project, FIRST}:
            os.unlink(os.path.join(self.projects, name))

    def clear_work(self, ending: str = '') -> None:
        """Removes what was left half done: all of it, or the files of this ending."""
        for name in os.listdir(self.work):
            if name.endswith(ending):
                os.unlink(os.path.join(self.work, name))
