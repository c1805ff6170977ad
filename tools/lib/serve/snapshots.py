"""A saved project in place of the front of the journal: made by a second process, named by one small file."""
from __future__ import annotations

import asyncio
import os
from typing import Callable, Iterator, TypeVar

from ..outputs import synced
from .journal import Journal
from .records import Block
from .replay import Ended, Replay
from .store import PROJECT, Last, Pair, Store, move, sum_of_file
from .sums import Sums

# A project is saved where all of the script was read: no line was refused, or some were.
SAVED = 0, 1
T = TypeVar('T')


class Unsaved(Exception):
    """The project was not saved; the old pair stands."""


async def in_thread(work: Callable[..., T], *words: object) -> T:
    return await asyncio.get_running_loop().run_in_executor(None, work, *words)


class Snapshots:
    """Makes a new pair of an old one and the journal, while the running program goes on.

    Each step leaves the old pair or the new one, wherever it is stopped: a project is written and synced under a name of its own, then
    moved to its place, then named in the pair; only then the files that nobody needs any more are moved away.
    """

    def __init__(self, store: Store, journal: Journal, program: list[str]) -> None:
        self.store = store
        self.journal = journal
        self.program = program
        self.turn = 0

    async def first(self, project: str) -> Pair:
        """The first pair, of a saved project; `-` is the empty one."""
        path = await self.write(project, iter(()), Sums(0))
        return self.store.begin(path)

    async def make(self, old: Pair, line: int, names: dict[str, Last], known: list[Block]) -> Pair:
        """The pair after this line, after which no session was open; an OSError or Unsaved where the disk is full."""
        await in_thread(self.clear)
        kept = self.journal.kept_between(old.line, line)
        path = await self.write(self.store.project_path(old), kept, Sums(old.line, known))
        await in_thread(synced, path)
        pair = Pair(line, '%012d%s' % (line, PROJECT), await in_thread(sum_of_file, path), names)
        await in_thread(self.place, path, pair)
        await in_thread(self.name, pair)
        return pair

    def clear(self) -> None:
        """Removes a project that is not whole. The journal may be making a file of its own beside it at this moment: that stays."""
        self.store.clear_work(PROJECT)

    async def tidy(self, pair: Pair) -> None:
        """Moves away what this pair does without."""
        await in_thread(self.journal.archive, pair.line)
        await in_thread(self.remove, pair)

    async def write(self, project: str, kept: Iterator, sums: Sums) -> str:
        """Says the kept lines to a second process, which saves what they leave behind; the path of that."""
        self.turn += 1
        path = os.path.join(self.store.work, '%d-%d%s' % (os.getpid(), self.turn, PROJECT))
        replay = await Replay.start(self.program, project, path)
        replay.calm()
        try:
            await replay.again(kept, lambda each, reply: sums.add(reply))
            status = await replay.close()
        except Ended as ended:
            raise Unsaved(str(ended)) from None
        if status not in SAVED:
            raise Unsaved('topo ended with status %d' % status)
        return path

    def place(self, path: str, pair: Pair) -> None:
        move(path, self.store.project_path(pair))

    def name(self, pair: Pair) -> None:
        self.store.write_pair(pair)

    def remove(self, pair: Pair) -> None:
        self.store.remove_others(pair)
