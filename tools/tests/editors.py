"""Editors who work at once on a service, and remember what they were told; and whether that is what one replay says."""
from __future__ import annotations

import asyncio
import random
import subprocess
from typing import Optional

from lib.serve.records import Kept
from serving import LONG, Office, Serving, own_user, rights_text
from working import PROGRAM

COUNT = 16
NAMES = ['e%d' % number for number in range(1, COUNT + 1)]
LISTINGS = 'errors', 'dirty', 'rules'
# After so many lines all editors end their sessions once, so that the project can be saved.
LULL = 150


def office_rights() -> str:
    """Of a steward by the unix socket, and of an editor for each certificate."""
    editors = {name: 'certificate=%s editor=%s mark=yes' % (name, name) for name in NAMES}
    return rights_text(steward='user=%s steward=yes' % own_user(), **editors)


class Lull:
    """A moment without a session, from time to time."""

    def __init__(self, editors: int) -> None:
        self.editors = editors
        self.lines = 0
        self.resting = 0
        self.over = asyncio.Event()

    def is_near(self) -> bool:
        return self.lines >= LULL

    async def rest(self) -> None:
        """Until all rest."""
        self.resting += 1
        over = self.over
        if self.resting == self.editors:
            self.lines = self.resting = 0
            self.over = asyncio.Event()
            over.set()
        await over.wait()


class Editor:
    """One editor: what it sent, and what it was told, in order."""

    def __init__(self, name: str, seed: int, office: Office, port: int) -> None:
        self.name = name
        self.random = random.Random('%s %d' % (name, seed))
        self.context = office.context(name)
        self.port = port
        self.said: list[tuple[str, Optional[str]]] = []
        self.pending: list[str] = []
        self.handles: list[str] = []
        self.left = 0
        self.unanswered_kept = self.unanswered_lost = 0

    async def connect(self) -> None:
        """Comes in, and asks whether its last lines, which were not answered, were kept: all of them or none."""
        self.reader, self.writer = await asyncio.open_connection('127.0.0.1', self.port, ssl=self.context, limit=1 << 22)
        _, count, _, *reply = (await self.talk(['last']))[0].split(' ', 3)
        more = int(count) - len(self.said)
        if more not in (0, len(self.pending)):
            raise AssertionError('%s: %d of %d lines without a reply were kept, and %d with one' % (self.name, more, len(self.pending), len(self.said)))
        if more:
            self.said += [(line, None) for line in self.pending[:-1]] + [(self.pending[-1], ''.join(reply))]
        self.unanswered_kept += more
        self.unanswered_lost += len(self.pending) - more
        self.pending = []

    async def talk(self, lines: list[str]) -> list[str]:
        """Sends lines, and waits for all their replies; the last line of each."""
        self.writer.write(''.join(line + '\n' for line in lines).encode())
        found: list[str] = []
        while len(found) < len(lines):
            line = (await self.reader.readline()).decode()
            if not line.endswith('\n'):
                raise ConnectionResetError
            if line.startswith(('ok', 'refused', 'total ')):
                found.append(line.rstrip('\n'))
        return found

    async def say(self, *lines: str) -> None:
        """Sends lines that are to be kept, more than one as a batch, and remembers the replies."""
        self.pending = list(lines)
        head = ['batch %d' % len(lines)] if len(lines) > 1 else []
        told = (await self.talk(head + list(lines)))[len(head):]
        self.said += zip(lines, told)
        self.pending = []
        self.handles += [reply[3:] for line, reply in zip(lines, told) if ' add ' in line and reply.startswith('ok ')]

    def edit(self) -> str:
        """A line of some kind; some are refused."""
        pick = self.random.randrange
        x, y = pick(200), pick(200)
        handle = self.random.choice(self.handles or ['1'])
        lot = 'POLYGON ((%d %d, %d %d, %d %d, %d %d))' % (x, y, x + 1 + pick(9), y, x, y + 1 + pick(9), x, y)
        return self.random.choice([
            'by %s add lots %s' % (self.name, lot), 'by %s add wells POINT (%d %d)' % (self.name, x, y),
            'by %s change %s %s' % (self.name, handle, lot), 'by %s change %d %s' % (self.name, 1 + pick(50), lot),
            'by %s delete %s' % (self.name, handle), 'by %s undo' % self.name, 'by %s redo' % self.name,
            'by %s add lots POLYGON ((0 0, 5' % self.name, 'validate %d %d %d %d' % (x, y, x + 20, y + 20),
        ])

    async def session(self, lull: Lull) -> None:
        """A session from its beginning to its end, or the rest of one; some sessions are one batch."""
        if self.random.random() < 0.2:
            lines = ['begin ' + self.name, *[self.edit() for _ in range(self.random.randrange(1, 6))], 'end ' + self.name]
            await self.say(*lines)
            lull.lines += len(lines)
            return
        await self.say('begin ' + self.name)
        for _ in range(self.random.randrange(1, 30)):
            if self.random.random() < 0.1:
                await self.talk([self.random.choice(LISTINGS)])
            await self.say(self.edit())
            lull.lines += 1
            if lull.is_near():
                break
        await self.say(self.random.choice(['end ', 'end ', 'discard ']) + self.name)

    async def work(self, lull: Lull) -> None:
        """Works until the connection ends."""
        try:
            await self.connect()
            while True:
                if lull.is_near():
                    await self.say('end ' + self.name)
                    await lull.rest()
                await self.session(lull)
        except (OSError, EOFError):
            pass
        finally:
            if hasattr(self, 'writer'):
                self.writer.transport.abort()


async def work_until(editors: list[Editor], seconds: Optional[float], serving: Serving) -> None:
    """All work at once; after so many seconds the service is killed, or it kills itself."""
    lull = Lull(len(editors))
    tasks = [asyncio.create_task(editor.work(lull)) for editor in editors]
    end = asyncio.get_running_loop().time() + (LONG / 4 if seconds is None else seconds)
    while serving.process.poll() is None and asyncio.get_running_loop().time() < end:
        await asyncio.sleep(0.005)
    serving.end()
    for task in tasks:
        task.cancel()
    for result in await asyncio.gather(*tasks, return_exceptions=True):
        if isinstance(result, Exception):
            raise result


async def ask_last(editors: list[Editor]) -> None:
    """All come in once more, so that each knows what was kept of it."""
    for editor in editors:
        await editor.connect()
        editor.writer.transport.abort()


def replies_of(script: list[str]) -> list[str]:
    """The replies to lines each of which has one line of reply."""
    done = subprocess.run(PROGRAM + ['replay'], input=''.join(line + '\n' for line in script).encode(), capture_output=True)
    return done.stdout.decode().splitlines()


def misfits(editors: list[Editor], kept: list[Kept]) -> list[str]:
    """Where what the editors were told is not what one replay of all kept lines says."""
    told = {editor.name: iter(editor.said) for editor in editors}
    replies = replies_of([each.line.decode() for each in kept])
    found = [] if len(replies) == len(kept) else ['%d lines were kept, and one replay has %d replies' % (len(kept), len(replies))]
    for (number, _, name, line), reply in zip(kept, replies):
        if name in told:
            said, heard = next(told[name], ('nothing', None))
            if line.decode() != said or heard not in (None, reply):
                found.append('line %d of %s: kept %r with %r, but it had sent %r and heard %r' % (number, name, line, reply, said, heard))
    found += ['%s heard %r to %r, which was not kept' % (name, *rest[::-1]) for name, said in told.items() for rest in said]
    return found
