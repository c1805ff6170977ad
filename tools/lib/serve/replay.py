"""The running program: `topo replay PROJECT` behind two pipes."""
from __future__ import annotations

import asyncio
import contextlib
import os
import re
from collections import deque
from itertools import islice
from typing import Callable, Iterator

from ..replies import ENDS
from .records import Kept

# A reply ends with its first line that begins with one of these.
END = re.compile(b'^(?:%s)[^\n]*\n' % b'|'.join(end.encode() for end in ENDS), re.M)
PIECE = 1 << 16
# The program takes so many bytes in one run.
MOST = 268435456
CHUNK = 250


class Ended(Exception):
    """The program ended, and its output with it; the text says how."""


class Replay:
    """A running program: lines go in, their replies come out in the same order."""

    def __init__(self, process: asyncio.subprocess.Process) -> None:
        assert process.stdin is not None and process.stdout is not None
        self.process = process
        self.input, self.output = process.stdin, process.stdout
        self.sent = 0
        self.rest = b''
        self.ready: deque[tuple[bytes, bool]] = deque()

    @classmethod
    async def start(cls, program: list[str], *files: str) -> 'Replay':
        """Begins with a saved project; where a second file is named, the project is saved there at the end."""
        pipe = asyncio.subprocess.PIPE
        return cls(await asyncio.create_subprocess_exec(*program, 'replay', *files, stdin=pipe, stdout=pipe, start_new_session=True))

    def send(self, text: bytes) -> None:
        """Hands over whole lines; they wait in memory until the program takes them."""
        self.sent += len(text)
        self.input.write(text)

    async def drain(self) -> None:
        try:
            await self.input.drain()
        except ConnectionError:
            pass

    def split(self, text: bytes) -> None:
        """Takes replies apart: whole ones, and of a long listing the lines that are there."""
        start = 0
        for end in END.finditer(text):
            self.ready.append((text[start:end.end()], True))
            start = end.end()
        upto = text.rfind(b'\n') + 1
        if upto - start >= PIECE:
            self.ready.append((text[start:upto], False))
            start = upto
        self.rest = text[start:]

    async def piece(self) -> tuple[bytes, bool]:
        """The next piece of a reply, of whole lines, and whether the reply ends with it. Raises Ended."""
        while not self.ready:
            text = await self.output.read(1 << 18)
            if not text:
                raise Ended('topo ended with status %d' % await self.process.wait())
            self.split(self.rest + text)
        return self.ready.popleft()

    async def reply(self) -> bytes:
        """The next reply. Raises Ended."""
        pieces = []
        whole = False
        while not whole:
            piece, whole = await self.piece()
            pieces.append(piece)
        return b''.join(pieces)

    async def again(self, kept: Iterator[Kept], take: Callable[[Kept, bytes], object]) -> None:
        """Says kept lines again, and hands each with its reply to `take`."""
        while chunk := list(islice(kept, CHUNK)):
            self.send(b''.join(each.line + b'\n' for each in chunk))
            for each in chunk:
                take(each, await self.reply())

    async def close(self) -> int:
        """Closes its input, and lets it end; its status."""
        self.input.close()
        while await self.output.read(1 << 18):
            pass
        return await self.process.wait()

    def calm(self) -> None:
        """Lets others have the processor first; it may have ended already."""
        with contextlib.suppress(ProcessLookupError):
            os.setpriority(os.PRIO_PROCESS, self.process.pid, 10)
