"""One client: its lines come in, its replies go out, and neither may hold up the others."""
from __future__ import annotations

import asyncio
from typing import AsyncIterator, Callable, NamedTuple, Optional

from ..replies import MOST_BYTES
from .rights import Client, Verdict, fields
from .service import Item, Service

PIECE = 1 << 16
# A client has at most so many lines and bytes on their way; more of them wait with it.
MOST_PENDING, MOST_PENDING_BYTES = 256, 4 << 20
# A batch has at most so many lines and bytes.
MOST_BATCH, MOST_BATCH_BYTES = 1000, 4 << 20
# After so many lines of one piece others have their turn.
TURN = 64
# A listing waits for a client that has more bytes than this still to take.
BEHIND = 1 << 20
# At its end a connection waits so long, in seconds, until the client has taken its last replies; and, once it is let go, so long for more.
FAREWELL, SILENCE = 5.0, 0.5


class Bounds(NamedTuple):
    """What a client may take: seconds for a line from its first byte to its LF, or for a batch; bytes of replies that wait for it."""

    line_seconds: float = 60.0
    buffer: int = 64 << 20


class LetGo(Exception):
    """The client is let go; `code` is what it is told."""

    def __init__(self, code: str) -> None:
        super().__init__(code)
        self.code = code


class Connection:
    """The lines and replies of one client."""

    def __init__(self, reader: asyncio.StreamReader, writer: asyncio.StreamWriter, rights: Callable[[], Optional[Client]], name: str,
                 service: Service, bounds: Bounds, tell: Callable[[str], None]) -> None:
        self.reader = reader
        self.writer = writer
        self.rights = rights
        self.name = name
        self.service = service
        self.bounds = bounds
        self.tell = tell
        self.pending = self.pending_bytes = 0
        self.free = asyncio.Event()
        self.free.set()
        self.out: list[bytes] = []
        self.out_bytes = 0
        self.buffer = bytearray()
        self.deadline: Optional[float] = None
        self.is_gone = False
        self.batch: list[Item] = []
        self.batch_left = self.batch_bytes = 0

    # As a receiver of replies

    def send(self, piece: bytes) -> None:
        """Takes a piece of a reply; what comes in one turn of the loop goes out together."""
        if not self.out:
            asyncio.get_running_loop().call_soon(self.flush)
        self.out.append(piece)
        self.out_bytes += len(piece)
        if self.out_bytes > BEHIND:
            self.flush()

    def flush(self) -> None:
        pieces, self.out, self.out_bytes = self.out, [], 0
        if self.is_gone or not pieces:
            return
        self.writer.write(b''.join(pieces))
        if self.behind() > self.bounds.buffer:
            self.tell('%s reads nothing: let go' % self.name)
            self.abort()

    def answered(self, size: int) -> None:
        self.pending -= 1
        self.pending_bytes -= size
        self.free.set()

    async def breathe(self, until: float) -> None:
        """Waits while this client is behind, but not beyond that moment of the loop."""
        while not self.is_gone and self.behind() > BEHIND and asyncio.get_running_loop().time() < until:
            await asyncio.sleep(0.005)

    def behind(self) -> int:
        """How many bytes of replies wait for the client."""
        return self.writer.transport.get_write_buffer_size() + self.out_bytes

    def abort(self) -> None:
        self.is_gone = True
        self.writer.transport.abort()

    # Its lines

    async def run(self) -> None:
        """Serves the client until it or the service ends the connection."""
        try:
            async for line in self.lines():
                await self.take(line)
            if self.buffer or self.batch_left:
                self.tell('%s left within a line or a batch: that is dropped' % self.name)
        except LetGo as gone:
            self.tell('%s is let go: %s' % (self.name, gone.code))
            self.refuse(gone.code)
            await self.settle()
            await self.hear_out()
        except OSError:
            self.is_gone = True
        await self.leave()

    async def settle(self) -> None:
        """Waits until all its lines are answered."""
        while self.pending:
            self.free.clear()
            await self.free.wait()
        self.flush()

    async def hear_out(self) -> None:
        """Takes what it still sends, and forgets it: so it is not cut off before it has read why."""
        end = asyncio.get_running_loop().time() + FAREWELL
        try:
            if self.writer.can_write_eof():
                self.writer.write_eof()
            text = b'..'
            while text and asyncio.get_running_loop().time() < end:
                text = await asyncio.wait_for(self.reader.read(PIECE), SILENCE)
        except (OSError, asyncio.TimeoutError):
            pass

    async def leave(self) -> None:
        """Answers all its lines, and takes leave."""
        await self.settle()
        if not self.is_gone:
            self.writer.close()
            try:
                await asyncio.wait_for(self.writer.wait_closed(), FAREWELL)
            except (OSError, asyncio.TimeoutError):
                pass
        self.abort()

    async def lines(self) -> AsyncIterator[bytes]:
        """Its lines, without their LF. Raises LetGo."""
        while text := await self.read():
            self.buffer += text
            if b'\n' in text:
                *whole, rest = bytes(self.buffer).split(b'\n')
                self.buffer = bytearray(rest)
                self.deadline = self.deadline if self.batch_left else None
                for number, line in enumerate(whole, 1):
                    self.check_length(len(line) - line.endswith(b'\r'))
                    yield line
                    if number % TURN == 0:
                        await asyncio.sleep(0)
            self.check_length(len(self.buffer) - 1)

    @staticmethod
    def check_length(size: int) -> None:
        if size > MOST_BYTES:
            raise LetGo('E02')

    async def read(self) -> bytes:
        """The next bytes; within a line or a batch they must come in time."""
        if not self.buffer and not self.batch_left:
            return await self.reader.read(PIECE)
        now = asyncio.get_running_loop().time()
        if self.deadline is None:
            self.deadline = now + self.bounds.line_seconds
        try:
            return await asyncio.wait_for(self.reader.read(PIECE), max(self.deadline - now, 0.001))
        except asyncio.TimeoutError:
            raise LetGo('slow') from None

    async def take(self, line: bytes) -> None:
        """Sends a line on its way, or keeps it for its batch."""
        client = self.rights()
        if client is None:
            raise LetGo('forbidden')
        if self.service.is_closing:
            raise LetGo('stopping')
        verdict = client.verdict(line)
        if self.batch_left:
            self.take_of_batch(line, verdict, client.name)
        elif verdict is Verdict.OWN and fields(line, 1)[0] == b'batch':
            self.begin_batch(line)
        elif verdict is not Verdict.SKIPPED:
            self.put([self.item(line, verdict, client.name)])
            await self.has_room(verdict)

    def item(self, line: bytes, verdict: Verdict, name: str) -> Item:
        item = Item(self, name, line, verdict)
        if verdict is Verdict.FORBIDDEN:
            item.refuse('forbidden')
        elif verdict is Verdict.OWN:
            item.answer = self.own_answer(fields(line, 2), name)
        return item

    def own_answer(self, words: list[bytes], name: str) -> Callable[[], bytes]:
        """What the service itself says."""
        if words == [b'last']:
            return lambda: self.service.last_text(name)
        return self.service.status_text if words == [b'status'] else lambda: b'refused E01\n'

    def put(self, items: list[Item]) -> None:
        self.pending += len(items)
        self.pending_bytes += sum(len(item.line) for item in items)
        self.service.put(items)

    def refuse(self, code: str) -> None:
        item = Item(self, self.name, b'', Verdict.OWN)
        item.refuse(code)
        self.put([item])

    async def has_room(self, verdict: Verdict) -> None:
        """Waits until the next line may go on its way: not while a listing of this client is being answered."""
        while self.pending >= MOST_PENDING or self.pending_bytes >= MOST_PENDING_BYTES or verdict is Verdict.LISTING and self.pending:
            self.free.clear()
            await self.free.wait()

    # Batches

    def begin_batch(self, line: bytes) -> None:
        """Begins a batch of so many lines, remarks and blank lines among them; its own reply comes before theirs."""
        words = fields(line, 3)
        if len(words) != 2 or not words[1].isdigit() or not 1 <= int(words[1][:9]) <= MOST_BATCH:
            raise LetGo('batch')
        text = b'ok %d\n' % int(words[1])
        self.batch_left, self.batch_bytes = int(words[1]), 0
        self.batch = [Item(self, self.name, b'', Verdict.OWN, lambda: text)]

    def take_of_batch(self, line: bytes, verdict: Verdict, name: str) -> None:
        self.batch_left -= 1
        if verdict is not Verdict.SKIPPED:
            self.batch.append(self.item(line, verdict, name))
        self.batch_bytes += len(line)
        if self.batch_bytes > MOST_BATCH_BYTES:
            raise LetGo('batch')
        if not self.batch_left:
            self.put(self.batch)
            self.batch = []
