"""The order of one line: kept and synced, then asked, then answered; and what the service does beside that."""
from __future__ import annotations

import asyncio
import time
from collections import deque
from concurrent.futures import ThreadPoolExecutor
from typing import Callable, Coroutine, NamedTuple, Optional, Protocol

from .journal import Journal, NoRoom, files_of, now
from .ledger import Ledger
from .records import Block, Damaged, Kept
from .replay import MOST, Ended, Replay
from .rights import Verdict
from .snapshots import Snapshots, Unsaved
from .store import Last, Store
from .sums import Different, Sums

# What waits at once goes in together, up to so many lines and bytes.
GROUP_LINES, GROUP_BYTES = 4096, 8 << 20
# The last bytes of a run are for the lines with which the service itself ends sessions.
RESERVE = 1 << 20
# The name in the journal of the service itself.
ITSELF = '-'
# A listing waits so long for a client that is slow to take it, in seconds.
PATIENCE = 0.5
# After a failure to save, the next try comes so much later, in seconds.
RETRY = 30.0


class Receiver(Protocol):
    """Who gets replies."""

    def send(self, piece: bytes) -> None: ...

    def answered(self, size: int) -> None: ...

    async def breathe(self, until: float) -> None: ...


class Item:
    """A line on its way, without its LF; or, where it has an answer, what the service itself says at this place."""

    __slots__ = 'client', 'name', 'line', 'verdict', 'answer', 'parts'

    def __init__(self, client: Optional[Receiver], name: str, line: bytes, verdict: Verdict,
                 answer: Optional[Callable[[], bytes]] = None) -> None:
        self.client = client
        self.name = name
        self.line = line
        self.verdict = verdict
        self.answer = answer
        self.parts: list[bytes] = []

    def refuse(self, word: str) -> None:
        text = b'refused %s\n' % word.encode()
        self.verdict, self.answer = Verdict.OWN, lambda: text


class Settings(NamedTuple):
    """A project is saved anew each so many lines; a run is begun anew after so many bytes; a session without a line for so many
    seconds is ended, with 0 none."""

    save_each: int = 10000
    run_bytes: int = 64 << 20
    idle: float = 0.0


class Service:
    """One running program, one journal, one writer."""

    def __init__(self, store: Store, program: list[str], settings: Settings, tell: Callable[[str], None]) -> None:
        self.store = store
        self.program = program
        self.settings = settings
        self.tell = tell
        self.journal = Journal(store)
        self.snapshots = Snapshots(store, self.journal, program)
        self.thread = ThreadPoolExecutor(1)
        self.waiting: deque[list[Item]] = deque()
        self.some = asyncio.Event()
        self.expected: deque[Item] = deque()
        self.calm = asyncio.Event()
        self.gate = asyncio.Lock()
        self.due: list[Block] = []
        self.blocks: list[Block] = []
        self.saving: Optional[asyncio.Task] = None
        self.answering: Optional[asyncio.Task] = None
        self.new_file = self.is_closing = self.is_keeping = False
        self.retry_at = 0.0
        self.open_bytes = 0
        self.troubles: dict[str, str] = {}
        self.longest = {'listing': 0.0, 'sync': 0.0}
        self.failed: asyncio.Future = asyncio.get_running_loop().create_future()
        self.tasks: list[asyncio.Task] = []

    # Beginning and end

    async def recover(self, first: str) -> None:
        """Stands where the journal ends; begins with the project `first` where there is none yet."""
        self.store.clear_work()
        if self.store.is_new():
            if files_of(self.store.journal):
                raise Damaged('%s is missing, and there is a journal' % self.store.pair_path)
            await self.snapshots.first(first)
        self.pair = self.store.read_pair()
        for group in self.journal.recover(self.pair.line):
            self.blocks += group.blocks
        if self.journal.torn:
            self.tell('the journal ended with %d bytes that were never answered: dropped' % self.journal.torn)
        self.ledger = Ledger(self.pair.line, self.pair.names)
        self.sums = Sums(self.pair.line, self.blocks)
        self.live = await Replay.start(self.program, self.store.project_path(self.pair))
        await self.live.again(self.journal.kept_between(self.pair.line, self.journal.last), self.again)
        await self.snapshots.tidy(self.pair)
        self.tell('recovered: project of line %d, journal up to line %d, %d open sessions'
                  % (self.pair.line, self.journal.last, len(self.ledger.sessions)))

    def again(self, kept: Kept, reply: bytes) -> None:
        self.took(kept.name, kept.line, reply)

    def took(self, name: str, line: bytes, reply: bytes) -> None:
        """A kept line has its reply."""
        self.ledger.take(name, line, reply)
        self.open_bytes = 0 if self.ledger.is_quiet() else self.open_bytes + len(line) + 1
        self.sum_ended(self.sums.add(reply))

    def sum_ended(self, block: Optional[Block]) -> None:
        if block is not None:
            self.blocks.append(block)
            self.due.append(block)

    def start(self) -> None:
        self.calm.set()
        self.answering = self.task(self.answer())
        self.tasks = [self.task(self.commit()), self.task(self.tick())]

    def task(self, work: Coroutine[object, object, None]) -> asyncio.Task:
        """A task whose failure is the service's."""
        task = asyncio.get_running_loop().create_task(work)
        task.add_done_callback(self.ended)
        return task

    def ended(self, task: asyncio.Task) -> None:
        error = None if task.cancelled() else task.exception()
        if error is not None and not self.failed.done():
            self.failed.set_exception(error)

    async def stop(self) -> None:
        """Answers what has come in, and ends."""
        self.is_closing = True
        while (self.waiting or self.is_keeping or self.expected) and not self.failed.done():
            await asyncio.sleep(0.01)
        if self.saving is not None:
            await asyncio.wait([self.saving])
        await self.abandon()
        await self.live.close()

    async def abandon(self) -> None:
        """Ends all tasks as they stand."""
        await self.cancel([*self.tasks, self.answering, self.saving])
        self.thread.shutdown()
        self.journal.close()

    @staticmethod
    async def cancel(tasks: list[Optional[asyncio.Task]]) -> None:
        """Ends these tasks where they wait."""
        running = [task for task in tasks if task is not None]
        for task in running:
            task.cancel()
        await asyncio.gather(*running, return_exceptions=True)

    # Lines on their way

    def put(self, items: list[Item]) -> None:
        """Takes lines that no other line parts."""
        self.waiting.append(items)
        self.some.set()

    def taken(self) -> list[Item]:
        """What goes in together: what waits, up to a bound."""
        group: list[Item] = []
        size = 0
        while self.waiting and len(group) < GROUP_LINES and size < GROUP_BYTES:
            items = self.waiting.popleft()
            group += items
            size += sum(len(item.line) for item in items)
        if not self.waiting:
            self.some.clear()
        return group

    async def commit(self) -> None:
        """Keeps what waits, and hands it to the program, group by group."""
        while True:
            await self.some.wait()
            group, self.is_keeping = self.taken(), True
            self.check_room(group)
            await self.keep([item for item in group if item.verdict is Verdict.KEPT])
            async with self.gate:
                self.hand_over(group)
                self.is_keeping = False
                await self.live.drain()

    def check_room(self, group: list[Item]) -> None:
        """Refuses all of a group that would not fit into the run any more; not what the service itself says."""
        asked = [item for item in group if item.answer is None and item.client is not None]
        if self.live.sent + sum(len(item.line) + 1 for item in asked) > MOST - RESERVE:
            for item in asked:
                item.refuse('later')

    async def keep(self, items: list[Item]) -> None:
        """Writes and syncs these lines; where the disk is full, they are refused."""
        if not items:
            return
        moment, first = now(), self.journal.last + 1
        kept = [Kept(number, moment, item.name, item.line) for number, item in enumerate(items, first)]
        start = time.monotonic()
        due, self.due = self.due, []
        try:
            await asyncio.get_running_loop().run_in_executor(self.thread, self.write, kept, due)
        except NoRoom as full:
            self.due = due + self.due
            self.trouble('journal', 'no line is kept: %s' % full)
            for item in items:
                item.refuse('full')
            return
        self.troubles.pop('journal', None)
        self.longest['sync'] = max(self.longest['sync'], time.monotonic() - start)

    def write(self, kept: list[Kept], due: list[Block]) -> None:
        """In the journal's own thread."""
        if self.new_file:
            try:
                self.journal.begin_file()
            except OSError:
                pass
            self.new_file = False
        self.journal.append(kept, due)

    def hand_over(self, group: list[Item]) -> None:
        text = []
        for item in group:
            self.expected.append(item)
            if item.answer is None:
                text.append(item.line + b'\n')
        self.live.send(b''.join(text))
        self.calm.clear()
        self.say_own()

    def say_own(self) -> None:
        """Says what the service itself answers, as far as it is its turn."""
        while self.expected and (answer := self.expected[0].answer) is not None:
            item = self.expected.popleft()
            self.deliver(item, answer())
            self.release(item)
        if not self.expected:
            self.calm.set()

    @staticmethod
    def deliver(item: Item, piece: bytes) -> None:
        if item.client is not None:
            item.client.send(piece)

    @staticmethod
    def release(item: Item) -> None:
        if item.client is not None:
            item.client.answered(len(item.line))

    async def answer(self) -> None:
        """Hands the replies of the program to those who asked."""
        begun = 0.0
        while True:
            piece, whole = await self.live.piece()
            item = self.expected[0]
            begun = begun or time.monotonic()
            if item.verdict is Verdict.LISTING:
                self.deliver(item, piece)
                await self.breathe(item, begun)
            else:
                item.parts.append(piece)
            if whole:
                self.whole(item, begun)
                begun = 0.0

    async def breathe(self, item: Item, begun: float) -> None:
        if item.client is not None:
            await item.client.breathe(begun + PATIENCE)

    def whole(self, item: Item, begun: float) -> None:
        """The reply to a line is whole."""
        self.expected.popleft()
        if item.verdict is Verdict.LISTING:
            self.longest['listing'] = max(self.longest['listing'], time.monotonic() - begun)
        else:
            reply = b''.join(item.parts)
            self.took(item.name, item.line, reply)
            self.deliver(item, reply)
        self.release(item)
        if self.is_due():
            self.save()
        self.say_own()

    # Saving

    def is_due(self) -> bool:
        """Whether the project is to be saved after the line that was answered last."""
        lines = self.ledger.line - self.pair.line
        enough = lines >= self.settings.save_each or self.live.sent >= self.settings.run_bytes and lines
        return bool(enough) and self.saving is None and self.ledger.is_quiet() and time.monotonic() >= self.retry_at

    def save(self) -> None:
        self.sum_ended(self.sums.close())
        self.new_file = True
        self.saving = self.task(self.saved(self.ledger.line, dict(self.ledger.names), list(self.blocks)))

    async def saved(self, line: int, names: dict[str, Last], known: list[Block]) -> None:
        try:
            self.pair = await self.snapshots.make(self.pair, line, names, known)
            self.blocks = [block for block in self.blocks if block.first > line]
            self.troubles.pop('project', None)
            self.tell('saved: the project of line %d' % line)
            await self.snapshots.tidy(self.pair)
            if self.live.sent >= self.settings.run_bytes:
                await self.renew()
        except (OSError, Unsaved, Ended) as error:
            self.retry_at = time.monotonic() + RETRY
            self.trouble('project', 'the project of line %d is not saved: %s' % (line, error))
        finally:
            self.saving = None

    async def renew(self) -> None:
        """Puts a new process, begun with the saved project, in the place of the running one, between two lines."""
        replay = await Replay.start(self.program, self.store.project_path(self.pair))
        sums = Sums(self.pair.line, self.blocks)
        upto = self.ledger.line
        await replay.again(self.journal.kept_between(self.pair.line, upto), lambda each, reply: sums.add(reply))
        async with self.gate:
            await self.calm.wait()
            if self.ledger.line > upto:
                await replay.again(self.journal.kept_between(upto, self.ledger.line), lambda each, reply: sums.add(reply))
            if not sums.is_as(self.sums):
                raise Different('the saved project does not reply as the running program does')
            old, self.live = self.live, replay
            await self.cancel([self.answering])
            self.answering = self.task(self.answer())
        self.tell('begun anew from line %d' % self.pair.line)
        await old.close()

    # Beside the lines

    def trouble(self, of: str, text: str) -> None:
        """Tells of a trouble, once as long as it lasts."""
        if of not in self.troubles:
            self.tell(text)
        self.troubles[of] = text

    def is_too_long(self) -> bool:
        """Whether the run has become long, and some session was open all the time for so long that no project could be saved."""
        most = self.settings.run_bytes
        return self.live.sent >= 2 * most and self.open_bytes >= most and self.saving is None and time.monotonic() >= self.retry_at

    async def tick(self) -> None:
        """Ends sessions without a line for long, and all of them where the run has become long and none of them ends by itself."""
        while True:
            await asyncio.sleep(1.0)
            editors: list[bytes] = []
            if self.settings.idle:
                editors = self.ledger.idle_since(time.monotonic() - self.settings.idle)
            if self.is_too_long() and not self.ledger.drafts:
                editors = list(self.ledger.sessions)
            if editors:
                self.tell('ends the sessions of %s' % b', '.join(editors).decode())
                self.put([Item(None, ITSELF, b'end ' + editor, Verdict.KEPT) for editor in editors])
                await self.calm.wait()

    def last_text(self, name: str) -> bytes:
        """How many lines of this client were kept, the number of the last one, and the reply to that."""
        last = self.ledger.names.get(name, Last(0, 0, ''))
        return (b'ok %d %d %s' % (last.lines, last.number, last.reply.encode())).rstrip() + b'\n'

    def status_text(self) -> bytes:
        """A listing of how the service does."""
        told = [
            'line %d' % self.ledger.line, 'saved %d' % self.pair.line, 'project %s' % self.store.project_path(self.pair),
            'run_bytes %d' % self.live.sent, 'waiting %d' % (len(self.waiting) + len(self.expected)),
            'longest_listing_ms %d' % (1000 * self.longest['listing']), 'longest_sync_ms %d' % (1000 * self.longest['sync']),
        ]
        told += ['session %s' % editor.decode() for editor in self.ledger.sessions]
        told += ['version %s' % name.decode() for name in self.ledger.drafts]
        told += ['trouble %s' % text for text in self.troubles.values()]
        return ''.join(line + '\n' for line in told).encode() + b'total %d\n' % len(told)
