#!/usr/bin/env python3
"""What `tools/serve` bears: lines a second, how long replies take, and memory, with editors who all work at once.

usage: bench/serve.py [--editors N,N,..] [--edits N] [--lines N] [--folder FOLDER] [--program PATH]

  --editors N,..   how many editors work at once: 1,4,16 where it is left out
  --edits N        how many edits each makes, each followed by the validation of a window round it (10,000 with 16 editors, else 2,000)
  --lines N        how many lines go in at last, in batches of 100 (1,000,000; 0 leaves that out)
  --folder FOLDER  where the service keeps its files (the folder for temporary files); `/dev/shm` shows what syncing takes
  --program PATH   what is measured in place of the program that ./topo builds

Each editor comes by TLS with a certificate of its own, has two hundred lots, and changes them; it sends a line when it has the reply to the
one before. Each hundred edits it ends its session and begins another. In the last row each sends whole sessions as batches. The time of a reply is
from before its line is sent until it is there; of a batch, until its last reply is there. Memory is resident: of the service, and of the
program behind it, after a tenth of the lines and at the end. The machine bears editors and service at once.
"""
from __future__ import annotations

import argparse
import asyncio
import json
import os
import select
import subprocess
import sys
import tempfile
import time
from typing import TYPE_CHECKING, Iterator

if TYPE_CHECKING:
    from serving import Desk, Office, Serving

HERE = os.path.dirname(os.path.abspath(__file__))
ROOT = os.path.dirname(HERE)
# Editors of one process of their own.
OF_PROCESS = 4
LOTS, SESSION, BATCH = 200, 100, 100
# So many lines stand in the journal of a service that is killed and begun again.
RECOVERED = 100000


def lot(number: int, turn: int) -> str:
    """A lot of an editor: it goes to and fro over its neighbour's side, so that errors come and go."""
    x, y = number % 20 * 10, number // 20 * 10
    shift = turn % 3
    return 'POLYGON ((%d %d, %d %d, %d %d, %d %d, %d %d))' % (
        x + shift, y, x + 9 + shift, y, x + 9 + shift, y + 9, x + shift, y + 9, x + shift, y)


def window(number: int) -> str:
    x, y = number % 20 * 10, number // 20 * 10
    return 'validate %d %d %d %d' % (x - 1, y - 1, x + 12, y + 10)


def edits_of(name: str, handles: list[tuple[str, int]], first: int, last: int) -> Iterator[str]:
    """The edits of these numbers, each with its window; `handles` are the lots of the editor."""
    for edit in range(first, last):
        at = edit % LOTS
        yield 'by %s change %s %s' % (name, handles[at][0], lot(handles[at][1], edit // LOTS + 1))
        yield window(handles[at][1])


def lines_of(name: str, handles: list[tuple[str, int]], edits: int) -> Iterator[str]:
    """So many edits, in sessions."""
    for first in range(0, edits, SESSION):
        yield from ['begin ' + name, *edits_of(name, handles, first, min(first + SESSION, edits)), 'end ' + name]


class Worker:
    """One editor in a process of editors."""

    def __init__(self, name: str, office: Office, port: int) -> None:
        self.name, self.office, self.port = name, office, port
        self.times: list[float] = []

    async def connect(self) -> None:
        self.reader, self.writer = await asyncio.open_connection('127.0.0.1', self.port, ssl=self.office.context(self.name))

    async def replies(self, count: int) -> list[bytes]:
        """The last lines of so many replies."""
        found: list[bytes] = []
        while len(found) < count:
            line = await self.reader.readline()
            if not line:
                sys.exit('the service went away')
            if line.startswith((b'ok', b'refused', b'total ')):
                found.append(line)
        return found

    async def prepare(self, number: int) -> None:
        """Adds the lots of this editor, in rows of their own."""
        lots = range(number * LOTS, (number + 1) * LOTS)
        lines = ['begin ' + self.name, *['by %s add lots %s' % (self.name, lot(each, 0)) for each in lots], 'end ' + self.name]
        self.writer.write(''.join(line + '\n' for line in lines).encode())
        told = await self.replies(len(lines))
        self.handles = [(reply.split()[1].decode(), each) for reply, each in zip(told[1:-1], lots)]

    async def work(self, edits: int) -> None:
        for line in lines_of(self.name, self.handles, edits):
            start = time.perf_counter()
            self.writer.write(line.encode() + b'\n')
            reply = await self.replies(1)
            self.times.append(time.perf_counter() - start)
            if not reply[0].startswith(b'ok'):
                sys.exit('%s: %s' % (line, reply[0].decode()))

    async def pour(self, lines: int) -> None:
        """Sends so many lines in batches, each of which is a session."""
        edits = (BATCH - 2) // 2
        for number in range(lines // BATCH):
            some = ['begin ' + self.name, *edits_of(self.name, self.handles, number * edits, (number + 1) * edits), 'end ' + self.name]
            start = time.perf_counter()
            self.writer.write(('batch %d\n' % len(some) + ''.join(line + '\n' for line in some)).encode())
            told = await self.replies(len(some) + 1)
            self.times.append(time.perf_counter() - start)
            if not all(reply.startswith(b'ok') for reply in told):
                sys.exit('a line of a batch was refused')


async def workers_main(office: Office, port: int, first: int, count: int, edits: int, lines: int) -> None:
    """A process of editors: it says when all are ready, works when it is told to, and says what each reply took."""
    workers = [Worker('e%d' % (first + i), office, port) for i in range(count)]
    for i, worker in enumerate(workers):
        await worker.connect()
        await worker.prepare(first + i)
    print('ready', flush=True)
    sys.stdin.readline()
    start = time.time()
    await asyncio.gather(*[worker.pour(lines) if lines else worker.work(edits) for worker in workers])
    print(json.dumps([start, time.time(), [each for worker in workers for each in worker.times]]), flush=True)


def memory_of(pid: int) -> float:
    """Resident memory in MiB."""
    with open('/proc/%d/status' % pid) as file:
        return next(int(line.split()[1]) for line in file if line.startswith('VmRSS')) / 1024


def memories(serving: Serving) -> list[float]:
    """Of the service, and of the newest program behind it."""
    pid = serving.process.pid
    with open('/proc/%d/task/%d/children' % (pid, pid)) as file:
        children = file.read().split()
    return [memory_of(pid), max((memory_of(int(child)) for child in children), default=0)]


def said_by(worker: subprocess.Popen[str]) -> str:
    """The next line of a process of editors."""
    return worker.stdout.readline() if worker.stdout else ''


def start_workers(office: Office, port: int, editors: int, edits: int, lines: int) -> list[subprocess.Popen[str]]:
    started = []
    for first in range(0, editors, OF_PROCESS):
        count = min(OF_PROCESS, editors - first)
        words = [sys.executable, __file__, '--worker', office.folder, *map(str, (port, first, count, edits, lines // editors))]
        started.append(subprocess.Popen(words, stdin=subprocess.PIPE, stdout=subprocess.PIPE, text=True))
    for each in started:
        if said_by(each) != 'ready\n':
            sys.exit('the editors do not come in')
    return started


def part(times: list[float], share: float) -> float:
    return times[min(len(times) - 1, int(len(times) * share))] * 1000


def measure(folder: str, office: Office, editors: int, edits: int, lines: int, program: list[str]) -> list[str]:
    """A row of the table."""
    from serving import Desk, Serving, free_port, own_user, rights_text
    port = free_port()
    names = {'e%d' % i: 'certificate=e%d editor=e%d' % (i, i) for i in range(editors)}
    rights = rights_text(steward='user=%s steward=yes' % own_user(), **names)
    serving = Serving(folder, rights, *office.words(port), program=program).start()
    try:
        desk = Desk(serving)
        for line in 'class lots polygon', 'rule polygon_must_not_overlap lots':
            desk.ask(line)
        began = int(desk.ask('last')[0].split()[2])
        workers = start_workers(office, port, editors, edits, lines)
        total = lines or editors * (2 * edits + 2 * -(-edits // SESSION))
        for each in workers:
            assert each.stdin
            each.stdin.write('\n')
            each.stdin.flush()
        early = None
        while any(each.poll() is None and not ready(each) for each in workers):
            if early is None and line_of(desk) - began > total / 10:
                early = memories(serving)
            time.sleep(0.2)
        late = memories(serving)
        told = [json.loads(said_by(each)) for each in workers]
        taken = max(end for _, end, _ in told) - min(start for start, _, _ in told)
        times = sorted(each for _, _, times in told for each in times)
        cells = ['%.0f' % (total / taken), *['%.1f' % part(times, share) for share in (0.5, 0.99, 0.9999)], '%.1f' % (times[-1] * 1000)]
        cells += ['%.0f, %.0f' % (a, b) for a, b in zip(early or late, late)]
        desk.close()
        return cells + [str(serving.told().count(b'saved: '))]
    finally:
        serving.stop()


def measure_recovery(folder: str, office: Office, program: list[str]) -> float:
    """How long a killed service takes until it is ready again, with so many lines in its journal."""
    from serving import Desk, Serving, free_port, own_user, rights_text
    port = free_port()
    rights = rights_text(steward='user=%s steward=yes' % own_user(), e0='certificate=e0 editor=e0')
    serving = Serving(folder, rights, *office.words(port), '--save-each', str(10 * RECOVERED), program=program).start()
    try:
        desk = Desk(serving)
        for line in 'class lots polygon', 'rule polygon_must_not_overlap lots':
            desk.ask(line)
        worker = start_workers(office, port, 1, 0, RECOVERED)[0]
        worker.communicate('\n')
        serving.end()
        start = time.perf_counter()
        serving.start()
        return time.perf_counter() - start
    finally:
        serving.end()


def ready(process: subprocess.Popen[str]) -> bool:
    return bool(select.select([process.stdout], [], [], 0)[0])


def line_of(desk: Desk) -> int:
    return int(desk.ask('status')[0].split()[1])


def sync_time(folder: str) -> float:
    """How long the folder takes to sync a short line, in ms: the median of 100."""
    path, times = os.path.join(folder, 'sync'), []
    with open(path, 'ab') as out:
        for _ in range(100):
            out.write(b'x' * 100)
            out.flush()
            start = time.perf_counter()
            os.fdatasync(out.fileno())
            times.append(time.perf_counter() - start)
    os.unlink(path)
    return sorted(times)[50] * 1000


def given_words() -> argparse.Namespace:
    parser = argparse.ArgumentParser(description=__doc__, formatter_class=argparse.RawDescriptionHelpFormatter)
    parser.add_argument('--editors', default='1,4,16')
    parser.add_argument('--edits', type=int, default=0)
    parser.add_argument('--lines', type=int, default=1000000)
    parser.add_argument('--folder', default=None)
    parser.add_argument('--program', default=os.path.join(ROOT, 'topo'))
    return parser.parse_args()


def main() -> int:
    sys.path[:0] = [os.path.join(ROOT, 'tools', 'tests'), os.path.join(ROOT, 'tools')]
    from serving import Office
    if sys.argv[1:2] == ['--worker']:
        office = Office.__new__(Office)
        office.folder = sys.argv[2]
        asyncio.run(workers_main(office, *map(int, sys.argv[3:])))
        return 0
    given = given_words()
    most = max(map(int, given.editors.split(',')))
    with tempfile.TemporaryDirectory(dir=given.folder) as folder:
        print('%d processors, load %.1f when it began; a sync takes %.2f ms here\n' % (os.cpu_count() or 1, os.getloadavg()[0], sync_time(folder)))
        print('| editors | lines a second | a reply in ms: half | 99 % | 99.99 % | all | service in MiB: early, late | program in MiB | saved |')
        print('|' + '---|' * 9, flush=True)
        office = Office(os.path.join(folder, 'office'), ['e%d' % i for i in range(most)])
        rows = [(int(n), given.edits or (10000 if int(n) == 16 else 2000), 0) for n in given.editors.split(',')]
        for number, (editors, edits, lines) in enumerate(rows + [(most, 0, given.lines)] * (given.lines > 0)):
            place = os.path.join(folder, str(number))
            os.mkdir(place)
            what = '%d, %s lines in batches of %d' % (editors, format(lines, ','), BATCH) if lines else '%d, %s edits each' % (editors, format(edits, ','))
            print('| %s | %s |' % (what, ' | '.join(measure(place, office, editors, edits, lines, [given.program]))), flush=True)
        place = os.path.join(folder, 'recovered')
        os.mkdir(place)
        if given.lines:
            print('\nkilled and begun again with %s lines in its journal: ready after %.1f s'
                  % (format(RECOVERED, ','), measure_recovery(place, office, [given.program])))
    return 0


if __name__ == '__main__':
    sys.exit(main())
