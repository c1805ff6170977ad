#!/usr/bin/env python3
"""Measures the memory of one process that takes the edits of a day through a pipe, each with its window, and what opening the saved end takes.

usage: bench/day.py [--parcels N] [--edits N] [--among N] [--program PATH]

  --parcels N     about how many parcels: 10000 where it is left out; those of bench/pipeline.py, validated whole under overlaps and gaps
  --edits N       so many edits (100000): of two one moves a vertex of a parcel, and the next one puts it back
  --among N       of so many parcels alone; all where it is left out
  --program PATH  the program that replays, in place of the one that ./topo builds

The editor's session is ended and begun anew after each hundred edits. The end must be the saved beginning, byte for byte. Memory is in MiB: what
the process has in memory. Processor seconds are those of the process.
"""
from __future__ import annotations

import argparse
import os
import random
import re
import subprocess
import sys
import tempfile
from typing import Iterator

sys.dont_write_bytecode = True
from pipeline import EAST, GAPS, HIGH, NORTH, OVERLAPS, ROOT, WIDE, Parcels

Ring = list[tuple[int, int]]
SESSION = 100
SHOWN = (1000, 3000)


def rings_of(count: int) -> list[Ring]:
    """The parcels in millimetres from the middle of the map."""
    parcels = Parcels(round(count ** 0.5))
    x0, y0 = EAST + WIDE * parcels.rows / 2, NORTH + HIGH * parcels.rows / 2
    return [[(round((x - x0) * 1000), round((y - y0) * 1000)) for x, y in ring] for _, ring in parcels.features()]


def text_of(ring: Ring) -> str:
    return 'POLYGON ((%s))' % ', '.join('%d %d' % place for place in ring + ring[:1])


def window(ring: Ring, place: tuple[int, int]) -> str:
    """The line that validates where a ring is, and where a vertex of it was."""
    xs, ys = zip(*ring, place)
    return 'validate %d %d %d %d' % (min(xs), min(ys), max(xs), max(ys))


def founding(rings: list[Ring]) -> str:
    lines = ['class parcels polygon', 'rule %s parcels' % OVERLAPS, 'rule %s parcels' % GAPS, 'begin ann',
             *('by ann add parcels ' + text_of(ring) for ring in rings), 'end ann', 'validate all', '']
    return '\n'.join(lines)


def edits(rings: list[Ring], among: int) -> Iterator[list[str]]:
    """The lines of each edit, without an end."""
    lot = random.Random(5)
    while True:
        at = lot.randrange(min(among, len(rings)))
        moved, vertex = list(rings[at]), lot.randrange(len(rings[at]))
        (x, y) = moved[vertex]
        moved[vertex] = x + lot.randint(-300, 300), y + lot.randint(-300, 300)
        for ring, was in ((moved, (x, y)), (rings[at], moved[vertex])):
            yield ['by ann change %d %s' % (at + 1, text_of(ring)), window(ring, was)]


class Process:
    """A run of the program from one project to another."""

    def __init__(self, words: list[str]) -> None:
        self.run = subprocess.Popen(words, stdin=subprocess.PIPE, stdout=subprocess.PIPE)

    def ask(self, lines: list[str]) -> None:
        assert self.run.stdin and self.run.stdout
        self.run.stdin.write(('\n'.join(lines) + '\n').encode())
        self.run.stdin.flush()
        for _ in lines:
            self.run.stdout.readline()

    def figures(self) -> tuple[float, float]:
        """Its memory, and its processor seconds."""
        with open('/proc/%d/status' % self.run.pid, encoding='ascii') as status, open('/proc/%d/stat' % self.run.pid, encoding='ascii') as stat:
            memory, times = re.search(r'VmRSS:\s+(\d+)', status.read()), stat.read().rsplit(')', 1)[1].split()
        return int(memory[1]) / 1024 if memory else 0, (int(times[11]) + int(times[12])) / os.sysconf('SC_CLK_TCK')

    def end(self) -> None:
        self.run.communicate()


def day(program: str, folder: str, rings: list[Ring], given: argparse.Namespace) -> None:
    process = Process([program, 'replay', *(os.path.join(folder, name) for name in ('begin', 'end'))])
    process.ask(['begin ann'])
    print('| Edits | MiB | Processor seconds |\n|---:|---:|---:|\n| 0 | %.1f | %.1f |' % process.figures())
    for number, lines in zip(range(1, given.edits + 1), edits(rings, given.among or len(rings))):
        process.ask(lines + ['end ann', 'begin ann'] * (number % SESSION == 0))
        if number % max(1, given.edits // 10) == 0 or number in SHOWN:
            print('| %s | %.1f | %.1f |' % (format(number, ','), *process.figures()), flush=True)
    process.ask(['end ann'])
    process.end()


def main() -> int:
    parser = argparse.ArgumentParser(description=__doc__, formatter_class=argparse.RawDescriptionHelpFormatter, usage=argparse.SUPPRESS)
    for name, least in (('--parcels', 10000), ('--edits', 100000), ('--among', 0)):
        parser.add_argument(name, type=int, default=least, help=argparse.SUPPRESS)
    parser.add_argument('--program', default=os.path.join(ROOT, 'topo'), help=argparse.SUPPRESS)
    given = parser.parse_args()
    rings = rings_of(given.parcels)
    with tempfile.TemporaryDirectory() as folder:
        begin, end = (os.path.join(folder, name) for name in ('begin', 'end'))
        subprocess.run([given.program, 'replay', '-', begin], input=founding(rings).encode(), stdout=subprocess.DEVNULL, check=True)
        day(given.program, folder, rings, given)
        opened = Process([given.program, 'replay', end])
        opened.ask(['begin ann'])
        print('\nThe saved end, opened: %.1f MiB in %.1f s' % opened.figures())
        opened.end()
        with open(begin, 'rb') as first, open(end, 'rb') as last:
            return 0 if first.read() == last.read() else 1


if __name__ == '__main__':
    sys.exit(main())
