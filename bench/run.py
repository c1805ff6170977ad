#!/usr/bin/env python3
"""Measures the built program over made inputs, beside another program where one is given.

usage: bench/run.py [--baseline WORDS] [--sizes N,N,..] [--kinds KIND,..] [--turns N] [--seconds N] [--instructions] [--program WORDS]

  --baseline WORDS   another program of the same words and texts, with its own first words if it wants some, as one word
  --sizes N,..       how many points: 1000,10000,100000 where it is left out
  --kinds KIND,..    apart: no two points share a place; shared: each tenth point stands at the place of the one before;
                     windows: as shared, but validated in 100 windows, one beside the other, in place of all at once;
                     tiles, small-tiles: in 2,500 and in 10,000 windows. All of them where it is left out
  --turns N          how often each is run at least (3), more often where runs are short, until those of a script have taken two
                     seconds together or there were 25, and once where a run takes longer than five seconds; the least time
                     counts, and with it the least peak of memory
  --seconds N        a run is stopped after so much processor time (600), and its program is not run again on that input
  --instructions     counts instructions in place of time, a thousand for a microsecond, in one run of each script, and takes no memory:
                     the same on every run, whatever else the machine does. Needs valgrind, and some fifty times as long
  --program WORDS    what is measured in place of the program that ./topo --prove builds

Both programs take turns on each input. Time is processor time, user and system together; memory is the peak of resident
memory; the system tells both when the process has ended (measured.c). The outputs and the statuses of the two must be
equal: where they are not, the row says so and the status is 1.
"""
from __future__ import annotations

import argparse
import os
import sys
import tempfile
from typing import Iterator, Optional

from programs import Measure, Place, add_kinds, are_same, make_measured, measure_script, parser_of, programs_of, stride_of

KINDS = ['apart', 'shared', 'windows', 'tiles', 'small-tiles']
ROWS_OF_WINDOWS = {'windows': 10, 'tiles': 50, 'small-tiles': 100}


def place_of(number: int) -> Place:
    """The place of this number: on a lattice, half of it left of the origin."""
    return number % 1000 * 7 - 3500, number // 1000 * 7 - 350


def points(count: int, kind: str) -> Iterator[Place]:
    stride = stride_of(count)
    for i in range(count):
        if kind != 'apart' and i % 10 == 9:
            i -= 1
        yield place_of(i * stride % count)


def windows(count: int, rows: int) -> Iterator[tuple[int, int, int, int]]:
    """So many rows of as many windows that cover the lattice of so many points; each shares its sides with those beside it."""
    wide, high = 7000 // rows, -(-7 * (count // 1000 + 1) // rows)
    for row in range(rows):
        for column in range(rows):
            x, y = -3500 + column * wide, -350 + row * high
            yield x, y, x + wide, y + high


def validations(count: int, kind: str) -> list[str]:
    if kind not in ROWS_OF_WINDOWS:
        return ['validate all']
    return ['validate %d %d %d %d' % window for window in windows(count, ROWS_OF_WINDOWS[kind])]


def write_script(path: str, count: int, kind: str) -> None:
    with open(path, 'w') as out:
        out.write('class wells point\nrule point_must_be_disjoint wells\nbegin ann\n')
        for x, y in points(count, kind):
            out.write('by ann add wells POINT (%d %d)\n' % (x, y))
        out.write('\n'.join(validations(count, kind)) + '\ncells\ndirty\n')


def figures(measure: Measure) -> list[str]:
    if measure.status < 0:
        return ['stopped', 'stopped']
    return ['%.3f' % measure.seconds, '%.1f' % (measure.kilobytes / 1024)]


def ratios(own: Measure, other: Measure) -> list[str]:
    if min(own.status, other.status) < 0:
        return ['', '']
    return ['%.2f' % (own.seconds / max(other.seconds, 0.001)), '%.2f' % (own.kilobytes / max(other.kilobytes, 1))]


def row(name: str, own: Measure, other: Optional[Measure]) -> str:
    cells = [name] + figures(own)
    if other:
        cells += figures(other) + ratios(own, other) + ['yes' if are_same([own, other]) else 'NO']
    return '| ' + ' | '.join(cells) + ' |'


def head(has_other: bool) -> str:
    names = ['input', 'time in s', 'memory in MiB']
    if has_other:
        names += ['baseline: time in s', 'baseline: memory in MiB', 'ratio of times', 'ratio of memory', 'equal output']
    return '| ' + ' | '.join(names) + ' |\n|' + '---|' * len(names)


def measure_input(folder: str, count: int, kind: str, programs: list[list[str]], given: argparse.Namespace) -> tuple[Measure, Optional[Measure]]:
    """Lets the programs take turns on one input."""
    write_script(os.path.join(folder, 'script'), count, kind)
    measures = measure_script(folder, programs, given)
    return measures[0], measures[1] if len(measures) == 2 else None


def given_words() -> argparse.Namespace:
    parser = parser_of(__doc__)
    parser.add_argument('--sizes', default='1000,10000,100000')
    add_kinds(parser, KINDS)
    return parser.parse_args()


def main() -> int:
    given = given_words()
    programs = programs_of(given)
    good = True
    with tempfile.TemporaryDirectory() as folder:
        make_measured(folder)
        print(head(len(programs) == 2))
        for kind in given.kinds:
            for count in map(int, given.sizes.split(',')):
                own, other = measure_input(folder, count, kind, programs, given)
                good = good and own.status == 0 and (other is None or are_same([own, other]))
                print(row('%s points, %s' % (format(count, ','), kind), own, other), flush=True)
    return 0 if good else 1


if __name__ == '__main__':
    sys.exit(main())
