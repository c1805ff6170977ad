#!/usr/bin/env python3
"""How long one small edit takes among many features: a point is moved, and a window round it validated.

usage: bench/moved.py [--baseline WORDS] [--sizes N,N,..] [--edits N] [--turns N] [--seconds N] [--instructions] [--program WORDS]

  --sizes N,..    how many points there are: 10000,100000,1000000 where it is left out
  --edits N       how many of them are moved, each by one unit (20,000, and no more than there are)
  the others      as in bench/run.py

The points are those of bench/run.py, at places apart, and all validated. The time of an edit should not grow with their number:
the window is always as small.
"""
from __future__ import annotations

import argparse
import sys

from features import HEADS, added
from programs import Table, beyond, measure_lines, print_sizes, spread
from run import place_of


def moved(count: int, times: int) -> list[str]:
    """So many changes of points over the whole lattice, each with a validation of the window round its place."""
    numbers, lines = spread(count, count), []
    for i in spread(count, min(times, count)):
        x, y = place_of(numbers[i])
        lines += ['by ann change %d POINT (%d %d)' % (i + 1, x + 1, y), 'validate %d %d %d %d' % (x - 3, y - 3, x + 3, y + 3)]
    return lines


def print_row(table: Table, folder: str, count: int, programs: list[list[str]], given: argparse.Namespace) -> None:
    take = lambda lines: measure_lines(folder, lines, programs, given)
    whole, editing = HEADS['points'] + added('points', count) + ['validate all'], moved(count, given.edits)
    before, after = take(whole), take(whole + editing)
    name = '%s points, one moved with its window' % format(count, ',')
    table.row(name, 'µs', [before, after], beyond(after, before, 2e6 / len(editing)))


def main() -> int:
    add_words = lambda parser: parser.add_argument('--edits', type=int, default=20000)
    return print_sizes(__doc__, 'points', '--sizes', '10000,100000,1000000', print_row, add_words)


if __name__ == '__main__':
    sys.exit(main())
