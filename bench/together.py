#!/usr/bin/env python3
"""What a long session takes: the memory of a step, and the time of an undo.

usage: bench/together.py [--baseline WORDS] [--steps N,N,..] [--undone N] [--turns N] [--seconds N] [--instructions] [--program WORDS]

  --steps N,..    how many steps the session has: 1000,10000,100000 where it is left out
  --undone N      how many of the last ones are undone, and then done again (1,000, and no more than there are), two hundred times over
  the others      as in bench/run.py

There are as many points as the session has steps; each step moves one of them. Three scripts begin with the same lines: in one
the steps are remarks, one ends after the steps, one undoes the last of them and does them again, two hundred times over. The memory of a step is what
the second takes beyond the first, from 10,000 steps on; the time of an undo or a redo what the third takes beyond the second. Neither
should grow with the steps.
"""
from __future__ import annotations

import argparse
import sys

from features import HEADS, added
from programs import Table, beyond, measure_lines, print_sizes
from run import place_of

ROUNDS = 200
# The memory of fewer steps is less than one run differs from the next.
FEWEST = 10000


def steps_of(count: int) -> list[str]:
    """A session in which each of so many points moves by one unit."""
    places = (place_of(i) for i in range(count))
    return ['begin bob'] + ['by bob change %d POINT (%d %d)' % (i + 1, x + 1, y) for i, (x, y) in enumerate(places)]


def print_row(table: Table, folder: str, count: int, programs: list[list[str]], given: argparse.Namespace) -> None:
    take = lambda lines: measure_lines(folder, lines, programs, given)
    points, steps = HEADS['points'] + added('points', count) + ['end ann'], steps_of(count)
    times = min(given.undone, count)
    back = (['by bob undo'] * times + ['by bob redo'] * times) * ROUNDS
    none, before, after = take(points + ['# ' + step for step in steps]), take(points + steps), take(points + steps + back)
    bytes_of = lambda i: (before[i].kilobytes - none[i].kilobytes) * 1024 / count
    if count >= FEWEST:
        table.row('%s steps: memory of each' % format(count, ','), 'bytes', [none, before], bytes_of)
    table.row('%s steps: time of an undo or a redo' % format(count, ','), 'µs', [before, after], beyond(after, before, 1e6 / len(back)))


def main() -> int:
    add_words = lambda parser: parser.add_argument('--undone', type=int, default=1000)
    return print_sizes(__doc__, 'steps', '--steps', '1000,10000,100000', print_row, add_words)


if __name__ == '__main__':
    sys.exit(main())
