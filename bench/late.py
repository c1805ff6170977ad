#!/usr/bin/env python3
"""How long features take that come late, after a validation: their envelopes are a long list of dirty rectangles.

usage: bench/late.py [--baseline WORDS] [--sizes N,N,..] [--kinds KIND,..] [--turns N] [--seconds N] [--instructions] [--program WORDS]

  --sizes N,..      how many features come late: 3000,10000,30000 where it is left out
  --kinds KIND,..   points; parcels, squares that lie side by side. Both where it is left out
  the others        as in bench/run.py

So many features are added and validated; as many more are added beside them: points at other places of the same lattice,
parcels in rows above. Then the whole grid is validated, or in its place small windows, one for every thirty late features,
each of which finds a few of them; and the dirty rectangles are listed. Each figure is what a script takes beyond one that ends
earlier.
"""
from __future__ import annotations

import argparse
import sys

from programs import Place, Table, Taking, add_kinds, added, beyond, measure_lines, point, polygon, print_sizes, spread

SIDE, WIDTH = 200, 7
LISTINGS = 20
# One small window for so many late features.
SHARE = 30
HEADS = {
    'points': ['class wells point', 'rule point_must_be_disjoint wells', 'begin ann'],
    'parcels': ['class lots polygon', 'rule polygon_must_not_overlap lots', 'begin ann'],
}


def place_of(number: int) -> Place:
    """The place of this number on a lattice of so many columns."""
    return number % SIDE * WIDTH - 700, number // SIDE * WIDTH - 700


def points(numbers: list[int], shift: int) -> list[str]:
    return added('wells', [(x + shift, y + shift) for x, y in map(place_of, numbers)], point)


def parcels(numbers: list[int]) -> list[str]:
    square = lambda x, y: [(x, y), (x + WIDTH, y), (x + WIDTH, y + WIDTH), (x, y + WIDTH)]
    return added('lots', [square(*place_of(number)) for number in numbers], polygon)


def early_and_late(kind: str, count: int) -> tuple[list[str], list[str], list[int]]:
    """The lines that add so many features of a kind, and those that add as many later, of which the windows find a few."""
    numbers = spread(count, count)
    if kind == 'points':
        return points(numbers, 0), points(numbers, 3), numbers
    above = [count + number for number in numbers]
    return parcels(numbers), parcels(above), above


def windows(numbers: list[int]) -> list[str]:
    """A window round each of these places of the lattice and some beside it."""
    places = [place_of(number) for number in numbers]
    return ['validate %d %d %d %d' % (x - 10, y - 10, x + 10, y + 10) for x, y in places]


def print_kind(table: Table, take: Taking, kind: str, count: int) -> None:
    """The four rows of a number of late features of a kind."""
    early, late, numbers = early_and_late(kind, count)
    early = HEADS[kind] + early + ['validate all']
    late = early + late
    before, after = take(early), take(late)
    whole, small, listed = take(late + ['validate all']), take(late + windows(numbers[:count // SHARE])), take(late + ['dirty'] * LISTINGS)
    name = '%s %s late' % (format(count, ','), kind)
    table.row(name + ': time of each', 'µs', [before, after], beyond(after, before, 1e6 / count))
    table.row(name + ', validated whole: time', 'ms', [after, whole], beyond(whole, after, 1e3))
    table.row(name + ', small windows: time of each', 'µs', [after, small], beyond(small, after, 1e6 / (count // SHARE)))
    table.row(name + ', dirty rectangles listed: time', 'ms', [after, listed], beyond(listed, after, 1e3 / LISTINGS))


def print_size(table: Table, folder: str, count: int, programs: list[list[str]], given: argparse.Namespace) -> None:
    for kind in given.kinds:
        print_kind(table, lambda lines: measure_lines(folder, lines, programs, given), kind, count)


def main() -> int:
    add_words = lambda parser: add_kinds(parser, HEADS)
    return print_sizes(__doc__, 'late features', '--sizes', '3000,10000,30000', print_size, add_words)


if __name__ == '__main__':
    sys.exit(main())
