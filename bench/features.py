#!/usr/bin/env python3
"""How long a feature takes to be added, changed and deleted, and the memory that it takes.

usage: bench/features.py [--baseline WORDS] [--count N] [--kinds KIND,..] [--turns N] [--seconds N] [--instructions] [--program WORDS]

  --count N          how many features (100,000); each of them is changed, or deleted
  --kinds KIND,..    points, each at a place of its own; polygons, octagons beside one another. Both where it is left out
  the others         as in bench/run.py

A rule is in force first, so the whole grid is dirty all along, and nothing is validated. Three scripts begin with the same
lines: one ends there, one changes each of the features, one deletes each, in no plain order of their handles. The time of a
change and of a deletion is what these take beyond the first. A fourth script has the same lines as the first as remarks, so
that no feature is made; the memory of a feature is what the first takes beyond that.
"""
from __future__ import annotations

import argparse
import sys

from programs import Table, beyond, measure_lines, point, polygon, print_kinds, spread

OCTAGON = [(2, 0), (4, 0), (6, 2), (6, 4), (4, 6), (2, 6), (0, 4), (0, 2)]
HEADS = {
    'points': ['class wells point', 'rule point_must_be_disjoint wells', 'begin ann'],
    'polygons': ['class lots polygon', 'rule polygon_must_not_overlap lots', 'begin ann'],
}
CLASSES = {'points': 'wells', 'polygons': 'lots'}


def shape_of(kind: str, number: int, shift: int) -> str:
    """The shape of this number on a lattice, moved to the right."""
    x, y = number % 1000 * 7 - 3500 + shift, number // 1000 * 7 - 350
    if kind == 'points':
        return point((x, y))
    return polygon([(x + dx, y + dy) for dx, dy in OCTAGON])


def added(kind: str, count: int) -> list[str]:
    return ['by ann add %s %s' % (CLASSES[kind], shape_of(kind, number, 0)) for number in spread(count, count)]


def changed(kind: str, count: int) -> list[str]:
    places = spread(count, count)
    return ['by ann change %d %s' % (i + 1, shape_of(kind, places[i], 1)) for i in spread(count, count)]


def deleted(count: int) -> list[str]:
    return ['by ann delete %d' % (i + 1) for i in spread(count, count)]


def print_kind(table: Table, folder: str, kind: str, programs: list[list[str]], given: argparse.Namespace) -> None:
    """The four rows of a kind of shape."""
    count = given.count
    head, adds = HEADS[kind], added(kind, count)
    take = lambda lines: measure_lines(folder, head + lines, programs, given)
    none, all_added = take(['# ' + line for line in adds]), take(adds)
    all_changed, all_deleted = take(adds + changed(kind, count)), take(adds + deleted(count))
    name = '%s %s' % (format(count, ','), kind)
    each = lambda after: beyond(after, all_added, 1e6 / count)
    table.row(name + ', added: time of each', 'µs', [all_added], lambda i: all_added[i].seconds * 1e6 / count)
    table.row(name + ', each changed: time of each change', 'µs', [all_added, all_changed], each(all_changed))
    table.row(name + ', each deleted: time of each deletion', 'µs', [all_added, all_deleted], each(all_deleted))
    bytes_of = lambda i: (all_added[i].kilobytes - none[i].kilobytes) * 1024 / count
    table.row(name + ': memory of each', 'bytes', [none, all_added], bytes_of)


def main() -> int:
    add_words = lambda parser: parser.add_argument('--count', type=int, default=100000)
    return print_kinds(__doc__, 'features', HEADS, print_kind, add_words)


if __name__ == '__main__':
    sys.exit(main())
