#!/usr/bin/env python3
"""What versions take: the time and the memory of one more, of a reconcile of some changes among many features, and of a post.

usage: bench/versions.py [--baseline WORDS] [--sizes N,N,..] [--changes N,N,..] [--kinds KIND,..] [--turns N] [--seconds N] [--instructions] [--program WORDS]

  --sizes N,..      how many features there are: 10000,100000,1000000 where it is left out
  --changes N,..    how many of them are changed in `default`, and as many others in the version: 1000,10000 where it is left out, and no more than
                    half of the features
  --kinds KIND,..   points, polygons: those of bench/features.py. Both where it is left out
  the others        as in bench/run.py; a baseline has to know the four lines of versions

The features are validated first. Five scripts begin with the same lines: one ends there; one makes a version; one changes features in both, without
a conflict; one reconciles then; one posts then. Each figure is what a script takes beyond the one before it. A reconcile should grow with the changes,
and with the map by one pass of comparison alone.
"""
from __future__ import annotations

import argparse
import sys

from features import HEADS, added, shape_of
from programs import Table, Taking, add_kinds, beyond, measure_lines, print_sizes, spread


def changes_of(kind: str, count: int, numbers: list[int], editor: str) -> list[str]:
    """A session that moves the features of these numbers, in the order in which they were added, by one unit."""
    places = spread(count, count)
    return ['begin ' + editor] + ['by %s change %d %s' % (editor, i + 1, shape_of(kind, places[i], 1)) for i in numbers] + ['end ' + editor]


def print_changes(table: Table, take: Taking, name: str, before: list[str], changing: list[str], changes: int) -> None:
    """The rows of a reconcile and of a post of so many changes."""
    edited = take(before + changing)
    merged = take(before + changing + ['reconcile plan'])
    posted = take(before + changing + ['reconcile plan', 'post plan'])
    name += ', %s changes in each of two' % format(changes, ',')
    table.row(name + ', a reconcile: time', 'ms', [edited, merged], beyond(merged, edited, 1e3))
    table.row(name + ', a post: time', 'ms', [merged, posted], beyond(posted, merged, 1e3))
    table.row(name + ', after both: memory', 'MiB', [posted], lambda i: posted[i].kilobytes / 1024)


def print_kind(table: Table, take: Taking, kind: str, count: int, given: argparse.Namespace) -> None:
    """The rows of a number of features of a kind."""
    before = HEADS[kind] + added(kind, count) + ['end ann', 'validate all']
    alone, beside = take(before), take(before + ['version plan'])
    name = '%s %s' % (format(count, ','), kind)
    table.row(name + ': memory', 'MiB', [alone], lambda i: alone[i].kilobytes / 1024)
    table.row(name + ', a version more: time', 'ms', [alone, beside], beyond(beside, alone, 1e3))
    table.row(name + ', a version more: memory of each', 'bytes', [alone, beside], lambda i: (beside[i].kilobytes - alone[i].kilobytes) * 1024 / count)
    for changes in map(int, given.changes.split(',')):
        if 2 * changes <= count:
            numbers = spread(count, 2 * changes)
            changing = changes_of(kind, count, numbers[::2], 'bob') + ['in plan'] + changes_of(kind, count, numbers[1::2], 'ann')
            print_changes(table, take, name, before + ['version plan'], changing, changes)


def print_size(table: Table, folder: str, count: int, programs: list[list[str]], given: argparse.Namespace) -> None:
    for kind in given.kinds:
        print_kind(table, lambda lines: measure_lines(folder, lines, programs, given), kind, count, given)


def add_words(parser: argparse.ArgumentParser) -> None:
    add_kinds(parser, HEADS)
    parser.add_argument('--changes', default='1000,10000')


def main() -> int:
    return print_sizes(__doc__, 'versions', '--sizes', '10000,100000,1000000', print_size, add_words)


if __name__ == '__main__':
    sys.exit(main())
