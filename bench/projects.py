#!/usr/bin/env python3
"""How long saved projects take: made from a script, opened, saved, checked and reported.

usage: bench/projects.py [--baseline WORDS] [--kinds KIND,..] [--turns N] [--seconds N] [--instructions] [--program WORDS]

  --kinds KIND,..   made: the made town of 60 rows; small, large: the towns of bench/town.py with 10,000 and with 40,000 parcels,
                    validated; dirty: 10,000 wells that came after a validation; deleted: 5,000 errors at places that are
                    dirty since their wells were deleted. All of them where it is left out
  the others        as in bench/run.py

The project that the measured program saves is opened by both. A saved text must be equal too, byte for byte.
"""
from __future__ import annotations

import argparse
import os
import sys
from typing import Callable

from programs import ROOT, Measures, Table, added, beyond, measure_saved, measure_words, point, print_kinds
from run import place_of
from town import HEAD, Town, founding

sys.path.append(os.path.join(ROOT, 'tools'))

from lib.town import script  # noqa: E402


def parcels(rows: int) -> list[str]:
    """The lines of a town of so many rows of parcels, validated."""
    return HEAD + founding(Town(rows)) + ['validate all']


WELLS = ['class wells point', 'rule point_must_be_disjoint wells', 'begin ann', 'validate all']


def late_wells(count: int) -> list[str]:
    """The lines of so many wells, each of which is a dirty place of its own."""
    return WELLS + added('wells', map(place_of, range(count)), point)


def deleted_wells(count: int) -> list[str]:
    """The lines of so many wells, two at each place, which are found and then deleted."""
    wells = [place_of(number // 2) for number in range(count)]
    return WELLS + added('wells', wells, point) + ['validate all'] + ['by ann delete %d' % (i + 1) for i in range(count)]


PROJECTS = {
    'made': ('town 7 60', lambda: script(7, 60).splitlines()),
    'small': ('10,000 parcels', lambda: parcels(100)),
    'large': ('40,000 parcels', lambda: parcels(200)),
    'dirty': ('10,000 dirty places', lambda: late_wells(10000)),
    'deleted': ('5,000 errors of deleted wells', lambda: deleted_wells(10000)),
}


def print_rows(table: Table, folder: str, kind: str, programs: list[list[str]], given: argparse.Namespace) -> None:
    """The rows of the table on the projects of this kind."""
    name, lines_of = PROJECTS[kind]
    made = measure_saved(folder, 'made', lines_of(), ['replay', '-'], programs, given)
    project = made[0].target
    opened = measure_words(folder, ['replay', project], programs, given)
    saved = measure_saved(folder, 'saved', [], ['replay', project], programs, given)
    checked, reported = [measure_words(folder, [word, project], programs, given) for word in ('check', 'report')]
    table.row(name + ', made from its script and saved: time', 'ms', [made], lambda i: made[i].seconds * 1e3)
    table.row(name + ', opened: time', 'ms', [opened], lambda i: opened[i].seconds * 1e3)
    table.row(name + ', opened: memory', 'MiB', [opened], lambda i: opened[i].kilobytes / 1024)
    more: list[tuple[Measures, str]] = [(saved, 'saved'), (checked, 'checked')]
    for runs, what in more:
        table.row('%s, %s: time' % (name, what), 'ms', [opened, runs], beyond(runs, opened, 1e3))
        table.row('%s, %s: memory' % (name, what), 'MiB', [runs], lambda i: runs[i].kilobytes / 1024)
    table.row(name + ', opened and reported: time', 'ms', [reported], lambda i: reported[i].seconds * 1e3)


def main() -> int:
    return print_kinds(__doc__, 'project', PROJECTS, print_rows)


if __name__ == '__main__':
    sys.exit(main())
