#!/usr/bin/env python3
"""What a made town takes as a whole: by the words `town SEED N`, and beyond 60 rows by a replay of its script.

usage: bench/town_words.py [--baseline WORDS] [--rows N,N,..] [--seed N] [--turns N] [--seconds N] [--instructions] [--program WORDS]

  --rows N,..    how many rows the town has: 30,60,100,300 where it is left out
  --seed N       its seed (7)
  the others     as in bench/run.py

docs/town.md says what the town is. A town of N rows has 2 * N * N + N features under five rules. The words take 60 rows at most. A
larger town is replayed from its script, as `tools/towns --script SEED N` writes it, with the lines `features` and `cells` behind it.
"""
from __future__ import annotations

import argparse
import os
import sys

from programs import ROOT, Measure, Table, measure_lines, measure_words, print_sizes

sys.path.append(os.path.join(ROOT, 'tools'))

from lib.town import script  # noqa: E402

MOST_ROWS = 60


def measured(folder: str, rows: int, programs: list[list[str]], given: argparse.Namespace) -> tuple[str, list[Measure]]:
    """The name of a town of so many rows, and its runs."""
    words = ['town', given.seed, str(rows)]
    if rows <= MOST_ROWS:
        return ' '.join(words), measure_words(folder, words, programs, given)
    lines = script(int(given.seed), rows).splitlines() + ['features', 'cells']
    return ' '.join(words) + ', from its script', measure_lines(folder, lines, programs, given)


def print_rows(table: Table, folder: str, rows: int, programs: list[list[str]], given: argparse.Namespace) -> None:
    name, runs = measured(folder, rows, programs, given)
    table.row(name + ': time', 'ms', [runs], lambda i: runs[i].seconds * 1e3)
    table.row(name + ': memory', 'MiB', [runs], lambda i: runs[i].kilobytes / 1024)


def main() -> int:
    add_words = lambda parser: parser.add_argument('--seed', default='7')
    return print_sizes(__doc__, 'town', '--rows', '30,60,100,300', print_rows, add_words)


if __name__ == '__main__':
    sys.exit(main())
