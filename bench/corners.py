#!/usr/bin/env python3
"""How long the corners of the errors of a map take: of very many cells, of cells of very many half-planes, and of crossing polygons.

usage: bench/corners.py [--part N] [--baseline WORDS] [--turns N] [--seconds N] [--instructions] [--program WORDS]

  --part N      a part of each map, one N-th of its vertices (1)
  the others    as in bench/run.py

The lake has 2,000 vertices and lies over 1,024 parcels, as in bench/borders.py; the zigzags of 2,000 vertices cross; the road is one segment, of which
1,500 rails cover stretches, so that each of the 1,500 cells between them has about as many half-planes. Each map has a row for the time of a line
`corners` for each of its errors, less the time of the same script without them, and one for the peak of memory with them. The name of a row tells how many
corners are listed.
"""
from __future__ import annotations

import argparse
import subprocess
import sys
from typing import Callable, Iterator

from borders import ONE, TWO, parcels, shore, turned
from polygons import zigzag
from programs import Table, added, beyond, line, measure_lines, parser_of, print_table

ROADS = ['class roads line', 'class rails line', 'rule line_must_be_covered_by_feature_class_of roads rails', 'begin ann']


def maps(part: int) -> Iterator[tuple[str, list[str]]]:
    """The name of each map, and the lines that found it."""
    side = max(2, 32 // part)
    yield 'lake over parcels', TWO + added('waters', [shore(2000 // part)]) + added('areas', parcels(side, side, 1800, 1200, 600, 800))
    count = 1500 // part
    yield 'road of %d stretches' % count, ROADS + added('roads', [[(0, 0), (20 * count + 10, 0)]], line) + added(
        'rails', [[(20 * i, 0), (20 * i + 10, 0)] for i in range(count)], line)
    yield 'crossing zigzags', ONE + added('areas', [zigzag(2000 // part)] + turned([zigzag(2000 // part)]))


def replies(program: list[str], lines: list[str]) -> list[str]:
    return subprocess.run(program + ['replay'], input='\n'.join(lines) + '\n', stdout=subprocess.PIPE, text=True).stdout.splitlines()


def print_rows(part: int, given: argparse.Namespace) -> Callable[[Table, str, list[list[str]]], None]:
    def rows(table: Table, folder: str, programs: list[list[str]]) -> None:
        for name, founding in maps(part):
            lines = founding + ['validate all']
            keys = [' '.join(reply.split()[1:4]) for reply in replies(programs[0], lines + ['errors']) if reply.startswith('error ')]
            asking = ['corners ' + key for key in keys]
            listed = sum(reply.startswith('corner ') for reply in replies(programs[0], lines + asking))
            before, after = [measure_lines(folder, asked, programs, given) for asked in (lines, lines + asking)]
            title = '%s, %d corners of %d errors' % (name, listed, len(keys))
            table.row(title, 'ms', [before, after], beyond(after, before, 1e3))
            table.row(title + ': memory', 'MiB', [after], lambda i: after[i].kilobytes / 1024)
    return rows


def main() -> int:
    parser = parser_of(__doc__)
    parser.add_argument('--part', type=int, default=1)
    given = parser.parse_args()
    return print_table('corners', given, print_rows(given.part, given))


if __name__ == '__main__':
    sys.exit(main())
