#!/usr/bin/env python3
"""How long the parcels of a made town take, validated whole and then after each of many small edits.

usage: bench/town.py [--baseline WORDS] [--rows N,N,..] [--edits N] [--turns N] [--seconds N] [--instructions] [--program WORDS]

  --rows N,..    how many rows of as many parcels: 30,60,100,300 where it is left out
  --edits N      how many small edits, each with a validation of a small window (5,000)
  the others     as in bench/run.py

A corner of the town is shared by the parcels round it, and lies somewhat off its place on the lattice, as in a cadastre;
between two corners a shared side has a vertex more. A street runs after each second row. Of each twenty parcels one has a
corner of its own that reaches into the next, so that the two overlap. One easement for each five parcels lies along the front,
in the street; each fourth of them reaches into the parcel. Two rules are in force: parcels must not overlap, and must not
overlap with easements. An edit moves a corner of one parcel alone, and the window round that parcel is validated.
"""
from __future__ import annotations

import argparse
import random
import sys

from programs import Place, Ring, Table, added, beyond, edits, measure_lines, print_sizes, print_validated

HEAD = ['class parcels polygon', 'class easements polygon', 'rule polygon_must_not_overlap parcels',
        'rule polygon_must_not_overlap_with parcels easements', 'begin ann']
WIDTH, DEPTH, STREET = 100, 160, 60
# The errors are listed as often as makes so many parcels in all.
LISTED = 450000


class Town:
    """A town of so many rows of as many parcels; the corners of a row stand on its two lines, front and back."""

    def __init__(self, rows: int) -> None:
        self.rows = rows
        lot = random.Random(rows)
        self.jitter = {}
        for line in range(2 * rows):
            for place in range(2 * rows + 1):
                self.jitter[line, place] = lot.randint(-6, 6), lot.randint(-6, 6)

    def line(self, row: int, is_upper: int) -> int:
        """The number of the lower or the upper line of a row: the two rows of a block share the one between them."""
        block, second = divmod(row, 2)
        return 3 * block + second + is_upper

    def corner(self, line: int, place: int) -> Place:
        """The corner at this half place of a line; what lies at an odd half place is the vertex between two corners."""
        block, of_block = divmod(line, 3)
        y = block * (2 * DEPTH + STREET) + of_block * DEPTH
        dx, dy = self.jitter[line % (2 * self.rows), place]
        return place * WIDTH // 2 + dx, y + dy

    def ring(self, row: int, column: int) -> Ring:
        """The vertices of a parcel: three below and three above."""
        lower, upper = self.line(row, 0), self.line(row, 1)
        first = 2 * column
        return [self.corner(lower, first + k) for k in range(3)] + [self.corner(upper, first + k) for k in (2, 1, 0)]

    def parcel(self, number: int) -> Ring:
        row, column = divmod(number, self.rows)
        ring = self.ring(row, column)
        if number % 20 == 7:
            ring[2] = ring[2][0] + 15, ring[2][1] + 10
        return ring

    def parcels(self) -> list[Ring]:
        return [self.parcel(number) for number in range(self.rows ** 2)]

    def easement(self, number: int) -> Ring:
        """A strip along the front of this parcel, on the street's side of it."""
        row, column = divmod(number, self.rows)
        is_upper = row % 2
        y = self.corner(self.line(row, is_upper), 2 * column)[1]
        reach = 12 if number % 20 else -12
        low, high = sorted((y + (reach if is_upper else -reach), y + (24 if is_upper else -24)))
        x = column * WIDTH
        return [(x + 10, low), (x + 90, low), (x + 90, high), (x + 10, high)]


def founding(town: Town) -> list[str]:
    """The lines that add the parcels, from handle 1 on in the order of their numbers, and the easements."""
    easements = [town.easement(number) for number in range(0, town.rows ** 2, 5)]
    return added('parcels', town.parcels()) + added('easements', easements)


def print_rows(table: Table, folder: str, rows: int, programs: list[list[str]], given: argparse.Namespace) -> None:
    """The rows of the table on a town of so many rows."""
    town = Town(rows)
    take = lambda lines: measure_lines(folder, HEAD + lines, programs, given)
    lines = founding(town)
    before = take(lines)
    name = '%s parcels' % format(rows ** 2, ',')
    table.row(name + ', added: time', 'ms', [before], lambda i: before[i].seconds * 1e3)
    validated = print_validated(table, name, take, lines, edits(town.parcels(), given.edits), before)
    listings = -(-LISTED // rows ** 2)
    listed = take(lines + ['validate all'] + ['cells'] * listings)
    table.row(name + ', all errors listed: time', 'ms', [validated, listed], beyond(listed, validated, 1e3 / listings))


def main() -> int:
    add_words = lambda parser: parser.add_argument('--edits', type=int, default=5000)
    return print_sizes(__doc__, 'town', '--rows', '30,60,100,300', print_rows, add_words)


if __name__ == '__main__':
    sys.exit(main())
