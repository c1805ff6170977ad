#!/usr/bin/env python3
"""How long the maps take that have long common borders, or many features side by side: validated whole, in one class or two.

usage: bench/borders.py [--baseline WORDS] [--lines NAME ..] [--turns N] [--seconds N] [--instructions] [--program WORDS]

  --lines NAME ..   the lines of the table whose names begin with one of these; all where it is left out
  the others        as in bench/run.py

A jagged border goes from side to side between two lines, a winding one wanders; `north` and `turned` are the same map with
x and y exchanged. Municipalities lie in a square, with winding common borders of 50 segments a side. The lake has 2,000
vertices and covers parcels in rows, or has lots along its shore; turned, its shore goes up and down across the columns of cells.
A strip is one row of parcels. Each map has two rows: the time of a validation of everything, less the time of the same script
without it, and the peak of memory of the script with it. Of the shorter borders there are as many pairs of neighbours, apart,
as make some 6,000 vertices, and the time is that of one pair.
"""
from __future__ import annotations

import random
import sys
from functools import partial
from typing import Callable, Iterator

from polygons import comb, zigzag
from programs import Place, Ring, Table, Taking, added, beyond, print_maps

Making = Callable[[int], list[Ring]]
Turning = Callable[[list[Ring]], list[Ring]]

ONE = ['class areas polygon', 'rule polygon_must_not_overlap areas', 'begin ann']
TWO = ['class areas polygon', 'class waters polygon', 'rule polygon_must_not_overlap_with areas waters', 'begin ann']


def turned(rings: list[Ring]) -> list[Ring]:
    return [[(y, x) for x, y in ring] for ring in rings]


# A map as it is, and with x and y exchanged.
TURNINGS: tuple[Turning, Turning] = (list, turned)


def jagged(count: int) -> list[Ring]:
    """The two neighbours of a border that goes from side to side."""
    return beside([(1000 * (i % 2), 20 * i) for i in range(count)])


def winding(count: int) -> list[Ring]:
    """The two neighbours of a border that wanders, as a river does."""
    lot, x, border = random.Random(count), 0, []
    for i in range(count):
        x = max(-3000, min(3000, x + lot.randint(-40, 40)))
        border.append((x, 30 * i))
    return beside(border)


def beside(border: list[Place]) -> list[Ring]:
    low, high = border[0][1], border[-1][1]
    return [[(-6000, low)] + border + [(-6000, high)], [(6000, low)] + border + [(6000, high)]]


def pairs(rings: list[Ring], count: int) -> list[Ring]:
    """So many copies of these neighbours, side by side and apart."""
    return [[(x + 20000 * number, y) for x, y in ring] for number in range(count) for ring in rings]


class Country:
    """Municipalities in a square, so many a side, with so many segments from corner to corner, which lie so far apart.

    A side has its own lot, so both neighbours have the same border.
    """

    def __init__(self, size: int, parts: int = 50, width: int = 10000) -> None:
        self.size, self.parts, self.width = size, parts, width

    def side(self, column: int, row: int, is_upright: bool) -> list[Place]:
        """The places from a corner on, the far corner left out."""
        lot = random.Random('%d %d %d' % (column, row, is_upright))
        x, y, off, places = column * self.width, row * self.width, 0, [(column * self.width, row * self.width)]
        for i in range(1, self.parts):
            room = min(1500, 60 * i, 60 * (self.parts - i))
            off = max(-room, min(room, off + lot.randint(-120, 120)))
            along = i * self.width // self.parts
            places.append((x + off, y + along) if is_upright else (x + along, y + off))
        return places

    def ring(self, column: int, row: int) -> Ring:
        """Below, right, above and left, each from the corner that the last one ended at."""
        below = self.side(column, row, False)
        right = self.side(column + 1, row, True)
        above = self.side(column, row + 1, False)[1:] + [((column + 1) * self.width, (row + 1) * self.width)]
        left = self.side(column, row, True)[1:] + [(column * self.width, (row + 1) * self.width)]
        return below + right + above[::-1] + left[::-1]

    def rings(self) -> list[Ring]:
        return [self.ring(column, row) for row in range(self.size) for column in range(self.size)]


def shore(count: int) -> Ring:
    """A lake's shore: upper side eastward, lower side back."""
    lot, half, heights = random.Random(count), count // 2, []
    for i in range(half):
        heights.append(lot.randint(0, 400))
    return [(60 * i, 40000 + heights[i]) for i in range(half)] + [(60 * i, -heights[i]) for i in reversed(range(half))]


def parcels(columns: int, rows: int, width: int, depth: int, x0: int = 0, y0: int = 0) -> list[Ring]:
    return [[(x, y), (x + width, y), (x + width, y + depth), (x, y + depth)]
            for x in range(x0, x0 + columns * width, width) for y in range(y0, y0 + rows * depth, depth)]


def lots(lake: Ring) -> list[Ring]:
    """A lot on each segment of the lake's upper shore, which the two share."""
    upper = lake[:len(lake) // 2]
    return [[a, b, (b[0], 42000), (a[0], 42000)] for a, b in zip(upper, upper[1:])]


def maps() -> Iterator[tuple[str, Callable[[], tuple[list[str], int]]]]:
    """The name of each line of the table, and a function that makes its script, and says how often the map stands in it."""
    for count, times in (101, 128), (201, 64), (1024, 16):
        for name, make in (('jagged', jagged), ('winding', winding)):
            title = '%s border of %d vertices' % (name, count)
            for way, turn in zip(('north', 'turned'), TURNINGS):
                yield title + ', ' + way, partial(copies, make, turn, count, times)
    for name, single in single_maps():
        yield name, partial(once, single)


def copies(make: Making, turn: Turning, count: int, times: int) -> tuple[list[str], int]:
    """The script of so many pairs of neighbours, and how many there are."""
    return ONE + added('areas', turn(pairs(make(count), times))), times


def once(single: Callable[[], list[str]]) -> tuple[list[str], int]:
    return single(), 1


def areas(make: Callable[[], list[Ring]]) -> list[str]:
    """The script of one class."""
    return ONE + added('areas', make())


def over(water: list[str], shapes: list[Ring]) -> list[str]:
    return water + added('areas', shapes)


def crossing(make: Callable[[int], Ring]) -> list[Ring]:
    return [make(2000)] + turned([make(2000)])


def strip(turn: Turning) -> list[Ring]:
    return turn(parcels(40000, 1, 100, 100, -2000000))


def single_maps() -> Iterator[tuple[str, Callable[[], list[str]]]]:
    """The same of the maps that stand once in their scripts: a function makes the script alone."""
    for size in (4, 8, 20):
        yield 'municipalities, %d of 200 vertices' % size ** 2, partial(areas, Country(size).rings)
    for name, make in (('combs', comb), ('zigzags', zigzag)):
        yield 'crossing %s of 2,000 vertices' % name, partial(areas, partial(crossing, make))
    for way, turn in zip(('', ', turned'), TURNINGS):
        lake = shore(2000)
        water = TWO + added('waters', turn([lake]))
        for name, shapes in ((' over 1,024 parcels', parcels(32, 32, 1800, 1200, 600, 800)), (', 999 lots on its shore', lots(lake))):
            yield 'lake of 2,000 vertices%s%s' % (name, way), partial(over, water, turn(shapes))
    for name, turn in zip(('east', 'north'), TURNINGS):
        yield 'strip of 40,000 parcels, %s' % name, partial(areas, partial(strip, turn))


def print_map(table: Table, name: str, take: Taking, make: Callable[[], tuple[list[str], int]]) -> None:
    lines, times = make()
    before, after = take(lines), take(lines + ['validate all'])
    table.row(name, 'ms', [before, after], beyond(after, before, 1e3 / times))
    table.row(name + ': memory', 'MiB', [after], lambda i: after[i].kilobytes / 1024)


if __name__ == '__main__':
    sys.exit(print_maps(__doc__, maps, print_map))
