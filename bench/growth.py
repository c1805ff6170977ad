#!/usr/bin/env python3
"""How many instructions a step takes as the map around it grows: they are the same on every run, whatever else the machine does.

usage: bench/growth.py [--baseline WORDS] [--lines NAME ..] [--program WORDS]

  --lines NAME ..   the series whose names begin with one of these; all where it is left out
  the others        as in bench/run.py

A series is a map of several sizes. Each figure is what a script takes beyond one that ends earlier, divided by the number of
steps: edits with their windows, errors that come and go, windows in much dirt, undos, vertices of a border. The last column says how
many times the figure of the size before it is, and how many times that size. Needs valgrind, which counts the instructions.
"""
from __future__ import annotations

import shutil
import subprocess
import sys
import tempfile
from functools import partial
from typing import Callable, Iterator, Optional

from borders import ONE, TURNINGS, Making, Turning, jagged, winding
from coverings import gaps
from features import HEADS
from features import added as added_features
from late import HEADS as LATE_HEADS
from late import early_and_late, windows
from moved import moved
from roads import RULES, long_line
from programs import Ring, added, edits, instructions, parser_of, polygon, programs_of
from together import steps_of
from town import HEAD, Town, founding

EDITS, UNDOS, WINDOWS, FIRST = 500, 1000, 100, 10
# A polygon has at most 2,000 vertices.
DOUBLED = [248, 496, 992, 1984]


def instructions_of(words: list[str], lines: list[str]) -> int:
    """How many instructions the program takes for a script of these lines."""
    with tempfile.TemporaryFile() as script:
        script.writelines(line.encode() + b'\n' for line in lines)
        script.seek(0)
        ended, count = instructions(words + ['replay'], script, subprocess.DEVNULL)
    if ended != 0:
        sys.exit('%s ended with %d' % (words[0], ended))
    return count


def town(rows: int) -> tuple[list[str], list[str], int]:
    """The town of bench/town.py, validated, and small edits."""
    made = Town(rows)
    editing = edits(made.parcels(), EDITS)
    return HEAD + founding(made) + ['validate all'], editing, EDITS


def points(count: int) -> tuple[list[str], list[str], int]:
    """The points of bench/moved.py, validated, and small moves."""
    return HEADS['points'] + added_features('points', count) + ['validate all'], moved(count, EDITS), EDITS


def deleted(count: int) -> tuple[list[str], list[str], int]:
    """Points, validated, and some of them deleted, each brought back by an undo at once."""
    numbers = range(1, count + 1, count // EDITS)[:EDITS]
    back = [line for number in numbers for line in ('by ann delete %d' % number, 'by ann undo')]
    return HEADS['points'] + added_features('points', count) + ['validate all'], back, len(back)


def errors(count: int) -> tuple[list[str], list[str], int]:
    """Wells off the one road, each of them an error, and the first of them moved on to the road and off it again."""
    head = ['class wells point', 'class roads line', 'rule point_must_be_covered_by_line wells roads', 'begin ann']
    ends = ['by ann add wells POINT (-4000000 0)', 'by ann add roads LINESTRING (-4000000 1, -4000000 2)']
    window = 'validate -4000003 -3 -3999997 3'
    moves = [line for i in range(EDITS) for line in ('by ann change 1 POINT (-4000000 %d)' % (1 - i % 2), window)]
    return head + ends[:1] + added_features('points', count - 1) + ends[1:] + ['validate all'], moves, EDITS


def square(x: int, y: int, side: int) -> str:
    return polygon([(x, y), (x + side, y), (x + side, y + side), (x, y + side)])


def zone(count: int) -> tuple[list[str], list[str], int]:
    """Lots in one zone of their class, each an error of it, and some of them moved by a unit; the zone is judged again each time."""
    places = [(10 + 60 * (i % 60), 10 + 60 * (i // 60)) for i in range(count)]
    lots = ['by ann add lots ' + square(x, y, 20) for x, y in places]
    moves = [line for i, (x, y) in enumerate(places[:20]) for line in
             ('by ann change %d %s' % (i + 2, square(x + 1, y, 20)), 'validate %d %d %d %d' % (x - 2, y - 2, x + 23, y + 22))]
    return HEADS['polygons'] + ['by ann add lots ' + square(0, 0, 4000)] + lots + ['validate all'], moves, len(moves) // 2


def zigzag(count: int) -> tuple[list[str], list[str], int]:
    """A line of so many vertices under both rules on lines by themselves, and its validation."""
    head = ['class roads line', 'rule line_must_not_self_intersect roads', 'rule line_must_not_self_overlap roads', 'begin ann']
    line = ', '.join('%d %d' % (2 * i, i % 2 * 50) for i in range(count))
    return head + ['by ann add roads LINESTRING (%s)' % line], ['validate all'], count


def node(count: int) -> tuple[list[str], list[str], int]:
    """Lines that all begin in one place, under both rules on ends that meet, and their validation."""
    head = ['class roads line', 'rule line_must_not_have_dangles roads', 'rule line_must_not_have_pseudo_nodes roads', 'begin ann']
    lines = ['by ann add roads LINESTRING (0 0, %d %d)' % (1000 - i, i + 1) for i in range(count)]
    return head + lines, ['validate all'], count


def under_line(count: int) -> tuple[list[str], list[str], int]:
    """The long line of bench/roads.py over so many short ones, under the rule of dangles, and edits of the short ones."""
    founded, editing = long_line(RULES['dangles'], count // 1000)
    return founded + ['validate all'], editing[:2 * EDITS], EDITS


def late(kind: str, count: int) -> tuple[list[str], list[str], int]:
    """The late features of bench/late.py, and small windows. The first of these stand in both scripts: before them the system's
    lists of free memory are long, and with a few windows more it puts them in order once, at the end."""
    early, more, numbers = early_and_late(kind, count)
    small = windows(numbers[:FIRST + WINDOWS])
    return LATE_HEADS[kind] + early + ['validate all'] + more + small[:FIRST], small[FIRST:], WINDOWS


def enlarged(count: int) -> tuple[list[str], list[str], int]:
    """Lots that are all dirty, and some of them made wider without a validation: what becomes dirty comes round what was."""
    places = [(100 * (i % 200), 100 * (i // 200)) for i in range(count)]
    wider = ['by ann change %d %s' % (i + 1, square(x - 1, y - 1, 22)) for i, (x, y) in enumerate(places[:EDITS])]
    return HEADS['polygons'] + ['by ann add lots ' + square(x, y, 20) for x, y in places], wider, EDITS


def session(count: int) -> tuple[list[str], list[str], int]:
    """The session of bench/together.py, and the last steps undone and done again."""
    back = ['by bob undo'] * UNDOS + ['by bob redo'] * UNDOS
    return HEADS['points'] + added_features('points', count) + ['end ann'] + steps_of(count), back, len(back)


def turned_map(make: Making, turn: Turning, count: int) -> list[Ring]:
    return turn(make(count))


def border(make: Callable[[int], list[Ring]], count: int) -> tuple[list[str], list[str], int]:
    """Two neighbours of bench/borders.py, and their validation."""
    return ONE + added('areas', make(count)), ['validate all'], count


def gap_edits(make: Callable[[int], list[Ring]], count: int) -> tuple[list[str], list[str], int]:
    """The same neighbours under the rule of gaps, and edits."""
    founded, editing = gaps(make(count), 20)
    return founded + ['validate all'], editing, 20 * count


def all_series() -> Iterator[tuple[str, list[int], Callable[[int], tuple[list[str], list[str], int]]]]:
    """The name of each series, its unit, its sizes, and what makes the two parts of the script and says how many steps the second has."""
    yield 'an edit in a town of N parcels', [900, 3600, 10000, 90000], lambda size: town(round(size ** 0.5))
    yield 'a point moved, of N', [10000, 100000, 1000000], points
    yield 'a deletion or its undo, of N points', [1000, 10000, 100000], deleted
    yield 'an error that comes or goes, of N', [1000, 10000, 100000], errors
    yield 'an edit in a zone that N lots overlap', [500, 1000, 2000], zone
    for kind in LATE_HEADS:
        yield 'a window in N dirty %s' % kind, [3000, 10000, 30000], partial(late, kind)
    yield 'a lot made wider, of N dirty ones', [1000, 10000, 30000], enlarged
    yield 'an undo or a redo, of N steps', [1000, 10000, 100000], session
    yield 'a vertex of a zigzag of N, compared with itself', [500, 1000, 2000], zigzag
    yield 'a line of N that meet in one place', [100, 200, 400], node
    yield 'an edit on a line that N others touch or cross, dangles', [1000, 2000, 4000, 8000], under_line
    for name, make in (('jagged', jagged), ('winding', winding)):
        for way, turn in zip(('north', 'turned'), TURNINGS):
            map_of = partial(turned_map, make, turn)
            yield 'a vertex of a %s border of N, %s' % (name, way), DOUBLED, partial(border, map_of)
            if make is jagged:
                title = 'the same in an edit under the rule of gaps, of a jagged border of N, %s' % way
                yield title, DOUBLED, partial(gap_edits, map_of)


def step_of(words: list[str], made: tuple[list[str], list[str], int]) -> float:
    """The instructions that a step of the second part takes."""
    before, more, steps = made
    return (instructions_of(words, before + more) - instructions_of(words, before)) / steps


def print_series(name: str, sizes: list[int], make: Callable[[int], tuple[list[str], list[str], int]], programs: list[list[str]]) -> None:
    """A row for each size."""
    last: Optional[tuple[int, float]] = None
    for size in sizes:
        values = [step_of(words, make(size)) for words in programs]
        cells = [name.replace('N', format(size, ','), 1)] + [format(round(value), ',') for value in values]
        if len(values) == 2:
            cells.append('%.2f' % (values[0] / values[1]))
        cells.append('%.2f for %.1f' % (values[0] / last[1], size / last[0]) if last else '')
        print('| ' + ' | '.join(cells) + ' |', flush=True)
        last = size, values[0]


def main() -> int:
    parser = parser_of(__doc__)
    parser.add_argument('--lines', nargs='+', default=[''])
    given = parser.parse_args()
    if not shutil.which('valgrind'):
        sys.exit('valgrind is not found: it counts the instructions')
    programs = programs_of(given)
    names = ['step', 'instructions'] + ['of the baseline', 'ratio'] * (len(programs) == 2) + ['growth']
    print('| ' + ' | '.join(names) + ' |\n|' + '---|' * len(names), flush=True)
    for name, sizes, make in all_series():
        if name.startswith(tuple(given.lines)):
            print_series(name, sizes, make, programs)
    return 0


if __name__ == '__main__':
    sys.exit(main())
