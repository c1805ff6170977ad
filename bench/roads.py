#!/usr/bin/env python3
"""How long networks of lines take under the rules on lines: validated whole, and then after each of many edits.

usage: bench/roads.py [--baseline WORDS] [--lines NAME ..] [--turns N] [--seconds N] [--instructions] [--program WORDS]

  --lines NAME ..   the maps whose names begin with one of these; all where it is left out
  the others        as in bench/run.py

The junctions of a network lie in a square, each somewhat off its place on a lattice. A road of five segments goes from each to the next
one eastward and northward. Of each fifty roads one ends before the junction, one begins with a stretch of the road that leaves its
junction the other way, and one runs straight to the junction beyond, across others. The long line has 2,000 vertices and goes from side to
side; a thousand short ones of one segment lie over it, and one in ten touches it with an end. An edit moves a vertex of a road, and
validates a window round it.
"""
from __future__ import annotations

import random
import sys
from functools import partial
from typing import Callable, Iterable, Iterator

from programs import Place, added, edits, line, print_edited_maps

STEP, PARTS = 1000, 5
RULES = {'dangles': 'line_must_not_have_dangles', 'crossings': 'line_must_not_intersect', 'overlaps': 'line_must_not_overlap'}


def head(*rules: str) -> list[str]:
    return ['class roads line'] + ['rule %s roads' % rule for rule in rules] + ['begin ann']


class Network:
    """A lattice of so many junctions a side, with the roads between neighbours."""

    def __init__(self, size: int) -> None:
        self.size = size
        self.lot = random.Random(size)
        self.junctions = {(c, r): self.off(c * STEP, r * STEP, 120) for c in range(size) for r in range(size)}

    def off(self, x: int, y: int, by: int) -> Place:
        return x + self.lot.randint(-by, by), y + self.lot.randint(-by, by)

    def between(self, a: Place, b: Place) -> list[Place]:
        """The places of a road from one place to another, with four vertices in between."""
        inner = [self.off(a[0] + (b[0] - a[0]) * k // PARTS, a[1] + (b[1] - a[1]) * k // PARTS, 30) for k in range(1, PARTS)]
        return [a] + inner + [b]

    def roads(self) -> list[list[Place]]:
        found: list[list[Place]] = []
        for (column, row), here in self.junctions.items():
            for step in ((1, 0), (0, 1)):
                there = self.junctions.get((column + step[0], row + step[1]))
                if there:
                    found.append(self.at_fault(len(found), column, row, self.between(here, there), found))
        return found

    def at_fault(self, number: int, column: int, row: int, road: list[Place], found: list[list[Place]]) -> list[Place]:
        """The road, or one that breaks a rule in its place."""
        if number % 50 == 7:
            return road[:-1]
        if number % 50 in (22, 23) and found[-1][0] == road[0]:
            return found[-1][2:0:-1] + road
        beyond = self.junctions.get((column + 2, row + 1))
        return [road[0], beyond] if number % 50 == 41 and beyond else road


def network(size: int, rules: Iterable[str]) -> tuple[list[str], list[str]]:
    roads = Network(size).roads()
    return head(*rules) + added('roads', roads, line), edits(roads, 2000, line)


def long_line(rule: str, rounds: int = 1) -> tuple[list[str], list[str]]:
    """A line of 2,000 vertices from side to side, and so many thousands of short ones over it."""
    lot = random.Random(2000)
    winding = [(2000 * (i % 2) + lot.randint(-100, 100), 20 * i) for i in range(2000)]
    short = []
    for number in range(1000 * rounds):
        part, i = divmod(number, 1000)
        a, b = winding[2 * i], winding[2 * i + 1]
        x, y = [p + (q - p) * (2 * part + 1) // (2 * rounds) for p, q in zip(a, b)]
        short.append([a, (a[0] - 200, a[1])] if i % 10 == 0 else [(x, y - 12), (x + lot.randint(-9, 9), y + 12)])
    return head(rule) + added('roads', short + [winding], line), edits(short, 1000, line)


def maps() -> Iterator[tuple[str, Callable[[], tuple[list[str], list[str]]]]]:
    """The name of each map, and a function that makes the lines that found it and its edits."""
    for size in (30, 60, 100):
        for name, rule in RULES.items():
            yield '%s, network of %s junctions' % (name, format(size ** 2, ',')), partial(network, size, [rule])
        yield 'all three, network of %s junctions' % format(size ** 2, ','), partial(network, size, RULES.values())
    for name, rule in RULES.items():
        yield '%s, a line of 2,000 vertices and 1,000 short ones' % name, partial(long_line, rule)


if __name__ == '__main__':
    sys.exit(print_edited_maps(__doc__, maps))
