#!/usr/bin/env python3
"""How long maps take under the rules of covering and of gaps: validated whole, and then after each of many edits.

usage: bench/coverings.py [--baseline WORDS] [--lines NAME ..] [--turns N] [--seconds N] [--instructions] [--program WORDS]

  --lines NAME ..   the maps whose names begin with one of these; all where it is left out
  the others        as in bench/run.py

Parcels and municipalities are those of bench/borders.py: they lie in a square and share their borders, a parcel with a vertex
between two corners, a municipality with 50 segments a side. Of each twenty parcels one has drawn a corner back and leaves a slit. A
zone has 200 vertices and lies over a hundred parcels, or over all of them; its border and theirs are not the same. The two neighbours of
a jagged border are those of bench/borders.py too; of a jagged slit, one of them is moved away by three units. A road of 2,000
vertices runs along the lower borders of twenty areas of 400 vertices; one vertex in 500 lies beside the border. An edit moves a vertex
of a parcel, of a municipality, of an area or of a path, and validates a window round it.
"""
from __future__ import annotations

import sys
from functools import partial
from typing import Callable, Iterator

from borders import TURNINGS, Country, Making, Turning, jagged
from programs import Place, Ring, added, edits, line, print_edited_maps

ACROSS = 20


def head(rule: str, *classes: tuple[str, str]) -> list[str]:
    return ['class %s %s' % (name, kind) for name, kind in classes] + ['rule ' + rule, 'begin ann']


GAPS = head('polygon_must_not_have_gaps areas', ('areas', 'polygon'))


def parcels(rows: int) -> list[Ring]:
    """So many rows of as many; one in twenty leaves a slit beside it."""
    rings = Country(rows, 2).rings()
    for ring in rings[7::20]:
        ring[0] = ring[0][0] + 15, ring[0][1] + 10
    return rings


def slit(neighbours: list[Ring]) -> list[Ring]:
    """The same two with a slit all along their border."""
    first, second = neighbours
    return [first, [(x + 3, y) for x, y in second]]


def gaps(rings: list[Ring], times: int) -> tuple[list[str], list[str]]:
    return GAPS + added('areas', rings), edits(rings, times)


def municipalities(rows: int) -> list[Ring]:
    return Country(rows).rings()


def gaps_of(make: Making, rows: int, times: int) -> tuple[list[str], list[str]]:
    return gaps(make(rows), times)


def jagged_gaps(turn: Turning, times: int) -> tuple[list[str], list[str]]:
    return gaps(turn(jagged(1024)), times)


def slit_gaps(turn: Turning, times: int) -> tuple[list[str], list[str]]:
    return gaps(turn(slit(jagged(1024))), times)


def zoned(rows: int, rule: str, times: int, across: int = 10) -> tuple[list[str], list[str]]:
    """Parcels, and zones over so many rows of as many of them, under a rule between the two."""
    rings = parcels(rows)
    zones = Country(rows // across, width=10000 * across).rings()
    return head(rule, ('parcels', 'polygon'), ('zones', 'polygon')) + added('parcels', rings) + added('zones', zones), edits(rings, times)


def lower_border(country: Country, row: int) -> list[Place]:
    return [place for column in range(ACROSS) for place in country.side(column, row, False)]


def roads(country: Country, rows: int) -> Iterator[list[Place]]:
    """A road along the lower border of each of the rows, some of its vertices beside it."""
    for row in range(rows):
        road = lower_border(country, row)
        for k in range(250, len(road), 500):
            road[k] = road[k][0], road[k][1] + 7
        yield road


def along_areas(rows: int) -> tuple[list[str], list[str]]:
    country = Country(ACROSS, 100, 20000)
    areas = [country.ring(column, row) for row in range(rows) for column in range(ACROSS)]
    lines = head('line_must_be_covered_by_boundary_of roads areas', ('areas', 'polygon'), ('roads', 'line'))
    return lines + added('areas', areas) + added('roads', roads(country, rows), line), edits(areas, 200)


def along_paths(rows: int) -> tuple[list[str], list[str]]:
    country = Country(ACROSS, 100, 20000)
    paths = [country.side(column, row, False) + country.side(column + 1, row, False)[:1] for row in range(rows) for column in range(ACROSS)]
    lines = head('line_must_be_covered_by_feature_class_of roads paths', ('paths', 'line'), ('roads', 'line'))
    return lines + added('paths', paths, line) + added('roads', roads(country, rows), line), edits(paths, 200, line)


def maps() -> Iterator[tuple[str, Callable[[], tuple[list[str], list[str]]]]]:
    """The name of each map, and a function that makes the lines that found it and its edits."""
    for rows in (30, 60, 100):
        yield 'gaps, %s parcels' % format(rows ** 2, ','), partial(gaps_of, parcels, rows, 1000)
    for rows in (4, 8, 20):
        yield 'gaps, %d municipalities of 200 vertices' % rows ** 2, partial(gaps_of, municipalities, rows, 50)
    for name, turn in zip(('north', 'turned'), TURNINGS):
        yield 'gaps, jagged border of 1,024 vertices, ' + name, partial(jagged_gaps, turn, 100)
        yield 'gaps, jagged slit of 1,024 vertices, ' + name, partial(slit_gaps, turn, 20)
    rule = 'polygon_must_be_covered_by_feature_class_of '
    for rows in (30, 60, 100):
        name = '%s parcels and %d zones' % (format(rows ** 2, ','), rows ** 2 // 100)
        yield 'parcels covered, ' + name, partial(zoned, rows, rule + 'parcels zones', 2000)
        yield 'zones covered, ' + name, partial(zoned, rows, rule + 'zones parcels', 50)
    for rows in (20, 30, 40):
        name = 'one zone covered, by %s parcels' % format(rows ** 2, ',')
        yield name, partial(zoned, rows, rule + 'zones parcels', 4, rows)
    for rows in (1, 5, 20):
        name = 'roads of 2,000 vertices along %s, ' + str(rows) + ' along %d'
        yield name % ('areas', ACROSS * rows), partial(along_areas, rows)
        yield name % ('paths', ACROSS * rows), partial(along_paths, rows)


if __name__ == '__main__':
    sys.exit(print_edited_maps(__doc__, maps))
