#!/usr/bin/env python3
"""How long points in polygons take under the rules on both: validated whole, and then after each of many edits.

usage: bench/wells.py [--baseline WORDS] [--lines NAME ..] [--turns N] [--seconds N] [--instructions] [--program WORDS]

  --lines NAME ..   the maps whose names begin with one of these; all where it is left out
  the others        as in bench/run.py

Parcels and municipalities are those of bench/borders.py: they lie in a square and share their borders, a parcel with a vertex between
two corners, a municipality with 50 segments a side. Each parcel has a well in its middle and each municipality a hundred of them; of
each twenty parcels, one has its well on a corner instead, and one has none. An edit moves a vertex of a polygon, or a well, and validates
a window round it.
"""
from __future__ import annotations

import random
import sys
from functools import partial
from typing import Callable, Iterator

from borders import Country
from programs import Place, Ring, added, edits, point, print_edited_maps

Making = Callable[[Country, list[Ring], list[list[Place]]], tuple[list[str], list[str]]]
Placing = Callable[[Country, list[Ring]], Iterator[list[Place]]]

INSIDE, CONTAINS = 'point_must_be_properly_inside wells areas', 'polygon_contains_point areas wells'


def head(rule: str) -> list[str]:
    return ['class areas polygon', 'class wells point', 'rule ' + rule, 'begin ann']


def spot(places: list[Place]) -> str:
    return point(places[0])


def in_parcels(country: Country, rings: list[Ring]) -> Iterator[list[Place]]:
    """A well for each parcel, but for one in twenty; another one in twenty stands on a corner."""
    for number, ring in enumerate(rings):
        row, column = divmod(number, country.size)
        if number % 20 == 13:
            yield [ring[0]]
        elif number % 20 != 3:
            yield [(column * country.width + country.width // 2, row * country.width + country.width // 2)]


def in_towns(country: Country, rings: list[Ring]) -> Iterator[list[Place]]:
    """A hundred wells for each municipality, anywhere; some lie in the next one."""
    lot = random.Random(len(rings))
    for number in range(len(rings)):
        row, column = divmod(number, country.size)
        for _ in range(100):
            yield [(column * country.width + lot.randrange(country.width), row * country.width + lot.randrange(country.width))]


def contained(country: Country, rings: list[Ring], wells: list[list[Place]]) -> tuple[list[str], list[str]]:
    return head(CONTAINS) + added('areas', rings) + added('wells', wells, spot), edits(rings, 2000 if len(rings) > 400 else 200)


def inside(country: Country, rings: list[Ring], wells: list[list[Place]]) -> tuple[list[str], list[str]]:
    return head(INSIDE) + added('wells', wells, spot) + added('areas', rings), edits(wells, 2000, spot)


def made(make: Making, country: Country, place: Placing) -> tuple[list[str], list[str]]:
    rings = country.rings()
    return make(country, rings, list(place(country, rings)))


def maps() -> Iterator[tuple[str, Callable[[], tuple[list[str], list[str]]]]]:
    """The name of each map, and a function that makes the lines that found it and its edits."""
    for name, make in (('parcels contain', contained), ('wells inside', inside)):
        for rows in (30, 60, 100):
            yield '%s, %s parcels' % (name, format(rows ** 2, ',')), partial(made, make, Country(rows, 2), in_parcels)
        for rows in (4, 8, 20):
            title = '%s, %d municipalities of 200 vertices' % (name, rows ** 2)
            yield title, partial(made, make, Country(rows), in_towns)


if __name__ == '__main__':
    sys.exit(print_edited_maps(__doc__, maps))
