"""The canonical form of a shape: two texts have the same one where only the beginning or the direction of rings or lines, or the order of
parts or holes, is another."""
from __future__ import annotations

import re

from .texts import KINDS

Place = tuple[int, int]
Places = tuple[Place, ...]
PART = re.compile(r'\((\([^()]*\)(?:, *\([^()]*\))*)\)')
LIST = re.compile(r'\(([^()]*)\)')


def places_of(text: str) -> Places:
    """The places of a list as it stands between its brackets."""
    return tuple((int(x), int(y)) for x, y in map(str.split, text.split(',')))


def canonical_ring(places: Places) -> Places:
    """A ring, whose last place is its first one again, from its least place in the direction that gives the least list."""
    ring = places[:-1]
    least = min(ring)
    begins = [number for number, place in enumerate(ring) if place == least]
    forward = (ring[number:] + ring[:number] for number in begins)
    backward = (ring[number::-1] + ring[:number:-1] for number in begins)
    return min([*forward, *backward])


def canonical_part(text: str) -> tuple[Places, ...]:
    """The rings of a polygon: the outer one, then the holes in order."""
    outer, *holes = (canonical_ring(places_of(ring)) for ring in LIST.findall(text))
    return outer, *sorted(holes)


def canonical(text: str) -> tuple:
    """The canonical form of a shape by its written form."""
    word = text.split(' ', 1)[0]
    kind = KINDS[word]
    if kind == 'polygon':
        return kind, *sorted(canonical_part(part) for part in PART.findall(text))
    lists = [places_of(each) for each in LIST.findall(text)]
    return kind, *sorted(min(each, each[::-1]) for each in lists)


def is_same(text: str, other: str) -> bool:
    """Whether two written forms are of one shape."""
    return text == other or canonical(text) == canonical(other)
