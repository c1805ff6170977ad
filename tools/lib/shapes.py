"""Shapes on the grid as topo takes them: their kept vertices, their faults, their text (docs/shapes.md)."""
from __future__ import annotations

import functools
from itertools import chain
from typing import Iterator, NamedTuple, Optional

from .grid import Place
from .outlines import turn

MOST_VERTICES = 2000

List = list[Place]
Part = list[List]
Segment = tuple[Place, Place]
Counts = tuple[tuple[int, ...], ...]
# A side by the x and y of its lesser end, then of its greater one.
Side = tuple[int, int, int, int]


class Shape(NamedTuple):
    """The kind is point, line or polygon; a part is a list of places, a line's vertices or a ring's without its last one."""

    kind: str
    parts: list[Part]


class Flat(NamedTuple):
    """A shape as it is written: for each part how many vertices each of its lists has, with the first vertex of a ring again at its end,
    and x and y of all vertices in turn."""

    kind: str
    counts: Counts
    numbers: list[int]


def kept(vertices: List, is_ring: bool) -> List:
    """The vertices that say something: no equal neighbours, and a ring's end is not its beginning."""
    out = [p for i, p in enumerate(vertices) if i == 0 or p != vertices[i - 1]]
    while is_ring and len(out) > 1 and out[-1] == out[0]:
        out.pop()
    return out


def segments_of(parts: list[Part]) -> list[Segment]:
    """The segments of a polygon, ring by ring."""
    return [pair for part in parts for ring in part for pair in zip(ring, ring[1:] + ring[:1])]


def clash_of(s: Segment, t: Segment) -> Optional[str]:
    """How two segments are together in no polygon: they cross, or run along each other."""
    (a, b), (c, d) = s, t
    if max(c[1], d[1]) < min(a[1], b[1]) or max(a[1], b[1]) < min(c[1], d[1]):
        return None
    of_c, of_d = turn(a, b, c), turn(a, b, d)
    if of_c == 0 and of_d == 0:
        low, high = max(min(a, b), min(c, d)), min(max(a, b), max(c, d))
        return 'along' if low < high else None
    of_a, of_b = turn(c, d, a), turn(c, d, b)
    return 'cross' if of_c * of_d < 0 and of_a * of_b < 0 else None


def near_pairs(segments: list[Segment]) -> Iterator[tuple[int, int]]:
    """The pairs whose ranges of x meet, each with its lower number first."""
    order = sorted(range(len(segments)), key=lambda i: min(segments[i]))
    for at, i in enumerate(order):
        right = max(segments[i])[0]
        for j in order[at + 1:]:
            if min(segments[j])[0] > right:
                break
            yield min(i, j), max(i, j)


def first_clash(segments: list[Segment]) -> Optional[tuple[int, int, str]]:
    """The first pair of segments that clash, and how."""
    clashes = ((i, j, clash_of(segments[i], segments[j])) for i, j in near_pairs(segments))
    return min(((i, j, how) for i, j, how in clashes if how), default=None)


def sides_of(places: List) -> list[Side]:
    """The sides between the places of a list."""
    return [(*p, *q) if p < q else (*q, *p) for p, q in zip(places, places[1:])]


def has_clash(sides: list[Side]) -> bool:
    """Whether two of the sides clash."""
    sides = sorted(sides)
    for at, (ax, ay, bx, by) in enumerate(sides, 1):
        low, high = (ay, by) if ay <= by else (by, ay)
        for cx, cy, dx, dy in sides[at:]:
            if cx > bx:
                break
            if cy > high and dy > high or cy < low and dy < low:
                continue
            of_c = (bx - ax) * (cy - ay) - (by - ay) * (cx - ax)
            of_d = (bx - ax) * (dy - ay) - (by - ay) * (dx - ax)
            if of_c == 0 and of_d == 0 and max((ax, ay), (cx, cy)) < min((bx, by), (dx, dy)):
                return True
            if of_c < 0 < of_d or of_d < 0 < of_c:
                of_a = (dx - cx) * (ay - cy) - (dy - cy) * (ax - cx)
                of_b = (dx - cx) * (by - cy) - (dy - cy) * (bx - cx)
                if of_a < 0 < of_b or of_b < 0 < of_a:
                    return True
    return False


def fault_of(shape: Shape, most: int = MOST_VERTICES) -> Optional[str]:
    """Why topo would refuse the shape, if it took so many vertices, as its details say it; none where it is valid."""
    lists = [each for part in shape.parts for each in part]
    least = {'point': 1, 'line': 2, 'polygon': 3}[shape.kind]
    few = next((i for i, each in enumerate(lists) if len(each) < least), None)
    if few is not None:
        return 'few %d' % few
    count = sum(map(len, lists))
    if count > most:
        return 'many %d' % count
    clash = first_clash(segments_of(shape.parts)) if shape.kind == 'polygon' else None
    return '%s %d %d' % (clash[2], clash[0], clash[1]) if clash else None


def flat_of(shape: Shape) -> Flat:
    """The shape as it is written."""
    lists = [[each + each[:1] if shape.kind == 'polygon' else each for each in part] for part in shape.parts]
    numbers = chain.from_iterable(chain.from_iterable(chain.from_iterable(lists)))
    return Flat(shape.kind, tuple(tuple(map(len, part)) for part in lists), list(numbers))


@functools.lru_cache(1 << 14)
def form_of(kind: str, counts: Counts) -> str:
    """The written form of shapes with so many vertices, in well-known text, with room for their numbers."""
    lists = [['(%s)' % ', '.join(['%d %d'] * count) for count in part] for part in counts]
    if kind == 'point':
        return 'POINT ' + lists[0][0]
    if kind == 'line':
        return 'LINESTRING ' + lists[0][0] if len(lists) == 1 else 'MULTILINESTRING (%s)' % ', '.join(part[0] for part in lists)
    parts = ['(%s)' % ', '.join(part) for part in lists]
    return 'POLYGON ' + parts[0] if len(parts) == 1 else 'MULTIPOLYGON (%s)' % ', '.join(parts)


def flat_text(flat: Flat) -> str:
    """Its written form, in well-known text."""
    return form_of(flat.kind, flat.counts) % tuple(flat.numbers)


def shape_text(shape: Shape) -> str:
    return flat_text(flat_of(shape))
