"""Convex polygons that share sides, dissolved into polygons with holes: exactly, and valid by the simple features of OGC."""
from __future__ import annotations

from fractions import Fraction
from math import gcd
from typing import Iterator, NamedTuple, Sequence, TypeVar, Union

# Whole where it can be: such are computed with fastest.
Number = Union[int, Fraction]
Point = tuple[Number, Number]
Ring = list[Point]
# Points of one kind, as places of the grid.
P = TypeVar('P', bound=Point)


class Outline(NamedTuple):
    """A polygon: its shell counter-clockwise, its holes clockwise; the last vertex goes back to the first."""

    shell: Ring
    holes: list[Ring]


def turn(p: Point, q: Point, r: Point) -> Number:
    """Over 0 where r lies left of the way from p to q, 0 where it lies on their line."""
    return (q[0] - p[0]) * (r[1] - p[1]) - (q[1] - p[1]) * (r[0] - p[0])


def doubled_area(ring: Sequence[Point]) -> Number:
    """Twice the area, under 0 where the ring goes clockwise."""
    return sum(p[0] * q[1] - q[0] * p[1] for p, q in zip(ring, [*ring[1:], *ring[:1]]))


def line_key(p: Point, q: Point) -> tuple:
    """A line by two points of it, all of whose points are in whole numbers, or none."""
    if p[0] == q[0]:
        return (p[0],)
    wide, high, rest = q[0] - p[0], q[1] - p[1], p[1] * q[0] - p[0] * q[1]
    if type(wide) is type(high) is type(rest) is int:
        by = gcd(wide, high, rest) if wide > 0 else -gcd(wide, high, rest)
        return high // by, wide // by, rest // by
    return Fraction(high) / wide, Fraction(rest) / wide


def sides_by_line(polygons: list[Ring]) -> dict[tuple, list[tuple[Point, Point]]]:
    """The sides of all polygons, by the line that they lie on."""
    lines: dict[tuple, list[tuple[Point, Point]]] = {}
    for ring in polygons:
        for p, q in zip(ring, ring[1:] + ring[:1]):
            lines.setdefault(line_key(p, q), []).append((p, q))
    return lines


def outer_sides(sides: list[tuple[Point, Point]], corners: set[Point]) -> list[tuple[Point, Point]]:
    """Of the sides on one line the parts that have a polygon on one side alone, cut at all corners on the line."""
    rises: dict[Point, int] = {}
    for p, q in sides:
        by = 1 if p < q else -1
        rises[min(p, q)] = rises.get(min(p, q), 0) + by
        rises[max(p, q)] = rises.get(max(p, q), 0) - by
    stops = sorted(set(rises) | corners)
    height, out = 0, []
    for p, q in zip(stops, stops[1:]):
        height += rises.get(p, 0)
        if height:
            out.append((p, q) if height > 0 else (q, p))
    return out


def border_of(polygons: list[Ring]) -> dict[Point, list[Point]]:
    """The border of what the polygons cover, as the ways that lead on from each point, with the inside at their left."""
    upright: dict[Number, set[Point]] = {}
    for ring in polygons:
        for point in ring:
            upright.setdefault(point[0], set()).add(point)
    ways: dict[Point, list[Point]] = {}
    for key, sides in sides_by_line(polygons).items():
        corners = upright[key[0]] if len(key) == 1 else set()
        for p, q in outer_sides(sides, corners):
            ways.setdefault(p, []).append(q)
    return ways


def is_before(back: Point, d: Point, e: Point) -> bool:
    """Whether the direction d comes before e when one turns clockwise from the direction back."""
    cross = lambda u, v: u[0] * v[1] - u[1] * v[0]
    half = lambda u: 0 if cross(back, u) < 0 else 1 if cross(back, u) == 0 else 2
    return (half(d), 0) < (half(e), 0) if half(d) != half(e) else cross(d, e) < 0


def way_on(before: P, at: P, ways: list[P]) -> P:
    """Of the ways that lead on from a point the one that bounds the same part of the inside: the leftmost."""
    towards = lambda point: (point[0] - at[0], point[1] - at[1])
    best = ways[0]
    for way in ways[1:]:
        if is_before(towards(before), towards(way), towards(best)):
            best = way
    return best


def walks_of(ways: dict[P, list[P]]) -> Iterator[list[P]]:
    """The border as closed walks, each round one part of the inside or of what it leaves out; a walk may meet a point again."""
    unseen = dict.fromkeys((p, q) for p in sorted(ways) for q in ways[p])
    while unseen:
        side = first = next(iter(unseen))
        walk: list[P] = []
        while not walk or side != first:
            del unseen[side]
            walk.append(side[0])
            side = side[1], way_on(side[0], side[1], ways[side[1]])
        yield walk


def rings_of(walk: list[P]) -> Iterator[list[P]]:
    """A closed walk as rings that meet no point twice."""
    path: list[P] = []
    places: dict[P, int] = {}
    for point in walk:
        if point in places:
            at = places[point]
            yield path[at:]
            for passed in path[at + 1:]:
                del places[passed]
            del path[at + 1:]
        else:
            places[point] = len(path)
            path.append(point)
    yield path


def without_straight(ring: Ring, ways: dict[Point, list[Point]]) -> Ring:
    """A ring without the vertices at which nothing turns and no other way passes."""
    around = zip(ring[-1:] + ring[:-1], ring, ring[1:] + ring[:1])
    return [q for p, q, r in around if len(ways[q]) > 1 or turn(p, q, r) != 0]


def is_inside(point: Point, ring: Ring) -> bool:
    """Whether a point that is not on the ring is inside it."""
    odd = False
    for p, q in zip(ring, ring[1:] + ring[:1]):
        if (p[0] <= point[0]) != (q[0] <= point[0]):
            odd ^= (turn(p, q, point) > 0) == (p[0] < q[0])
    return odd


def outlines_of(polygons: list[Ring]) -> list[Outline]:
    """What convex polygons cover that have no point of their insides in common; their vertices go counter-clockwise."""
    ways = border_of(polygons)
    rings = [ring for walk in walks_of(ways) for ring in rings_of(walk)]
    areas = [doubled_area(ring) for ring in rings]
    shells = sorted((area, ring) for area, ring in zip(areas, rings) if area > 0)
    found = [Outline(without_straight(ring, ways), []) for _, ring in shells]
    for ring in [ring for area, ring in zip(areas, rings) if area < 0]:
        middle = Fraction(ring[0][0] + ring[1][0]) / 2, Fraction(ring[0][1] + ring[1][1]) / 2
        around = next(outline for outline, (_, shell) in zip(found, shells) if is_inside(middle, shell))
        around.holes.append(without_straight(ring, ways))
    return found
