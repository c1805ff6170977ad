"""Curves as lines that are nowhere farther from them than was asked: the same vertices whichever way round a curve goes."""
from __future__ import annotations

import math
import struct
from array import array
from typing import NamedTuple, Optional

from .wkb import Geometry, Reader

KINDS = {'CIRCULARSTRING': 'line', 'COMPOUNDCURVE': 'line', 'MULTICURVE': 'line', 'CURVEPOLYGON': 'polygon', 'MULTISURFACE': 'polygon'}
MOST = 100000

Point = tuple[float, float]


class TooFine(Exception):
    """An arc that would have too many vertices."""


class Circle(NamedTuple):
    centre: Point
    radius: float

    def angle(self, point: Point) -> float:
        return math.atan2(point[1] - self.centre[1], point[0] - self.centre[0])


def circle_of(p: Point, q: Point, r: Point) -> Optional[Circle]:
    """The circle through three points, of which the outer two may be one, opposite the middle one; none where they are on one line."""
    if p == r:
        return Circle(((p[0] + q[0]) / 2, (p[1] + q[1]) / 2), math.dist(p, q) / 2) if p != q else None
    ux, uy, vx, vy = q[0] - p[0], q[1] - p[1], r[0] - p[0], r[1] - p[1]
    cross = 2 * (ux * vy - uy * vx)
    if not math.isfinite(cross) or cross == 0:
        return None
    u, v = ux * ux + uy * uy, vx * vx + vy * vy
    x, y = (vy * u - uy * v) / cross, (ux * v - vx * u) / cross
    return Circle((p[0] + x, p[1] + y), math.hypot(x, y)) if math.isfinite(math.hypot(x, y)) else None


def between(circle: Circle, p: Point, q: Point, is_left: bool, most: float) -> list[Point]:
    """Points on a circle between two of it, counter-clockwise or clockwise, near enough that each chord is at most so far from it."""
    start = circle.angle(p)
    whole = (circle.angle(q) - start) % (2 * math.pi) if is_left else -((start - circle.angle(q)) % (2 * math.pi))
    step = math.pi / 2 if most >= circle.radius else min(math.pi / 2, 2 * math.acos(1 - most / circle.radius))
    count = math.ceil(abs(whole) / step) if step > abs(whole) / MOST else MOST
    if count >= MOST:
        raise TooFine
    ways = (start + whole * number / count for number in range(1, count))
    return [(circle.centre[0] + circle.radius * math.cos(way), circle.centre[1] + circle.radius * math.sin(way)) for way in ways]


def arc(p: Point, q: Point, r: Point, most: float) -> list[Point]:
    """An arc from a point over another to a third one, without the first. It is made from its lesser end."""
    if r < p:
        return arc(r, q, p, most)[-2::-1] + [r]
    circle = circle_of(p, q, r)
    if circle is None:
        return [q, r]
    is_left = p == r or (q[0] - p[0]) * (r[1] - p[1]) - (q[1] - p[1]) * (r[0] - p[0]) > 0
    return [*between(circle, p, q, is_left, most), q, *between(circle, q, r, is_left, most), r]


def points_of(numbers: array) -> list[Point]:
    return list(zip(numbers[0::2], numbers[1::2]))


class CurveReader(Reader):
    """Reads geometries with curves; a struct.error where the bytes are none."""

    def __init__(self, data: bytes, most: float) -> None:
        super().__init__(data)
        self.most, self.has_more = most, False

    def next_head(self) -> tuple[str, int, int]:
        order, code, size = self.head()
        self.has_more |= size > 2
        return order, code, size

    def curve(self, depth: int = 0) -> list[Point]:
        """The vertices of a line, of arcs, or of several such that follow each other."""
        order, code, size = self.next_head()
        if code == 9 and depth == 0:
            parts = [self.curve(1) for _ in range(self.count(order, 5))]
            return [point for number, part in enumerate(parts) for point in part[number > 0:]]
        if code not in (2, 8):
            raise struct.error('a curve of another kind')
        points = points_of(self.vertices(order, size, self.count(order, 8 * size)))
        return self.arcs(points) if code == 8 else points

    def arcs(self, points: list[Point]) -> list[Point]:
        if len(points) % 2 == 0:
            raise struct.error('an arc without its end')
        found = points[:1]
        for number in range(0, len(points) - 2, 2):
            p, q, r = points[number:number + 3]
            found += arc(p, q, r, self.most)
        return found

    def surface(self) -> list[list[Point]]:
        """The rings of a polygon, which may have curves."""
        order, code, size = self.next_head()
        if code == 3:
            return [points_of(each) for each in self.lists(order, code, size)]
        if code != 10:
            raise struct.error('a surface of another kind')
        return [self.curve() for _ in range(self.count(order, 5))]

    def word_and_parts(self) -> tuple[str, list[list[list[Point]]]]:
        """The word of lines or polygons, and the lists of each part."""
        start = self.at
        order, code, _ = self.next_head()
        if code in (11, 12):
            number = self.count(order, 5)
            return ('MULTILINESTRING', [[self.curve()] for _ in range(number)]) if code == 11 else ('MULTIPOLYGON', [self.surface() for _ in range(number)])
        self.at = start
        return ('POLYGON', [self.surface()]) if code == 10 else ('LINESTRING', [[self.curve()]])


def linear_of(data: bytes, most: float) -> Optional[Geometry]:
    """A geometry with curves as one without, nowhere farther from it than this. None where the bytes are none, a TooFine where an arc would
    have too many vertices."""
    reader = CurveReader(data, most)
    try:
        word, parts = reader.word_and_parts()
    except struct.error:
        return None
    found = [[array('d', [number for point in each for number in point]) for each in part if each] for part in parts]
    found = [part for part in found if part]
    return Geometry(word, reader.has_more, not found, found)
