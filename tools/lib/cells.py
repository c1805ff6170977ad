"""Cells as the corners of their closures, and what a list of them covers, exactly."""
from __future__ import annotations

from fractions import Fraction
from math import ceil, floor, gcd, hypot, lcm
from typing import NamedTuple, Optional

from .outlines import Outline, Point, doubled_area, line_key, outlines_of, turn
from .replies import Error, Frame, Half
from .spans import Segment, beside, bounds_of, ends_of, equation_of, numbers_of, parts_on_lines, stops_in

# A box that meets more squares is compared with all.
MOST_SQUARES = 1024
# Whole numbers of more bits are no faster than fractions.
MOST_BITS = 2048

Triple = tuple[int, int, int]
Span = tuple[Fraction, Fraction]


class Cover(NamedTuple):
    """What the closures of cells cover: polygons, what is left of lines beside them, and points beside both."""

    polygons: list[Outline]
    lines: list[Segment]
    points: list[Point]

    @property
    def area(self) -> Fraction:
        """In square units, exactly."""
        return Fraction(sum(doubled_area(ring) for outline in self.polygons for ring in [outline.shell] + outline.holes)) / 2

    @property
    def length(self) -> float:
        """That of the lines, in units."""
        return sum(hypot(float(q[0] - p[0]), float(q[1] - p[1])) for p, q in self.lines)


def clipped(polygon: list[Triple], a: int, b: int, c: int) -> list[Triple]:
    """The part of a convex polygon where the half-plane's term is at least 0; a corner is (x * w, y * w, w), w being over 0."""
    values = [a * x + b * y + c * w for x, y, w in polygon]
    if min(values) >= 0:
        return polygon
    out = []
    for i, (p, u) in enumerate(zip(polygon, values)):
        q, v = polygon[i + 1 - len(polygon)], values[i + 1 - len(polygon)]
        if u >= 0:
            out.append(p)
        if (u > 0 > v) or (u < 0 < v):
            x, y, w = (abs(v) * of_p + abs(u) * of_q for of_p, of_q in zip(p, q))
            common = gcd(x, y, w)
            out.append((x // common, y // common, w // common))
    return list(dict.fromkeys(out))


def is_straight(p: Triple, q: Triple, r: Triple) -> bool:
    """Whether three points lie on one line."""
    return p[0] * (q[1] * r[2] - r[1] * q[2]) - p[1] * (q[0] * r[2] - r[0] * q[2]) + p[2] * (q[0] * r[1] - r[0] * q[1]) == 0


def corners_of(frame: Frame, cell: list[Half]) -> list[Point]:
    """The corners of a cell's closure: of a polygon counter-clockwise, of a segment its two ends, or one point; of none nothing."""
    equation = equation_of(cell)
    if equation:
        return ends_of(frame, cell, numbers_of(equation))
    x0, y0, x1, y1 = frame
    triples = [(x0 - 1, y0 - 1, 1), (x1 + 1, y0 - 1, 1), (x1 + 1, y1 + 1, 1), (x0 - 1, y1 + 1, 1)]
    for a, b, c, op in dict.fromkeys(cell):
        triples = clipped(triples, a, b, c) if triples else []
        if op == '=':
            triples = clipped(triples, -a, -b, -c) if triples else []
    corners = [(Fraction(x, w), Fraction(y, w)) for x, y, w in triples]
    turns = [not is_straight(triples[i - 1], q, triples[i + 1 - len(triples)]) for i, q in enumerate(triples)]
    if len(corners) > 1 and not any(turns):
        return [min(corners), max(corners)]
    return [corner for corner, is_kept in zip(corners, turns) if is_kept or len(corners) < 3]


def rectangle(frame: Frame) -> list[Point]:
    """The corners of a closed rectangle, which may be a line or a point."""
    x0, y0, x1, y1 = map(Fraction, frame)
    return list(dict.fromkeys([(x0, y0), (x1, y0), (x1, y1), (x0, y1)]))


def closures_of(error: Error) -> list[list[Point]]:
    """The corners of each cell of an error; of its frame where the listing has no cells."""
    if not error.cells:
        return [rectangle(error.frame)]
    if error.closures is not None:
        return [corners for corners in error.closures if corners]
    return [corners for corners in (corners_of(error.frame, cell) for cell in error.cells) if corners]


def span_in(segment: Segment, polygon: list[Point]) -> Span:
    """Which part of a segment lies in a convex polygon with its border, from 0 to 1; an empty one ends before it begins."""
    low, high = Fraction(0), Fraction(1)
    for p, q in zip(polygon, polygon[1:] + polygon[:1]):
        u, v = turn(p, q, segment[0]), turn(p, q, segment[1])
        if u < 0 and v < 0:
            return Fraction(1), Fraction(0)
        if u < 0 or v < 0:
            t = Fraction(u, u - v)
            low, high = (max(low, t), high) if u < 0 else (low, min(high, t))
    return low, high


def whole_box(points: list[Point]) -> Frame:
    """The least rectangle in whole numbers that holds the points."""
    xs, ys = zip(*points)
    return floor(min(xs)), floor(min(ys)), ceil(max(xs)), ceil(max(ys))


class Near:
    """Polygons by squares of the plane, to find those that may meet some points or what is between them."""

    def __init__(self, polygons: list[list[Point]]) -> None:
        self.polygons, self.boxes = polygons, list(map(whole_box, polygons))
        spans = [max(x1 - x0, y1 - y0) for x0, y0, x1, y1 in self.boxes]
        self.size = max(1, sum(spans) // max(1, len(spans)))
        self.at: dict[tuple[int, int], list[int]] = {}
        self.wide: list[int] = []
        for number, box in enumerate(self.boxes):
            squares = self.squares(box)
            if squares is None:
                self.wide.append(number)
            for square in squares or ():
                self.at.setdefault(square, []).append(number)

    def squares(self, box: Frame) -> Optional[list[tuple[int, int]]]:
        """The squares that a box meets; none where they are too many."""
        x0, y0, x1, y1 = (side // self.size for side in box)
        if (x1 - x0 + 1) * (y1 - y0 + 1) > MOST_SQUARES:
            return None
        return [(x, y) for x in range(x0, x1 + 1) for y in range(y0, y1 + 1)]

    def to(self, points: list[Point]) -> list[list[Point]]:
        x0, y0, x1, y1 = box = whole_box(points)
        squares = self.squares(box)
        numbers = range(len(self.boxes)) if squares is None else sorted({*self.wide, *(number for square in squares for number in self.at.get(square, ()))})
        boxes = ((number, self.boxes[number]) for number in numbers)
        return [self.polygons[number] for number, (a0, b0, a1, b1) in boxes if a0 <= x1 and x0 <= a1 and b0 <= y1 and y0 <= b1]


def rest_of(segment: Segment, polygons: Near) -> list[Segment]:
    """The parts of a segment that lie in none of the polygons."""
    (x, y), (u, v) = segment
    at = lambda t: (x + t * (u - x), y + t * (v - y))
    left, parts = Fraction(0), []
    near = polygons.to(list(segment))
    for low, high in sorted(span for span in (span_in(segment, polygon) for polygon in near) if span[0] <= span[1]):
        if low > left:
            parts.append((at(left), at(low)))
        left = max(left, high)
    return parts + ([(at(left), segment[1])] if left < 1 else [])


def joined(segments: list[Segment]) -> list[Segment]:
    """The same points with as few segments on each line as there can be."""
    by_line: dict[tuple, list[Segment]] = {}
    for segment in segments:
        by_line.setdefault(line_key(*segment), []).append((min(segment), max(segment)))
    out: list[Segment] = []
    for line in by_line.values():
        start, end = None, None
        for p, q in sorted(line):
            if end is not None and p <= end:
                end = max(end, q)
                continue
            out += [(start, end)] if end is not None else []
            start, end = p, q
        out.append((start, end))
    return sorted(out)


def multiple_of(closures: list[list[Point]]) -> int:
    """The least number by which all coordinates become whole; 1 where it is too long to reckon with."""
    by = 1
    for number in {number.denominator for corners in closures for point in corners for number in point}:
        by = lcm(by, number)
        if by.bit_length() > MOST_BITS:
            return 1
    return by


def scaled(corners: list[Point], by: int) -> list[Point]:
    """Points in units of which one is so many, whole where they can be."""
    if by == 1:
        return [(x.numerator, y.numerator) for x, y in corners] if all(x.denominator == y.denominator == 1 for x, y in corners) else corners
    return [(x.numerator * (by // x.denominator), y.numerator * (by // y.denominator)) for x, y in corners]


def cover_of(closures: list[list[Point]]) -> Cover:
    """What the closures cover: cells that share sides are one polygon, and nothing is told twice."""
    if len(closures) == 1 and len(closures[0]) > 2:
        return Cover([Outline(closures[0], [])], [], [])
    by = multiple_of(closures)

    def back(point: Point) -> Point:
        return Fraction(point[0], by), Fraction(point[1], by)

    closures = [scaled(corners, by) for corners in closures]
    areas = [corners for corners in closures if len(corners) > 2]
    segments = dict.fromkeys((corners[0], corners[1]) for corners in closures if len(corners) == 2)
    near = Near(areas)
    lines = joined([(back(p), back(q)) for segment in segments for p, q in rest_of(segment, near)])
    inside = lambda point: any(all(turn(p, q, point) >= 0 for p, q in zip(area, area[1:] + area[:1])) for area in near.to([point]))
    alone = {corners[0] for corners in closures if len(corners) == 1 and not inside(corners[0])}
    outlines = [Outline([back(p) for p in outline.shell], [[back(p) for p in hole] for hole in outline.holes]) for outline in outlines_of(areas)]
    return Cover(outlines, lines, beside({back(p) for p in alone}, lines))


def cover_and_stops(error: Error) -> tuple[Cover, set[Point]]:
    """What the cells of an error cover, or its frame where the listing has none; and the ends of all cells if each lies on a line, also
    where two of them on one line meet."""
    if error.closures is not None:
        return cover_of(error.closures), stops_of(error.closures)
    found = bounds_of(error) if error.cells else None
    if found is None:
        return cover_of(closures_of(error)), set()
    return Cover([], *parts_on_lines(found)), stops_in(found)


def stops_of(closures: list[list[Point]]) -> set[Point]:
    """The corners of cells of which each lies on a line; none where one does not."""
    return set() if any(len(corners) > 2 for corners in closures) else {corner for corners in closures for corner in corners}


def cover_of_error(error: Error) -> Cover:
    """What the cells of an error cover, or its frame where the listing has none."""
    return cover_and_stops(error)[0]
