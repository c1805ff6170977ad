"""The gaps of a coverage as areas, and its outer perimeter, from the errors of Must Not Have Gaps: exactly.

The cells of these errors are all of the border between ground that is covered and ground that is not. Who crosses it goes from the one to
the other, and far away nothing is covered. So the faces into which it cuts the plane are open and covered by turns; the open ones are the
gaps, but for the endless one, whose border is the perimeter.
"""
from __future__ import annotations

import math
from fractions import Fraction
from typing import Iterable, NamedTuple

from .outlines import Number, Outline, Point, Ring, doubled_area, rings_of, turn, way_on
from .spans import ROOM, Near, Segment, may_be_straight, near

WORD = 'polygon_must_not_have_gaps'
MOST_STRIPS = 4096

Way = tuple[Point, Point]
Square = tuple[float, float]
# A segment, its ends as they are nearest in double precision, and their box.
Boxed = tuple[Segment, Near, Near, float, float, float, float]


class Gap(NamedTuple):
    """Ground that nothing covers, and the handles of the features beside it."""

    outline: Outline
    beside: set[int]

    @property
    def area(self) -> Fraction:
        return Fraction(sum(map(doubled_area, [self.outline.shell] + self.outline.holes))) / 2


class Ground(NamedTuple):
    """The gaps; the rings of the perimeter, with what is covered at their left, and the handles beside each; the sides that lie on the
    perimeter alone; how many pieces of the border do not close."""

    gaps: list[Gap]
    perimeters: list[tuple[Ring, set[int]]]
    outer: set[Segment]
    unclosed: int


# ---- the border as a graph

class Kept(Fraction):
    """A fraction that keeps its hash, which takes longer than all else that is done with it."""

    __slots__ = ('_known',)
    _known: int

    def __hash__(self) -> int:
        try:
            return self._known
        except AttributeError:
            self._known = super().__hash__()
            return self._known


def eased(point: Point) -> Point:
    """The same point, in whole numbers where it lies on the grid, as nearly all do: these are compared much faster."""
    x, y = point
    return (x.numerator if x.denominator == 1 else Kept(x)), (y.numerator if y.denominator == 1 else Kept(y))


class Sides:
    """Segments by squares of the plane, to find those on which a point may lie. The side of a square is a power of two, and no shorter than the
    segments that stand in it: so a segment meets four of them at most."""

    def __init__(self, segments: Iterable[Segment]) -> None:
        self.sizes: dict[float, dict[Square, list[Boxed]]] = {}
        for segment in segments:
            p, q = near(segment[0]), near(segment[1])
            x0, y0, x1, y1 = box = min(p[0], q[0]), min(p[1], q[1]), max(p[0], q[0]), max(p[1], q[1])
            size = math.ldexp(1.0, math.frexp(max(x1 - x0, y1 - y0, 1.0))[1])
            of_size = self.sizes.setdefault(size, {})
            for x in range(math.floor(x0 / size), math.floor(x1 / size) + 1):
                for y in range(math.floor(y0 / size), math.floor(y1 / size) + 1):
                    of_size.setdefault((x, y), []).append((segment, p, q, *box))

    def to(self, point: Point) -> list[Segment]:
        """Those on which a point may lie that is no end of them. What is nearest to it lies in the box of their ends, too: rounding keeps order."""
        x, y = at = near(point)
        beside = [squares.get((x // size, y // size), ()) for size, squares in self.sizes.items()]
        return [segment for found in beside for segment, p, q, x0, y0, x1, y1 in found
                if x0 <= x <= x1 and y0 <= y <= y1 and may_be_straight(p, q, at) and point not in segment]


def split(sides: dict[Segment, set[int]], points: set[Point]) -> dict[Segment, list[Segment]]:
    """The pieces of each side, cut where another one ends, or where a point lies on both."""
    known, ends = Sides(sides), set().union(*sides)
    cuts: dict[Segment, list[Point]] = {side: [] for side in sides}
    for point in points | ends:
        found = known.to(point)
        if len(found) + (point in ends) > 1:
            for p, q in found:
                if p < point < q and turn(p, q, point) == 0:
                    cuts[p, q].append(point)
    stops = {(p, q): [p, *sorted(between), q] for (p, q), between in cuts.items()}
    return {side: list(zip(places, places[1:])) for side, places in stops.items()}


def handles_of(pieces: dict[Segment, list[Segment]], sides: dict[Segment, set[int]]) -> dict[Segment, set[int]]:
    """The handles of the features that have a piece of a side."""
    out: dict[Segment, set[int]] = {}
    for side, cut in pieces.items():
        for piece in cut:
            out.setdefault(piece, set()).update(sides[side])
    return out


def neighbours_of(sides: Iterable[Segment]) -> dict[Point, list[Point]]:
    ways: dict[Point, list[Point]] = {}
    for p, q in sides:
        ways.setdefault(p, []).append(q)
        ways.setdefault(q, []).append(p)
    return ways


def pieces_of(ways: dict[Point, list[Point]]) -> list[list[Point]]:
    """The points in connected pieces, each in its order; the pieces by their least points."""
    pieces, seen = [], set()
    for start in sorted(ways):
        if start in seen:
            continue
        seen.add(start)
        piece = [start]
        for point in piece:
            new = [other for other in dict.fromkeys(ways[point]) if other not in seen]
            seen.update(new)
            piece += new
        pieces.append(sorted(piece))
    return pieces


# ---- its faces

def goes_left(ring: Ring) -> bool:
    """Whether a ring goes counter-clockwise. Fractions are asked only where double precision cannot tell: a sum of many has long numbers."""
    x0, y0 = near(ring[0])
    steps = [(x - x0, y - y0) for x, y in map(near, ring)]
    doubled = math.fsum(x * v - y * u for (x, y), (u, v) in zip(steps, steps[1:]))
    far = max(abs(number) for step in steps for number in step) + max(1.0, abs(x0), abs(y0)) * ROOM
    room = len(ring) * far * (far + max(abs(x0), abs(y0))) * ROOM
    return doubled > 0 if abs(doubled) > room else doubled_area(ring) > 0


class Faces:
    """The walks round the faces of a graph in which from each point an even number of ways lead on, each with its face at its left."""

    def __init__(self, pieces: list[list[Point]], ways: dict[Point, list[Point]]):
        self.ways = ways
        self.walks: list[Ring] = []
        self.of_way: dict[Way, int] = {}
        for piece in pieces:
            for p in piece:
                for q in ways[p]:
                    if (p, q) not in self.of_way:
                        self.walk((p, q))
        self.is_bounded = list(map(goes_left, self.walks))

    def walk(self, way: Way) -> None:
        ring: Ring = []
        while way not in self.of_way:
            self.of_way[way] = len(self.walks)
            ring.append(way[0])
            before, at = way
            way = at, way_on(before, at, [point for point in self.ways[at] if point != before])
        self.walks.append(ring)

    def ways_of(self, number: int) -> list[Way]:
        ring = self.walks[number]
        return list(zip(ring, ring[1:] + ring[:1]))


class Strips:
    """Sides by upright strips of the plane, to find the one next below a point."""

    def __init__(self, sides: list[Segment]):
        self.low = float(min(p[0] for p, _ in sides))
        count = min(MOST_STRIPS, len(sides))
        self.wide = max((float(max(q[0] for _, q in sides)) - self.low) / count, 1e-9)
        self.sides: dict[int, list[Segment]] = {}
        for p, q in sides:
            if p[0] < q[0]:
                for strip in range(self.strip(p[0]), self.strip(q[0]) + 1):
                    self.sides.setdefault(strip, []).append((p, q))

    def strip(self, x: Number) -> int:
        return math.floor((float(x) - self.low) / self.wide)

    def below(self, point: Point) -> list[Way]:
        """The side next below a point that lies on none of them, from its left end to its right one; an empty list where none is."""
        x, y = point
        near = [(p, q) for p, q in self.sides.get(self.strip(x), ()) if p[0] <= x < q[0] and (p[1] < y or q[1] < y)]
        heights = [(p[1] + (x - p[0]) * slope((p, q)), (p, q)) for p, q in near]
        under = [each for each in heights if each[0] < y]
        top = max((height for height, _ in under), default=None)
        return [max((way for height, way in under if height == top), key=slope)] if under else []


def slope(way: Way) -> Fraction:
    return Fraction(way[1][1] - way[0][1]) / (way[1][0] - way[0][0])


ENDLESS = -1


class Map:
    """The faces of a border with the one in which each piece lies, and whether each is open ground."""

    def __init__(self, pieces: list[list[Point]], ways: dict[Point, list[Point]]):
        self.faces = Faces(pieces, ways)
        self.strips = Strips([(p, q) for p in ways for q in ways[p] if p < q])
        self.around: dict[int, int] = {}                   # the face round the outer walk of each piece
        self.is_open: dict[int, bool] = {ENDLESS: True}
        for piece in pieces:
            self.place(piece)

    def outer_walk(self, piece: list[Point]) -> int:
        """The walk round a piece from outside: the one that is at the left of no way on from its least point."""
        numbers = {self.faces.of_way[piece[0], point] for point in self.faces.ways[piece[0]]}
        return next(number for number in numbers if not self.faces.is_bounded[number])

    def face_round(self, piece: list[Point]) -> int:
        below = [self.faces.of_way[way] for way in self.strips.below(piece[0])]
        if not below:
            return ENDLESS
        return below[0] if self.faces.is_bounded[below[0]] else self.around[below[0]]

    def place(self, piece: list[Point]) -> None:
        """Says of the faces of a piece whether they are open, from the one round it inwards."""
        outer = self.outer_walk(piece)
        self.around[outer] = self.face_round(piece)
        self.is_open[outer] = self.is_open[self.around[outer]]
        reached = [outer]
        for number in reached:
            beside = {self.faces.of_way[q, p] for p, q in self.faces.ways_of(number)}
            reached += [other for other in beside if other not in self.is_open]
            self.is_open.update((other, not self.is_open[number]) for other in beside if other not in self.is_open)


# ---- what the map has

def straightened(ring: Ring, ways: dict[Point, list[Point]]) -> Ring:
    """A ring without the points at which nothing turns and no other way passes."""
    known = list(map(near, ring))
    around = zip(ring[-1:] + ring[:-1], ring, ring[1:] + ring[:1], known[-1:] + known[:-1], known, known[1:] + known[:1])
    return [q for p, q, r, *ends in around if len(ways[q]) > 2 or not may_be_straight(*ends) or turn(p, q, r) != 0]


def side_of(way: Way) -> Segment:
    return (way[0], way[1]) if way[0] < way[1] else (way[1], way[0])


def gap_of(number: int, inner: list[int], of: Map, sides: dict[Segment, set[int]]) -> Gap:
    """The gap in a face, with the outer walks of the pieces that lie in it."""
    walks = [number, *inner]
    rings = [straightened(ring, of.faces.ways) for walk in walks for ring in rings_of(of.faces.walks[walk])]
    shell = max(rings, key=doubled_area)
    beside = set().union(*(sides[side_of(way)] for walk in walks for way in of.faces.ways_of(walk)))
    return Gap(Outline(shell, [ring for ring in rings if ring is not shell]), beside)


def ground_of(borders: dict[Segment, set[int]], points: set[Point]) -> Ground:
    """The ground of a coverage, by the sides of its border with the features that have them, and the points at which sides may end, also
    within one of these: where two cross, one of them."""
    if not borders:
        return Ground([], [], set(), 0)
    eased_borders = {(eased(p), eased(q)): handles for (p, q), handles in borders.items()}
    cut = split(eased_borders, set(map(eased, points)))
    sides = handles_of(cut, eased_borders)
    ways = neighbours_of(sides)
    pieces = pieces_of(ways)
    closed = [piece for piece in pieces if all(len(ways[point]) % 2 == 0 for point in piece)]
    kept = {point: ways[point] for piece in closed for point in piece}
    if not closed:
        return Ground([], [], set(), len(pieces))
    of = Map(closed, kept)
    inner: dict[int, list[int]] = {}
    for outer, around in of.around.items():
        inner.setdefault(around, []).append(outer)
    gaps = [gap_of(number, inner.get(number, []), of, sides) for number, is_open in of.is_open.items()
            if is_open and number != ENDLESS and of.faces.is_bounded[number]]
    walks = inner.get(ENDLESS, [])
    beside = [set().union(*(sides[side_of(way)] for way in of.faces.ways_of(walk))) for walk in walks]
    rings = [straightened(of.faces.walks[walk], kept)[::-1] for walk in walks]
    passed = {side_of(way) for walk in walks for way in of.faces.ways_of(walk)}
    on_outside = {side for side, parts in cut.items() if passed.issuperset(parts)}
    return Ground(sorted(gaps, key=lambda gap: min(gap.outline.shell)), list(zip(rings, beside)), on_outside, len(pieces) - len(closed))
