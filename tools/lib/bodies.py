"""Features in fractions: what lies on, in and at the end of each, one question at a time, and the places that decide for a whole map."""
from __future__ import annotations

from fractions import Fraction
from functools import lru_cache
from itertools import pairwise
from typing import Iterable, Iterator

from .grid import Place
from .outlines import Number, Point, turn
from .scenes import Drawn

Side = tuple[Point, Point]
TINY = Fraction(1, 10 ** 9)


def holds(side: Side, p: Point) -> bool:
    a, b = side
    return turn(a, b, p) == 0 and min(a[0], b[0]) <= p[0] <= max(a[0], b[0]) and min(a[1], b[1]) <= p[1] <= max(a[1], b[1])


@lru_cache(maxsize=None)
def common(s: Side, t: Side) -> tuple[Point, ...]:
    """What two segments have in common: nothing, one point, or the two ends of a stretch."""
    (a, b), (c, d) = s, t
    ux, uy, vx, vy = b[0] - a[0], b[1] - a[1], d[0] - c[0], d[1] - c[1]
    cross = ux * vy - uy * vx
    if cross == 0:
        ends = sorted({p for p in s if holds(t, p)} | {p for p in t if holds(s, p)})
        return tuple(ends[:1] + ends[-1:]) if len(ends) > 1 else tuple(ends)
    along = Fraction((c[0] - a[0]) * vy - (c[1] - a[1]) * vx, cross)
    p = a[0] + along * ux, a[1] + along * uy
    return (p,) if holds(s, p) and holds(t, p) else ()


def overlap(s: Side, t: Side) -> bool:
    return len(common(s, t)) == 2


class Body:
    """A feature: its sides are the segments of a line or of a polygon's rings; an end or a place is a vertex."""

    def __init__(self, drawn: Drawn) -> None:
        self.handle, self.of_class, self.kind, self.subtype = drawn.handle, drawn.of_class, drawn.kind, drawn.subtype
        lists = [] if self.kind == 'point' else drawn.lists
        self.parts = lists
        self.sides: list[Side] = [side for part in lists for side in pairwise(part)]
        self.part_of = [number for number, part in enumerate(lists) for _ in part[1:]]
        self.ends = [end for part in lists for end in (part[0], part[-1])] if self.kind == 'line' else []
        self.place = drawn.lists[0][0]
        self.known: dict[Point, bool] = {}

    def is_on(self, p: Point) -> bool:
        return any(holds(side, p) for side in self.sides)

    def is_inside(self, p: Point) -> bool:
        """Whether a point is off the boundary, with an odd number of sides below it."""
        if p not in self.known:
            self.known[p] = not self.is_on(p) and sum(below(side, p) for side in self.sides) % 2 == 1
        return self.known[p]

    def is_closed_in(self, p: Point) -> bool:
        return self.is_inside(p) or self.is_on(p)


def height(side: Side, x: Number) -> Number:
    """The ordinate at which a side that is not upright has this abscissa."""
    (ax, ay), (bx, by) = side
    return ay + Fraction(by - ay, bx - ax) * (x - ax)


def below(side: Side, p: Point) -> bool:
    return (side[0][0] <= p[0]) != (side[1][0] <= p[0]) and height(side, p[0]) < p[1]


# ---- the places that decide

def middle(p: Point, q: Point) -> Point:
    return Fraction(p[0] + q[0], 2), Fraction(p[1] + q[1], 2)


def on_sides(sides: list[Side]) -> set[Point]:
    """Each place where sides meet or end, and one between each two neighbours of them on a side."""
    cuts = {side: set(side) for side in sides}
    for number, s in enumerate(sides):
        for t in sides[:number]:
            cuts[s].update(common(s, t))
            cuts[t].update(common(s, t))
    stops = [sorted(places) for places in cuts.values()]
    return {p for places in stops for p in places} | {middle(p, q) for places in stops for p, q in pairwise(places)}


def in_faces(sides: list[Side]) -> Iterator[Point]:
    """A point of each face that the sides part the plane into, and points above each vertex, on the sides and between them."""
    stops = sorted({p[0] for p in on_sides(sides)})
    vertices = {place[0] for side in sides for place in side}
    for x in sorted(vertices | {Fraction(a + b, 2) for a, b in pairwise(stops)}):
        reached = [side for side in sides if side[0][0] != side[1][0] and min(side[0][0], side[1][0]) <= x <= max(side[0][0], side[1][0])]
        heights: list[Number] = sorted({height(side, x) for side in reached})
        if heights:
            yield from ((x, y) for y in [heights[0] - 1, *heights, *(Fraction(a + b, 2) for a, b in pairwise(heights)), heights[-1] + 1])


def way_to(p: Point, q: Point) -> Point:
    """The direction of a point from another, its two parts without their signs 1 together."""
    dx, dy = Fraction(q[0] - p[0]), Fraction(q[1] - p[1])
    return dx / (abs(dx) + abs(dy)), dy / (abs(dx) + abs(dy))


def directions(p: Point, sides: Iterable[Side]) -> list[Point]:
    """Directions from a point on some sides into each of the sectors between them."""
    ways = {way_to(p, q) for side in sides if holds(side, p) for q in side if q != p}
    turned = sorted(ways, key=lambda way: (1 - way[0] if way[1] >= 0 else 3 + way[0]))
    sectors: list[Point] = []
    for a, b in zip(turned, turned[1:] + turned[:1]):
        side = a[0] * b[1] - a[1] * b[0]
        sectors.append((a[0] + b[0], a[1] + b[1]) if side > 0 else (-a[1], a[0]))
    return sectors


def beside(p: Point, sides: Iterable[Side]) -> list[Point]:
    """A point as near as may be in each sector round a point on some sides."""
    return [(p[0] + TINY * dx, p[1] + TINY * dy) for dx, dy in directions(p, sides)]
