"""The lines that may fix an error (docs/fixing-errors.md), by its rule and by the features near it."""
from __future__ import annotations

from fractions import Fraction
from functools import cached_property
from math import sqrt
from typing import Callable, Iterable, Iterator, NamedTuple, Optional

from .bodies import Body, Side
from .cells import corners_of
from .grid import Place
from .nearest import Nearest, Spot, Stretch, squared
from .replies import Error, Frame, Rule, is_of
from .scenes import Drawn

MOST_MOVES = 16
# How many ordinates are tried for a place inside a polygon.
ROWS = 256
KINDS = ['explode', 'snap', 'create', 'move', 'delete']

Way = tuple[Place, Place]


class Fix(NamedTuple):
    """Lines that may fix an error, or one place of it: without the editor; which features they change, the ways that vertices go, the place of a new
    point, the place that is mended, and the frame of all."""

    kind: str
    lines: tuple[str, ...]
    handles: tuple[int, ...] = ()
    ways: tuple[Way, ...] = ()
    made: Optional[Place] = None
    place: Optional[Place] = None
    frame: Frame = (0, 0, 0, 0)

    @property
    def square(self) -> int:
        """The square of the greatest distance that a vertex goes."""
        return max((squared(*way) for way in self.ways), default=0)

    @property
    def distance(self) -> float:
        return sqrt(self.square)


class Map:
    """The features of a map by class and side, and what is nearest among those of a side."""

    def __init__(self, features: Iterable[Drawn], rules: dict[int, Rule]):
        self.drawn = {each.handle: each for each in features}
        self.rules = rules
        self.bodies: dict[int, Body] = {}
        self.sides: dict[str, list[Body]] = {}
        self.known: dict[tuple, Nearest] = {}
        self.with_vertex: dict[Place, list[int]] = {}

    def body(self, handle: int) -> Body:
        if handle not in self.bodies:
            self.bodies[handle] = Body(self.drawn[handle])
        return self.bodies[handle]

    def on(self, side: str) -> list[Body]:
        """The features of a side of a rule."""
        if side not in self.sides:
            self.sides[side] = [self.body(handle) for handle, each in self.drawn.items() if is_of(side, each.of_class, each.subtype)]
        return self.sides[side]

    def at(self, place: Place) -> list[int]:
        """The features of all classes that have a vertex at a place, ascending."""
        if not self.with_vertex:
            for handle, each in self.drawn.items():
                for p in {p for part in each.lists for p in part}:
                    self.with_vertex.setdefault(p, []).append(handle)
        return self.with_vertex.get(place, [])

    def nearest(self, what: str, side: str) -> Nearest:
        """What is nearest among the segments, the vertices, the ends or the points of a side."""
        if (what, side) not in self.known:
            self.known[what, side] = Nearest(stretch for body in self.on(side) for stretch in STRETCHES[what](body))
        return self.known[what, side]


def segments(body: Body) -> Iterator[Stretch]:
    places = ([(int(p[0]), int(p[1])) for p in side] for side in body.sides)
    return (Stretch(a, b, body.handle) for a, b in places)


def places(body: Body) -> Iterator[Stretch]:
    return (Stretch(p, p, body.handle) for p in vertices_of(body))


def ends(body: Body) -> Iterator[Stretch]:
    return (Stretch(p, p, body.handle) for p in dict.fromkeys(body.ends))


STRETCHES: dict[str, Callable[[Body], Iterator[Stretch]]] = {'segments': segments, 'vertices': places, 'ends': ends, 'points': places}


def vertices_of(body: Body) -> list[Place]:
    return [body.place] if body.kind == 'point' else list(dict.fromkeys(p for part in body.parts for p in part))


def frame_of(places: Iterable[Place]) -> Frame:
    xs, ys = zip(*places)
    return min(xs), min(ys), max(xs), max(ys)


def places_in(error: Error) -> list[Place]:
    """The places of an error whose cells are places of the grid."""
    found = [corners_of(error.frame, cell) for cell in error.cells]
    return [(int(corners[0][0]), int(corners[0][1])) for corners in found if len(corners) == 1]


# ---- a place inside a polygon

def van_der_corput(count: int) -> Iterator[Fraction]:
    """Fractions between 0 and 1, each far from those before it: a half, a quarter, three quarters, an eighth .."""
    for number in range(1, count + 1):
        bits = bin(number)[2:][::-1]
        yield Fraction(int(bits, 2), 1 << len(bits))


def stretches_at(sides: list[Side], y: int) -> list[tuple[Fraction, Fraction]]:
    """The stretches of a row that are inside, by the even-odd count, the widest first."""
    at = sorted(a[0] + Fraction((b[0] - a[0]) * (y - a[1]), b[1] - a[1]) for a, b in sides if (a[1] <= y) != (b[1] <= y))
    return sorted(zip(at[::2], at[1::2]), key=lambda pair: pair[0] - pair[1])


def clearance(p: Place, sides: list[Side]) -> float:
    """The square of the distance from a place to the nearest side, nearly."""

    def to(side: Side) -> float:
        (ax, ay), (bx, by) = side
        dx, dy = bx - ax, by - ay
        along = min(max(float((p[0] - ax) * dx + (p[1] - ay) * dy) / float(dx * dx + dy * dy), 0.0), 1.0)
        return float((ax + along * dx - p[0]) ** 2 + (ay + along * dy - p[1]) ** 2)

    return min(map(to, sides))


def place_inside(body: Body) -> Optional[Place]:
    """A place of the grid inside a polygon, as far from its sides as a quick look finds; none where no row that is tried has one."""
    _, y0, _, y1 = frame_of(vertices_of(body))
    rows = dict.fromkeys(y0 + int((y1 - y0) * part) for part in van_der_corput(ROWS))
    found: list[Place] = []
    for tried, y in enumerate(rows):
        if found and tried >= 8:
            break
        for left, right in stretches_at(body.sides, y)[:4]:
            x = int((left + right) // 2)
            found += [place for place in ((x, y), (x + 1, y)) if body.is_inside(place)][:1]
    return max(found, key=lambda place: clearance(place, body.sides)) if found else None


# ---- fixes by rule

class Fixer:
    """Finds fixes; with a distance also those that move vertices onto vertices and sides within it."""

    def __init__(self, of: Map, within: Optional[Fraction] = None):
        self.map = of
        self.within = within

    @cached_property
    def most(self) -> Optional[Fraction]:
        """The square of the greatest distance."""
        return None if self.within is None else self.within ** 2

    def near(self, spot: Optional[Spot]) -> Optional[Spot]:
        """The same place where it is within the distance, or where there is none; otherwise none."""
        return spot if spot is not None and (self.most is None or spot.square <= self.most) else None

    def fixes(self, error: Error) -> Iterator[Fix]:
        """The fixes of an error, those that only move or make something first, the deletions last."""
        rule = self.map.rules.get(error.rule)
        if error.subject not in self.map.drawn:
            return
        if rule is not None:
            yield from OF_RULE.get(rule.word, moves_onto(''))(self, error, rule)
        for handle in filter(None, (error.subject, error.other)):
            if handle in self.map.drawn:
                yield Fix('delete', ('delete %d' % handle,), (handle,), frame=self.map.drawn[handle].frame)

    def explode(self, error: Error, rule: Rule) -> Iterator[Fix]:
        yield Fix('explode', ('explode %d' % error.subject,), (error.subject,), frame=self.map.drawn[error.subject].frame)

    def snap(self, error: Error, rule: Rule) -> Iterator[Fix]:
        """Each loose end to the nearest place on another line."""
        body = self.map.body(error.subject)
        for place in places_in(error):
            spot = self.near(self.map.nearest('segments', rule.origin).to(place, body.handle))
            if place in body.ends and spot:
                line = 'snap %d %d %d %d %d' % (error.rule, body.handle, body.ends.index(place), *spot.place)
                yield Fix('snap', (line,), (body.handle,), ((place, spot.place),), place=place, frame=frame_of((place, spot.place)))

    def meet(self, error: Error, rule: Rule) -> Iterator[Fix]:
        """Each loose end to the nearest vertex of another line within the distance, with all that has a vertex at the end; where a snap puts it there,
        that is enough."""
        body = self.map.body(error.subject)
        for place in places_in(error) if self.within is not None else []:
            spot = self.near(self.map.nearest('vertices', rule.origin).to(place, body.handle))
            snapped = self.map.nearest('segments', rule.origin).to(place, body.handle)
            if spot and snapped and spot.place != snapped.place:
                yield self.moved([(place, spot.place)], place)

    def create_inside(self, error: Error, rule: Rule) -> Iterator[Fix]:
        place = place_inside(self.map.body(error.subject))
        if place:
            yield Fix('create', ('create %d %d %d %d' % (error.rule, error.subject, *place),), made=place, frame=frame_of([place]))

    def move_to_ends(self, error: Error, rule: Rule) -> Iterator[Fix]:
        """To each end without a point the nearest point within the distance, with all that has a vertex where that is."""
        for place in places_in(error) if self.within is not None else []:
            spot = self.near(self.map.nearest('points', rule.dest).to(place, error.subject))
            if spot:
                yield self.moved([(spot.place, place)], place)

    def create_at_ends(self, error: Error, rule: Rule) -> Iterator[Fix]:
        for place in places_in(error):
            yield Fix('create', ('create %d %d %d %d' % (error.rule, error.subject, *place),), made=place, place=place, frame=frame_of([place]))

    def move_point(self, what: str, error: Error, rule: Rule) -> Iterator[Fix]:
        """A point to what is nearest of the second side, with all that has a vertex there."""
        place = self.map.body(error.subject).place
        spot = self.near(self.map.nearest(what, rule.dest).to(place, error.subject))
        if spot:
            yield self.moved([(place, spot.place)])

    def move_inside(self, error: Error, rule: Rule) -> Iterator[Fix]:
        """A point into the nearest polygon of the second side: just over its border, or where no place there is inside, to its middle."""
        place = self.map.body(error.subject).place
        spot = self.map.nearest('segments', rule.dest).to(place, error.subject)
        if spot:
            polygon, (x, y) = self.map.body(spot.handle), spot.place
            round_it = ((x + dx, y + dy) for dx in (-1, 0, 1) for dy in (-1, 0, 1))
            inside = min((p for p in round_it if polygon.is_inside(p)), key=lambda p: squared(p, place), default=None) or place_inside(polygon)
            if inside and self.near(Spot(squared(inside, place), inside, spot.handle)):
                yield self.moved([(place, inside)])

    def moved(self, ways: list[Way], mended: Optional[Place] = None) -> Fix:
        """The moves of vertices from place to place; they mend one place of an error where that is given."""
        handles = sorted({handle for p, _ in ways for handle in self.map.at(p)})
        lines = tuple('move %d %d %d %d' % (*p, *q) for p, q in ways)
        return Fix('move', lines, tuple(handles), tuple(ways), place=mended, frame=frame_of([p for way in ways for p in way]))

    def near_error(self, error: Error) -> list[Place]:
        """The vertices of the subject that are as near to the error's frame as a vertex may go."""
        grown = int(self.within or 0) + 1
        x0, y0, x1, y1 = error.frame
        return [(x, y) for x, y in vertices_of(self.map.body(error.subject)) if x0 - grown <= x <= x1 + grown and y0 - grown <= y <= y1 + grown]

    def ways_of(self, vertices: list[Place], subject: int, targets: Nearest, sides: Nearest) -> Iterator[Way]:
        """The ways of vertices of a feature, each to the nearest vertex within the distance that the feature has not yet, or else to the nearest
        side. A vertex that another feature has too stays."""
        own = set(vertices_of(self.map.body(subject)))
        for p in vertices:
            shared = targets.to(p, subject)
            if shared is None or shared.square:
                spot = self.near(targets.to(p, subject, taken=own)) or self.near(sides.to(p, subject))
                if spot and spot.square:
                    yield p, spot.place

    def move_vertices(self, error: Error, targets: Nearest, sides: Nearest, over: Optional[Body] = None) -> Iterator[Fix]:
        """The vertices of the subject near the error; where it lies over another polygon, first only those in that one."""
        if self.within is None:
            return
        vertices = self.near_error(error)
        inside = [p for p in vertices if over.is_closed_in(p)] if over is not None and over.kind == 'polygon' else []
        ways = list(self.ways_of(inside, error.subject, targets, sides)) or list(self.ways_of(vertices, error.subject, targets, sides))
        if 0 < len(ways) <= MOST_MOVES:
            yield self.moved(ways)


Finder = Callable[[Fixer, Error, Rule], Iterator[Fix]]


def both(*finders: Finder) -> Finder:
    return lambda fixer, error, rule: (fix for finder in finders for fix in finder(fixer, error, rule))


def point_to(what: str) -> Finder:
    return lambda fixer, error, rule: fixer.move_point(what, error, rule)


def moves_onto(whose: str) -> Finder:
    """Moves of vertices of the subject onto those of its partner, of its own side, or of the second side of the rule; nothing where it has none."""

    def find(fixer: Fixer, error: Error, rule: Rule) -> Iterator[Fix]:
        if whose == 'partner' and error.other in fixer.map.drawn:
            body = fixer.map.body(error.other)
            yield from fixer.move_vertices(error, Nearest(places(body)), Nearest(segments(body)), body)
        elif whose in ('origin', 'dest') and getattr(rule, whose):
            side = getattr(rule, whose)
            yield from fixer.move_vertices(error, fixer.map.nearest('vertices', side), fixer.map.nearest('segments', side))

    return find


OF_RULE: dict[str, Finder] = {
    'polygon_must_not_overlap': moves_onto('partner'),
    'polygon_must_not_overlap_with': moves_onto('partner'),
    'polygon_must_not_have_gaps': moves_onto('origin'),
    'polygon_must_be_covered_by_feature_class_of': moves_onto('dest'),
    'polygon_must_cover_each_other': moves_onto('dest'),
    'polygon_boundary_must_be_covered_by': moves_onto('dest'),
    'polygon_area_boundary_must_be_covered_by_boundary_of': moves_onto('dest'),
    'polygon_must_be_covered_by': moves_onto('dest'),
    'polygon_contains_point': Fixer.create_inside,
    'line_must_not_have_dangles': both(Fixer.snap, Fixer.meet),
    'line_must_be_covered_by_feature_class_of': moves_onto('dest'),
    'line_must_be_covered_by_boundary_of': moves_onto('dest'),
    'line_endpoint_must_be_covered_by': both(Fixer.move_to_ends, Fixer.create_at_ends),
    'line_must_be_single_part': Fixer.explode,
    'point_must_be_properly_inside': Fixer.move_inside,
    'point_must_coincide_with': point_to('points'),
    'point_must_be_covered_by_boundary_of': point_to('segments'),
    'point_must_be_covered_by_line': point_to('segments'),
    'point_must_be_covered_by_endpoint_of': point_to('ends'),
}
