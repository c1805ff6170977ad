"""Lines and polygons of more vertices than a shape may have, cut at vertices of their own into parts that have few enough: exactly, on the grid.

A line is cut at vertices. A polygon is cut along diagonals: its rings become one, by ways there and back between them; ears are cut off it until
nothing is left; and the triangles are put together again, where a short diagonal parts them. Whether the parts are right rests on nothing of
this, but on what is looked at in the end: each triangle turns left, all of them together have the sides of the polygon as their border, and
nowhere does this border go round a place more than once.
"""
from __future__ import annotations

from itertools import pairwise
from typing import Iterator, NamedTuple

from .ears import Clipper, Stuck, Triangle
from .grid import Place
from .outlines import doubled_area, rings_of, turn, walks_of
from .shapes import MOST_VERTICES, List, Part, Segment, Shape

# What is not cut: shapes of more vertices, and those whose vertices times rings are more.
MOST_CUT = 100000
MOST_WORK = 20000000

Ways = dict[Place, list[Place]]


class Uncuttable(Exception):
    """Why a shape is not cut."""


class Piece(NamedTuple):
    """A part of a shape, and where it was cut from others: along diagonals of a polygon, at vertices of a line, whose ends are then equal."""

    shape: Shape
    cuts: list[Segment]


# ---- lines

def runs_of(line: List) -> list[List]:
    """A line in runs of about the same length, each from the last vertex of the one before."""
    count = -(-(len(line) - 1) // (MOST_VERTICES - 1))
    stops = [number * (len(line) - 1) // count for number in range(count + 1)]
    return [line[start:stop + 1] for start, stop in pairwise(stops)]


def packed(lines: list[List]) -> list[list[List]]:
    """Lines in their order in as few groups as there can be, none of which has too many vertices."""
    groups: list[list[List]] = []
    room = 0
    for line in lines:
        if len(line) > room:
            groups.append([])
            room = MOST_VERTICES
        groups[-1].append(line)
        room -= len(line)
    return groups


def pieces_of_line(parts: list[Part]) -> list[Piece]:
    """A line of one or more parts in pieces: long parts in runs, short ones together."""
    short = [part[0] for part in parts if len(part[0]) <= MOST_VERTICES]
    pieces = [Piece(Shape('line', [[line] for line in group]), []) for group in packed(short)]
    for part in parts:
        runs = runs_of(part[0]) if len(part[0]) > MOST_VERTICES else []
        for number, run in enumerate(runs):
            ends = run[:1] * (number > 0) + run[-1:] * (number < len(runs) - 1)
            pieces.append(Piece(Shape('line', [[run]]), [(end, end) for end in ends]))
    return pieces


# ---- whether the border of a polygon goes round a place more than once

def sides_in(rings: list[List]) -> list[Segment]:
    return [side for ring in rings for side in zip(ring, ring[1:] + ring[:1])]


def angle_key(at: Place, other: Place) -> tuple[int, int]:
    """Half and quarter of a direction, counter-clockwise from just behind south."""
    x, y = other[0] - at[0], other[1] - at[1]
    return (0, 0) if x > 0 else (1, 0) if x == 0 and y > 0 else (2, 0) if x < 0 else (3, 0)


def round_a_place(at: Place, others: list[tuple[Place, bool]]) -> list[bool]:
    """Whether each side at a place leads away from it, counter-clockwise from just behind south."""
    rest = sorted(others, key=lambda each: angle_key(at, each[0]))
    for end in range(1, len(rest)):
        start = end
        while start and angle_key(at, rest[start - 1][0]) == angle_key(at, rest[start][0]) and turn(at, rest[start - 1][0], rest[start][0]) < 0:
            rest[start - 1], rest[start] = rest[start], rest[start - 1]
            start -= 1
    return [leads_away for _, leads_away in rest]


def sides_by_place(sides: list[Segment]) -> dict[Place, list[tuple[Place, bool]]]:
    found: dict[Place, list[tuple[Place, bool]]] = {}
    for p, q in sides:
        found.setdefault(p, []).append((q, True))
        found.setdefault(q, []).append((p, False))
    return found


def pieces_that_touch(rings: list[List]) -> list[list[List]]:
    """The rings in groups, those together that have a vertex in common."""
    group_at: dict[Place, int] = {}
    groups: dict[int, list[List]] = {}
    for number, ring in enumerate(rings):
        met = {group_at[place] for place in ring if place in group_at}
        groups[number] = [ring] + [each for other in sorted(met) for each in groups.pop(other)]
        group_at.update((place, number) for each in groups[number] for place in each)
    return list(groups.values())


def windings_west(at: Place, sides: list[Segment]) -> int:
    """How often sides go round the ground just west of a place, which lies on none of them."""
    x, y = at
    found = 0
    for p, q in sides:
        if (p[1] <= y) != (q[1] <= y) and (p[0] < x or q[0] < x):
            is_up = p[1] <= y
            if (turn(p, q, at) < 0) == is_up:
                found += -1 if is_up else 1
    return found


def goes_round_once(rings: list[List]) -> bool:
    """Whether the rings, with what they bound at their left, go round no place more than once, and the other way round none."""
    sides = sides_in(rings)
    near = sides_by_place(sides)
    for at, others in near.items():
        if len(others) > 2:
            order = round_a_place(at, others)
            if any(one == other for one, other in zip(order, order[1:] + order[:1])):
                return False
    for group in pieces_that_touch(rings):
        own = set(sides_in(group))
        at = min(place for ring in group for place in ring)
        is_open_west = round_a_place(at, near[at])[0]
        if windings_west(at, [side for side in sides if side not in own]) != (0 if is_open_west else 1):
            return False
    return True


# ---- polygons

def turned(ring: List, is_shell: bool) -> List:
    """A ring with the inside of the polygon at its left."""
    return ring if (doubled_area(ring) > 0) == is_shell else ring[::-1]


def border_of(triangles: list[Triangle]) -> set[Segment]:
    """The sides of triangles that no other one of them has the other way round."""
    border: set[Segment] = set()
    for p, q, r in triangles:
        for side in ((p, q), (q, r), (r, p)):
            if side[::-1] in border:
                border.discard(side[::-1])
            elif side in border:
                raise Uncuttable('its triangles lie on each other')
            else:
                border.add(side)
    return border


def squared(side: Segment) -> int:
    (x, y), (u, v) = side
    return (u - x) ** 2 + (v - y) ** 2


def parted(clipped: Clipper, numbers: list[int]) -> Iterator[list[int]]:
    """The triangles of these numbers, ascending and joined, in groups of which each has few enough: parted at the shortest diagonal that
    leaves a third of them on either side."""
    waiting = [numbers]
    while waiting:
        group = waiting.pop()
        if len(group) <= MOST_VERTICES - 2:
            yield group
            continue
        size = dict.fromkeys(group, 1)
        for number in group[:-1]:
            size[clipped.beyond[number]] += size[number]
        least = (len(group) - 1) // 3
        able = [number for number in group[:-1] if least <= size[number] <= len(group) - least]
        cut = min(able, key=lambda number: squared(clipped.diagonal(number)))
        inside = {cut}
        for number in reversed(group[:group.index(cut)]):
            if clipped.beyond[number] in inside:
                inside.add(number)
        waiting += [[number for number in group if number not in inside], sorted(inside)]


def shape_of(border: set[Segment]) -> Shape:
    """The polygon with this border: a part for each ring that bounds it from outside; the others stand in the first part."""
    ways: Ways = {}
    for p, q in sorted(border):
        ways.setdefault(p, []).append(q)
    rings = [ring for walk in walks_of(ways) for ring in rings_of(walk)]
    parts = [[ring] for ring in rings if doubled_area(ring) > 0]
    parts[0] += [ring for ring in rings if doubled_area(ring) < 0]
    return Shape('polygon', parts)


def pieces_of_part(rings: list[List]) -> list[Piece]:
    """A shell with its holes, the inside at the left of each, in pieces."""
    sides = set(sides_in(rings))
    try:
        clipped = Clipper(rings)
        clipped.clip()
    except Stuck:
        raise Uncuttable('no diagonals were found that cut it') from None
    if any(turn(*triangle) <= 0 for triangle in clipped.triangles) or border_of(clipped.triangles) != sides:
        raise Uncuttable('no diagonals were found that cut it')
    pieces = []
    for group in parted(clipped, list(range(len(clipped.triangles)))):
        border = border_of([clipped.triangles[number] for number in group])
        pieces.append(Piece(shape_of(border), sorted(side for side in border if side not in sides)))
    return sorted(pieces, key=lambda piece: min(piece.shape.parts[0][0]))


def pieces_of_polygon(parts: list[Part]) -> list[Piece]:
    """A polygon in pieces: its parts by themselves, and those with too many vertices cut."""
    parts = [[turned(ring, number == 0) for number, ring in enumerate(part)] for part in parts]
    if not goes_round_once([ring for part in parts for ring in part]):
        raise Uncuttable('its rings do not lie in each other as those of a shell and its holes')
    pieces = []
    for part in parts:
        if sum(map(len, part)) > MOST_VERTICES:
            pieces += pieces_of_part(part)
        else:
            pieces.append(Piece(Shape('polygon', [part]), []))
    return pieces


def pieces_of(shape: Shape) -> list[Piece]:
    """A line, or a polygon without clashes, of too many vertices in pieces that have few enough. Uncuttable where it is too long, or where
    no diagonals are found."""
    rings = [each for part in shape.parts for each in part]
    count = sum(map(len, rings))
    if count > MOST_CUT or count * len(rings) > MOST_WORK:
        raise Uncuttable('of %s vertices in %s rings is too much to be cut' % (format(count, ','), format(len(rings), ',')))
    return pieces_of_line(shape.parts) if shape.kind == 'line' else pieces_of_polygon(shape.parts)
