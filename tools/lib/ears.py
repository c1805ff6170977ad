"""A polygon with holes in triangles between its own vertices: by ears that are cut off one after the other, the one with the shortest
diagonal first."""
from __future__ import annotations

import heapq
from fractions import Fraction
from typing import Iterator, Optional

from .grid import Place
from .outlines import turn
from .shapes import List

Triangle = tuple[Place, Place, Place]
Square = tuple[int, int]


class Stuck(Exception):
    """No ear is left, or no way from a hole to the rest."""


def full_turn(back: Place, way: Place) -> int:
    """In which part of a full turn clockwise from one direction another one lies."""
    cross, dot = back[0] * way[1] - back[1] * way[0], back[0] * way[0] + back[1] * way[1]
    return 0 if cross < 0 else 2 if cross > 0 else 1 if dot < 0 else 3


def is_within(at: Place, before: Place, after: Place, to: Place) -> bool:
    """Whether the direction to a place leads into what lies at the left of the way from one place over another to a third one."""
    back, end, way = ((p[0] - at[0], p[1] - at[1]) for p in (before, after, to))
    first, last = full_turn(back, way), full_turn(back, end)
    return first < last if first != last else first in (0, 2) and way[0] * end[1] - way[1] * end[0] < 0


class Squares:
    """Nodes by squares of the plane."""

    def __init__(self, places: List):
        xs, ys = zip(*places)
        self.size = max(1, 2 * max(max(xs) - min(xs), max(ys) - min(ys)) // max(1, int(len(places) ** 0.5)))
        self.nodes: dict[Square, set[int]] = {}
        self.all: set[int] = set()

    def square(self, place: Place) -> Square:
        return place[0] // self.size, place[1] // self.size

    def add(self, node: int, place: Place) -> None:
        self.all.add(node)
        self.nodes.setdefault(self.square(place), set()).add(node)

    def discard(self, node: int, place: Place) -> None:
        self.all.discard(node)
        self.nodes.get(self.square(place), set()).discard(node)

    def near(self, corners: Triangle) -> Iterator[int]:
        """The nodes in the squares that a triangle may meet."""
        (x0, x1), (y0, y1) = ((min(of) // self.size, max(of) // self.size) for of in zip(*corners))
        if (x1 - x0 + 1) * (y1 - y0 + 1) >= len(self.all):
            yield from self.all
            return
        for x in range(x0, x1 + 1):
            for y in range(y0, y1 + 1):
                yield from self.nodes.get((x, y), ())


class Clipper:
    """Rings, with the inside at the left of each and the shell first, as one loop of nodes. Once clipped, `beyond` has of each triangle but the
    last one the number of the triangle at the other side of the diagonal by which it was cut off."""

    def __init__(self, rings: list[List]):
        self.places: List = []
        self.before: list[int] = []
        self.after: list[int] = []
        first = self.loop(rings[0])
        for hole in sorted(rings[1:], key=min):
            self.join(first, hole)
        self.first = first
        self.triangles: list[Triangle] = []
        self.beyond: dict[int, int] = {}

    def node(self, place: Place) -> int:
        self.places.append(place)
        self.before.append(-1)
        self.after.append(-1)
        return len(self.places) - 1

    def link(self, p: int, q: int) -> None:
        self.after[p], self.before[q] = q, p

    def loop(self, ring: List) -> int:
        """The first of the nodes of a ring."""
        nodes = list(map(self.node, ring))
        for p, q in zip(nodes, nodes[1:] + nodes[:1]):
            self.link(p, q)
        return nodes[0]

    def nodes_from(self, first: int) -> Iterator[int]:
        node = first
        while True:
            yield node
            node = self.after[node]
            if node == first:
                return

    # ---- holes

    def join(self, first: int, hole: List) -> None:
        """Joins a hole to the loop: at a vertex that both have, or by a way there and back from its least one."""
        known = set(self.places)
        start = next((number for number, place in enumerate(hole) if place in known), None)
        least = min(range(len(hole)), key=hole.__getitem__)
        ring = hole[least:] + hole[:least] if start is None else hole[start:] + hole[:start]
        at = self.seen_from(first, ring[0]) if start is None else ring[0]
        there = self.sector(first, at, ring[0] if start is None else ring[1])
        nodes = list(map(self.node, ring + ring[:1] if start is None else ring[1:]))
        way = [there, *nodes, self.node(at), self.after[there]]
        for p, q in zip(way, way[1:]):
            self.link(p, q)

    def hit(self, first: int, place: Place) -> tuple[Fraction, int]:
        """The side that is met first from a place to the west, by its first node, and where."""
        x, y = place
        best: Optional[tuple[Fraction, int]] = None
        for node in self.nodes_from(first):
            p, q = self.places[node], self.places[self.after[node]]
            if p[1] >= y >= q[1] and p[1] != q[1] and min(p[0], q[0]) <= x:
                at = p[0] + Fraction((y - p[1]) * (q[0] - p[0]), q[1] - p[1])
                if at <= x and (best is None or at > best[0]):
                    best = at, node
        if best is None:
            raise Stuck
        return best

    def seen_from(self, first: int, place: Place) -> Place:
        """A vertex of the loop to which the way from a place, the least one of a hole, is free."""
        x, y = place
        at, node = self.hit(first, place)
        p, q = self.places[node], self.places[self.after[node]]
        on_ray = next((end for end in (p, q) if end[1] == y and end[0] == at), None)
        if on_ray:
            return on_ray
        end, other = min((p, q), (q, p))
        rises = end[1] > y
        best = end
        for each in self.nodes_from(first):
            v = self.places[each]
            if not (end[0] <= v[0] < x and (y <= v[1] <= end[1] if rises else end[1] <= v[1] <= y)):
                continue
            side = turn(place, end, v)
            if (turn(end, other, v) >= 0) != (turn(end, other, place) >= 0) or side != 0 and (side > 0) != rises:
                continue
            steeper = abs(v[1] - y) * (x - best[0]) - abs(best[1] - y) * (x - v[0])
            if steeper < 0 or steeper == 0 and v[0] > best[0]:
                best = v
        return best

    def sector(self, first: int, at: Place, to: Place) -> int:
        """The node of a place from which the way to another place leads inside."""
        for node in self.nodes_from(first):
            if self.places[node] == at and is_within(at, self.places[self.before[node]], self.places[self.after[node]], to):
                return node
        raise Stuck

    # ---- ears

    def corners(self, node: int) -> Triangle:
        return self.places[self.before[node]], self.places[node], self.places[self.after[node]]

    def blocker(self, node: int) -> Optional[int]:
        """A node that lies in the triangle of an ear; none where it may be cut off."""
        corners = p, q, r = self.corners(node)
        for other in self.blunt.near(corners):
            v = self.places[other]
            if v not in corners and turn(p, q, v) >= 0 and turn(q, r, v) >= 0 and turn(r, p, v) >= 0:
                return other
        return None

    def is_cut_inside(self, node: int) -> bool:
        """Whether the diagonal of an ear leads inside at both of its ends."""
        p, q = self.before[node], self.after[node]
        within = lambda end, to: is_within(self.places[end], self.places[self.before[end]], self.places[self.after[end]], self.places[to])
        return within(p, q) and within(q, p)

    def look_at(self, node: int) -> None:
        """Sorts a node by whether it turns left, and has it tried as an ear."""
        p, q, r = self.corners(node)
        if turn(p, q, r) <= 0:
            self.blunt.add(node, q)
            return
        self.blunt.discard(node, q)
        self.release(node)
        self.wait(node)

    def wait(self, node: int) -> None:
        p, _, r = self.corners(node)
        heapq.heappush(self.heap, ((r[0] - p[0]) ** 2 + (r[1] - p[1]) ** 2, node, self.before[node], self.after[node]))

    def release(self, node: int) -> None:
        """What a node blocked is tried again."""
        for other in self.blocked.pop(node, ()):
            if not self.is_gone[other]:
                self.wait(other)

    def cut_off(self, node: int) -> None:
        p, q = self.before[node], self.after[node]
        number = len(self.triangles)
        self.triangles.append(self.corners(node))
        for side in ((p, node), (node, q)):
            if side in self.behind:
                self.beyond[self.behind.pop(side)] = number
        self.behind[p, q] = number
        self.link(p, q)
        self.is_gone[node] = True
        self.release(node)
        for end in (self.before[p], p, q, self.after[q]):
            self.look_at(end)

    def last(self, node: int) -> None:
        """The triangle that is left."""
        number, nodes = len(self.triangles), list(self.nodes_from(node))
        self.triangles.append(self.corners(node))
        for side in zip(nodes, nodes[1:] + nodes[:1]):
            if side in self.behind:
                self.beyond[self.behind[side]] = number

    def clip(self) -> None:
        """Cuts off ears until a triangle is left."""
        nodes = list(self.nodes_from(self.first))
        self.blunt = Squares([self.places[node] for node in nodes])
        self.is_gone = [False] * len(self.places)
        self.blocked: dict[int, list[int]] = {}
        self.behind: dict[tuple[int, int], int] = {}
        self.heap: list[tuple[int, int, int, int]] = []
        for node in nodes:
            self.look_at(node)
        left, kept = len(nodes), nodes[0]
        while left > 3:
            if not self.heap:
                raise Stuck
            _, node, p, q = heapq.heappop(self.heap)
            if self.is_gone[node] or (self.before[node], self.after[node]) != (p, q) or node in self.blunt.all:
                continue
            other = self.blocker(node)
            if other is not None:
                self.blocked.setdefault(other, []).append(node)
            elif self.is_cut_inside(node):
                self.cut_off(node)
                left -= 1
                kept = q
        self.last(kept)

    def diagonal(self, number: int) -> tuple[Place, Place]:
        """The diagonal by which a triangle was cut off."""
        p, _, r = self.triangles[number]
        return p, r
