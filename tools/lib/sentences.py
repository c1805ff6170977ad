"""The sentences of the 27 rules, each as a question: with which partners a feature breaks its rule at a point, or whether as a whole."""
from __future__ import annotations

from typing import Callable, NamedTuple

from .bodies import Body, beside, holds, in_faces, on_sides, overlap
from .outlines import Point


class Map(NamedTuple):
    """The features of the class of a rule, and those of its second class."""

    own: list[Body]
    second: list[Body]

    def later(self, a: Body) -> list[Body]:
        return [b for b in self.own if b.handle > a.handle]

    def other(self, a: Body) -> list[Body]:
        return self.second if a in self.own else self.own


Test = Callable[[Body, Body, Point], bool]


def later(test: Test) -> Callable[[Map, Body, Point], list[int]]:
    """Broken with each later feature of the class for which the test holds."""
    return lambda m, a, p: [b.handle for b in m.later(a) if test(a, b, p)]


def second(test: Test) -> Callable[[Map, Body, Point], list[int]]:
    return lambda m, a, p: [b.handle for b in m.second if test(a, b, p)]


def alone(test: Callable[[Map, Body, Point], bool]) -> Callable[[Map, Body, Point], list[int]]:
    """Broken without a partner where the test holds."""
    return lambda m, a, p: [0] if test(m, a, p) else []


def stands(test: Callable[[Body, Point], bool]) -> Callable[[Map, Body, Point], list[int]]:
    """Broken by a point where the test holds for no feature of the second class."""
    return alone(lambda m, a, p: p == a.place and not any(test(b, p) for b in m.second))


# ---- tests of two features

def both_inside(a: Body, b: Body, p: Point) -> bool:
    return a.is_inside(p) and b.is_inside(p)


def run_along(a: Body, b: Body, p: Point) -> bool:
    return any(holds(s, p) and holds(t, p) and overlap(s, t) for s in a.sides for t in b.sides)


def both_inner(a: Body, b: Body, p: Point) -> bool:
    return a.is_on(p) and b.is_on(p) and p not in a.ends and p not in b.ends


def not_ends_of_both(a: Body, b: Body, p: Point) -> bool:
    return a.is_on(p) and b.is_on(p) and not (p in a.ends and p in b.ends)


def at_one_place(a: Body, b: Body, p: Point) -> bool:
    return a.place == b.place == p


# ---- tests of a feature among others

def is_gap(m: Map, a: Body, p: Point) -> bool:
    near = beside(p, [side for b in m.own for side in b.sides]) if a.is_on(p) else []
    return any(not any(b.is_closed_in(q) for b in m.own) for q in near)


def is_bare(m: Map, a: Body, p: Point) -> bool:
    return a.is_inside(p) and not any(b.is_closed_in(p) for b in m.second)


def is_bare_of_other(m: Map, a: Body, p: Point) -> bool:
    return a.is_inside(p) and not any(b.is_closed_in(p) for b in m.other(a))


def is_off_sides(m: Map, a: Body, p: Point) -> bool:
    return a.is_on(p) and not any(b.is_on(p) for b in m.second)


def segments_at(m: Map, p: Point) -> int:
    return sum(holds(side, p) for b in m.own for side in b.sides)


def is_dangle(m: Map, a: Body, p: Point) -> bool:
    return p in a.ends and segments_at(m, p) == 1


def is_pseudo_node(m: Map, a: Body, p: Point) -> bool:
    return p in a.ends and sum(end == p for b in m.own for end in b.ends) == 2 and segments_at(m, p) == 2


def is_bare_end(m: Map, a: Body, p: Point) -> bool:
    return p in a.ends and not any(b.place == p for b in m.second)


def runs_twice(m: Map, a: Body, p: Point) -> bool:
    held = [side for side in a.sides if holds(side, p)]
    return any(overlap(s, t) for number, s in enumerate(held) for t in held[:number])


def meets_itself(m: Map, a: Body, p: Point) -> bool:
    if p in a.ends:
        return False
    held = [number for number, side in enumerate(a.sides) if holds(side, p)]
    return any(not (j == i + 1 and a.part_of[i] == a.part_of[j]) or overlap(a.sides[i], a.sides[j]) for i in held for j in held if i < j)


AT: dict[str, Callable[[Map, Body, Point], list[int]]] = {
    'polygon_must_not_overlap': later(both_inside),
    'polygon_must_not_overlap_with': second(both_inside),
    'polygon_must_not_have_gaps': alone(is_gap),
    'polygon_must_be_covered_by_feature_class_of': alone(is_bare),
    'polygon_must_cover_each_other': alone(is_bare_of_other),
    'polygon_boundary_must_be_covered_by': alone(is_off_sides),
    'polygon_area_boundary_must_be_covered_by_boundary_of': alone(is_off_sides),
    'line_must_not_overlap': later(run_along),
    'line_must_not_overlap_with': second(run_along),
    'line_must_not_intersect': later(both_inner),
    'line_must_not_intersect_or_touch_interior': later(not_ends_of_both),
    'line_must_not_have_dangles': alone(is_dangle),
    'line_must_not_have_pseudo_nodes': alone(is_pseudo_node),
    'line_must_be_covered_by_feature_class_of': alone(is_off_sides),
    'line_must_be_covered_by_boundary_of': alone(is_off_sides),
    'line_endpoint_must_be_covered_by': alone(is_bare_end),
    'line_must_not_self_overlap': alone(runs_twice),
    'line_must_not_self_intersect': alone(meets_itself),
    'point_must_be_disjoint': later(at_one_place),
    'point_must_coincide_with': stands(lambda b, p: b.place == p),
    'point_must_be_properly_inside': stands(Body.is_inside),
    'point_must_be_covered_by_boundary_of': stands(Body.is_on),
    'point_must_be_covered_by_line': stands(Body.is_on),
    'point_must_be_covered_by_endpoint_of': stands(lambda b, p: p in b.ends),
}


# ---- as a whole

def covers(b: Body, a: Body) -> bool:
    sides = a.sides + b.sides
    return all(b.is_closed_in(p) for p in list(on_sides(sides)) + list(in_faces(sides)) if a.is_closed_in(p))


WHOLE: dict[str, Callable[[Map, Body], bool]] = {
    'polygon_must_be_covered_by': lambda m, a: not any(covers(b, a) for b in m.second),
    'polygon_contains_point': lambda m, a: not any(a.is_inside(b.place) for b in m.second),
    'line_must_be_single_part': lambda m, a: len(a.parts) > 1,
}
