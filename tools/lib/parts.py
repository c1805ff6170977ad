"""Parts of features that were cut because they had too many vertices: what a script and a table say of them, and how their errors are those of
the whole feature again."""
from __future__ import annotations

import re
from collections import Counter
from typing import Iterable, Iterator, NamedTuple, Optional

from .cells import corners_of
from .grid import Place
from .names import Names, names_of
from .outlines import Point, turn
from .replies import Ending, Error, Frame, Rule, each_error, ending_of

Segment = tuple[Place, Place]
TEXT = re.compile(r'part ([0-9]+) of ([0-9]+)(?: along ((?:-?[0-9]+ -?[0-9]+ -?[0-9]+ -?[0-9]+(?:, )?)+))?')
# Rules whose cells may lie on a cut, where the whole feature has no boundary and no end.
ON_CUTS = {'polygon_boundary_must_be_covered_by', 'polygon_area_boundary_must_be_covered_by_boundary_of', 'line_must_not_have_pseudo_nodes',
           'line_endpoint_must_be_covered_by', 'point_must_be_properly_inside'}
# The rule that a feature breaks where all of its parts do.
ALL_PARTS = 'polygon_contains_point'
# What a rule may say wrongly of a feature that was cut, as a feature of its class or of its second class.
OF_CLASS = {'polygon_must_be_covered_by': 'may miss an error, since each part may be covered by another polygon',
            'line_must_not_self_intersect': 'misses where two parts of it meet', 'line_must_not_self_overlap': 'misses where two parts of it run along each other',
            'line_must_be_single_part': 'misses that it has several parts', 'line_must_not_intersect_or_touch_interior': 'takes the places where it is cut for ends'}
OF_SECOND = {'polygon_must_be_covered_by': 'takes what lies across a cut for not covered', 'line_must_be_covered_by_boundary_of': 'takes cuts for boundary',
             'polygon_area_boundary_must_be_covered_by_boundary_of': 'takes cuts for boundary', 'point_must_be_covered_by_boundary_of': 'takes cuts for boundary',
             'point_must_be_covered_by_endpoint_of': 'takes the places where it is cut for ends'}


class CutPart(NamedTuple):
    """A part by its number from 1, of how many, and the cuts at its border, in grid units; of a line the ends of a cut are equal."""

    number: int
    count: int  # type: ignore[assignment]  # a tuple has a method of that name
    cuts: tuple[Segment, ...] = ()

    def text(self) -> str:
        cuts = ', '.join('%d %d %d %d' % (*p, *q) for p, q in self.cuts)
        return 'part %d of %d%s' % (self.number, self.count, ' along ' + cuts if cuts else '')


def part_in(text: str) -> Optional[CutPart]:
    """The part that a remark or a note says; none where it says none."""
    found = TEXT.search(text)
    if not found:
        return None
    numbers = [tuple(map(int, cut.split())) for cut in (found[3] or '').split(', ') if cut]
    return CutPart(int(found[1]), int(found[2]), tuple(((x, y), (u, v)) for x, y, u, v in numbers))


def warnings(lines: Iterable[str], cut: set[str]) -> Iterator[str]:
    """What is told of rules in force, by their lines, where features of these classes were cut."""
    for _, word, *sides in map(str.split, lines):
        for side, known in zip(sides, (OF_CLASS, OF_SECOND)):
            name = side.partition(':')[0]
            if word in known and name in cut:
                yield 'rule %s: of a feature of %s that was cut it %s' % (word, name, known[word])


class Whole(NamedTuple):
    """The features that were cut: the first handle of each by the handles of its parts, the parts by their handles, and the cuts by class."""

    first: dict[int, int]
    parts: dict[int, CutPart]
    cuts: dict[str, list[Segment]]


def whole_of(ending: Ending, names: Names) -> Whole:
    """The features that were cut, by the remarks of a script and the notes of a table. Two sources may have features of one number and id in one
    class: then the second part of a number is of the second one."""
    whole = Whole({}, {}, {})
    firsts: dict[tuple[str, str, str, int], int] = {}
    times: Counter[tuple[str, str, str, int]] = Counter()
    for handle in sorted({*ending.origins.cut, *(handle for handle, name in names.by_handle.items() if name.part)}):
        origin = names.origin(handle, ending)
        part = part_in(origin.part)
        if part:
            of_class = origin.of_class.partition(':')[0]
            whole.parts[handle] = part
            key = of_class, origin.fid, origin.id
            times[*key, part.number] += 1
            whole.first[handle] = firsts.setdefault((*key, times[*key, part.number]), handle)
            whole.cuts.setdefault(of_class, []).extend(part.cuts)
    return whole


def lies_on(corners: list[Point], cut: Segment) -> bool:
    """Whether a cell with these corners lies on a cut: on its line, and between its ends."""
    (x, y), (u, v) = cut
    x0, y0, x1, y1 = min(x, u), min(y, v), max(x, u), max(y, v)
    return all(turn(*cut, p) == 0 and x0 <= p[0] <= x1 and y0 <= p[1] <= y1 for p in corners)


def off_cuts(error: Error, cuts: Iterable[Segment]) -> Error:
    """The error without the cells that lie on cuts."""
    cuts = list(cuts)
    cells = [(cell, corners_of(error.frame, cell)) for cell in error.cells]
    return error._replace(cells=[cell for cell, corners in cells if not any(lies_on(corners, cut) for cut in cuts)])


def around(frames: list[Frame]) -> Frame:
    x0, y0, x1, y1 = zip(*frames)
    return min(x0), min(y0), max(x1), max(y1)


def told_of(error: Error, rule: Rule, whole: Whole) -> Optional[Error]:
    """What an error says of whole features; none where it is of a cut alone, or of two parts of one line."""
    own = error.subject in whole.parts
    if own and error.other and whole.first.get(error.other) == whole.first[error.subject]:
        return None
    if rule.word not in ON_CUTS or not error.cells:
        return error
    cuts = whole.parts[error.subject].cuts if own else whole.cuts.get(rule.dest.partition(':')[0], ()) if rule.word.startswith('point') else ()
    left = off_cuts(error, cuts)
    return left if left.cells else None


Keys = set[tuple[int, int, int]]


def keys_told(script: str, replies: str, table: str) -> Optional[tuple[Whole, Keys]]:
    """The features that were cut, and the keys of the errors of whole features; none where a table names no part."""
    names = names_of(table)
    if not any(name.part for name in names.by_handle.values()):
        return None
    ending = ending_of(script, replies)
    whole, listing = whole_of(ending, names), ending.errors()
    return whole, {error[1:4] for error in joined(each_error(listing.lines), listing.rules, whole)} if listing else set()


def joined(errors: Iterable[Error], rules: dict[int, Rule], whole: Whole) -> list[Error]:
    """The errors of whole features, by the handles of their first parts, in the order of their keys. An error is an exception where all of its
    parts are."""
    groups: dict[tuple[int, int, int], list[Error]] = {}
    for error in errors:
        left = told_of(error, rules.get(error.rule, Rule('', '', '')), whole)
        if left:
            key = error.rule, whole.first.get(error.subject, error.subject), whole.first.get(error.other, error.other)
            groups.setdefault(key, []).append(left)
    found = []
    for (rule, subject, other), group in sorted(groups.items()):
        count = whole.parts[subject].count if subject in whole.parts else 1
        if rule in rules and rules[rule].word == ALL_PARTS and len(group) < count:
            continue
        mark = 'exception' if all(error.mark == 'exception' for error in group) else 'error'
        cells = [cell for error in group for cell in error.cells]
        found.append(group[0]._replace(mark=mark, subject=subject, other=other, frame=around([error.frame for error in group]), cells=cells))
    return found
