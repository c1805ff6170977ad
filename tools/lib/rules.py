"""The words of the rules with the kinds of their classes, and the line that asks for one."""
from __future__ import annotations

import difflib
from typing import Callable, Iterable, Optional

from .lines import LineError, side_of

KINDS_OF: dict[str, tuple[str, Optional[str]]] = {
    'polygon_must_not_overlap': ('polygon', None),
    'polygon_must_not_overlap_with': ('polygon', 'polygon'),
    'polygon_must_not_have_gaps': ('polygon', None),
    'polygon_must_be_covered_by_feature_class_of': ('polygon', 'polygon'),
    'polygon_must_cover_each_other': ('polygon', 'polygon'),
    'polygon_boundary_must_be_covered_by': ('polygon', 'line'),
    'polygon_area_boundary_must_be_covered_by_boundary_of': ('polygon', 'polygon'),
    'polygon_must_be_covered_by': ('polygon', 'polygon'),
    'polygon_contains_point': ('polygon', 'point'),
    'line_must_not_overlap': ('line', None),
    'line_must_not_overlap_with': ('line', 'line'),
    'line_must_not_intersect': ('line', None),
    'line_must_not_intersect_or_touch_interior': ('line', None),
    'line_must_not_have_dangles': ('line', None),
    'line_must_not_have_pseudo_nodes': ('line', None),
    'line_must_be_covered_by_feature_class_of': ('line', 'line'),
    'line_must_be_covered_by_boundary_of': ('line', 'polygon'),
    'line_endpoint_must_be_covered_by': ('line', 'point'),
    'line_must_not_self_overlap': ('line', None),
    'line_must_not_self_intersect': ('line', None),
    'line_must_be_single_part': ('line', None),
    'point_must_be_disjoint': ('point', None),
    'point_must_coincide_with': ('point', 'point'),
    'point_must_be_properly_inside': ('point', 'polygon'),
    'point_must_be_covered_by_boundary_of': ('point', 'polygon'),
    'point_must_be_covered_by_line': ('point', 'line'),
    'point_must_be_covered_by_endpoint_of': ('point', 'line'),
}


def title_of(word: str) -> str:
    """The name of a rule in words, as GIS programs show it; the kind of its first class is left out."""
    kind, _, name = word.partition('_')
    return ' '.join(part.capitalize() for part in (name if kind in ('polygon', 'line', 'point') else word).split('_'))


class RuleError(Exception):
    """A rule that cannot be asked for; its text says why."""


def nearest(word: str, words: Iterable[str]) -> str:
    """The words that this one ends, or else the one that is most like it, as a question after a sentence; nothing where none is."""
    near = [each for each in words if each.endswith('_' + word)]
    near = near or difflib.get_close_matches(word, list(words), 1, 0.6) or difflib.get_close_matches(word.lower(), list(words), 1, 0.6)
    return '; did you mean %s?' % ' or '.join('`%s`' % each for each in near) if near else ''


def of_kind(word: str, kind: str) -> str:
    """The rule for classes of this kind that says the same as this one, or nearly, as a question after a sentence; nothing where none does."""
    own = [each for each, (of, other) in KINDS_OF.items() if of == kind and (other is None) == (KINDS_OF[word][1] is None)]
    said = {each.partition('_must_')[2]: each for each in own if '_must_' in each}
    near = difflib.get_close_matches(word.partition('_must_')[2], said, 1, 0.6)
    return '; did you mean `%s`?' % said[near[0]] if near else ''


def check_subtype(side: str) -> None:
    """Raises a RuleError where a side names a subtype that is none."""
    try:
        side_of(side)
    except LineError as fault:
        raise RuleError('`%s`: %s' % (side, fault)) from None


def rule_line(words: list[str], classes: dict[str, str], side: Callable[[str], str] = str) -> str:
    """The line that puts a rule in force for some of the classes, which have these kinds, or for subtypes of them, whose words become numbers."""
    if words[0] not in KINDS_OF:
        raise RuleError('no rule has the word `%s`%s' % (words[0], nearest(words[0], KINDS_OF)))
    kinds = [kind for kind in KINDS_OF[words[0]] if kind]
    if len(words) - 1 != len(kinds):
        raise RuleError('the rule %s takes %s' % (words[0], ' and '.join('a class of %ss' % kind for kind in kinds)))
    sides = list(map(side, words[1:]))
    names = [each.partition(':')[0] for each in sides]
    for name, kind in zip(names, kinds):
        if name not in classes:
            raise RuleError('there is no class `%s`%s' % (name, nearest(name, classes) or '; there are %s' % ', '.join(classes)))
        if classes[name] != kind:
            hint = of_kind(words[0], classes[name]) if name == names[0] else ''
            raise RuleError('the rule %s takes a class of %ss, and `%s` is of %ss%s' % (words[0], kind, name, classes[name], hint))
    for each in filter(lambda each: ':' in each, sides):
        check_subtype(each)
    return 'rule ' + ' '.join([words[0], *sides])
