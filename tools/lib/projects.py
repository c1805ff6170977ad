"""The text of a saved project, as far as tools read it (docs/project-text.md): classes, rules, and features by their handles."""
from __future__ import annotations

from typing import Iterator, NamedTuple

from .frame import ToolError
from .lines import name_of, number_of, side_of
from .replies import Rule, rule_of

FORMATS = 'topology 1', 'topology 2'
# How many fields follow the words that are read.
LEAST = {'next': 1, 'class': 2, 'rule': 3, 'feature': 3}


class Kept(NamedTuple):
    """A feature of a project: its class, its subtype, and its shape in its written form."""

    of_class: str
    subtype: int
    shape: str


class Project(NamedTuple):
    """The next handle, the kinds of the classes by their names, the rules by their numbers, and the features by their handles."""

    next: int
    classes: dict[str, str]
    rules: dict[int, Rule]
    features: dict[int, Kept]


def lines_of(path: str) -> Iterator[str]:
    """The lines of a text, which end with an LF, or a CR and an LF."""
    with open(path, 'rb') as lines:
        yield from (line.rstrip(b'\n').removesuffix(b'\r').decode() for line in lines)


def project_of(path: str) -> Project:
    """The project that a file has; a ToolError where it has none."""
    lines = lines_of(path)
    if next(lines, '') not in FORMATS:
        raise ToolError('%s is no saved project' % path)
    handle, classes, rules, features = 1, {}, {}, {}
    for line in lines:
        word, *fields = line.split(' ', 3)
        if word in LEAST and len(fields) < LEAST[word]:
            raise ToolError('%s: `%s` is no line of a project' % (path, line[:60]))
        if word == 'next':
            handle = number_of(fields[0])
        elif word == 'class':
            classes[name_of(fields[0])] = fields[1]
        elif word == 'rule':
            rules[number_of(fields[0])] = rule_of(line.split(' ')[2:])
        elif word == 'feature':
            features[number_of(fields[0])] = Kept(*side_of(fields[1]), fields[2])
    return Project(handle, classes, rules, features)
