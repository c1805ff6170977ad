"""Subtypes of a source's features: the numbers of a field, or numbers for its words, which remarks of the script keep (docs/subtypes.md)."""
from __future__ import annotations

import json
import re
from typing import TYPE_CHECKING, Iterable, Iterator, Optional

from .frame import say
from .lines import MOST_SUBTYPE, side_text
from .ogr import SourceError, batches_of

if TYPE_CHECKING:
    from .intake import Class

REMARK = re.compile(r'# grid subtype ([A-Za-z][A-Za-z0-9_]*) ([0-9]+) (".*")')
WHOLE = re.compile('-?[0-9]+')

# The numbers of the words of each class, by the class's name.
Numbers = dict[str, dict[str, int]]


def numbers_in(lines: Iterable[str]) -> Numbers:
    """The numbers of words that the remark lines of a script say."""
    found: Numbers = {}
    for remark in filter(None, map(REMARK.fullmatch, lines)):
        found.setdefault(remark[1], {})[json.loads(remark[3])] = int(remark[2])
    return found


def remarks_of(numbers: Numbers) -> list[str]:
    """The remark lines that say the numbers of words."""
    return ['# grid subtype %s %d %s' % (name, number, json.dumps(word)) for name, words in numbers.items()
            for word, number in sorted(words.items(), key=lambda each: each[1])]


def texts_in(lines: Iterable[str]) -> dict[tuple[str, int], str]:
    """The words by class and number."""
    return {(name, number): word for name, words in numbers_in(lines).items() for word, number in words.items()}


def text_of(texts: dict[tuple[str, int], str], of_class: str, subtype: int) -> str:
    """How a subtype is told: by its word, or as a number; nothing where it is 0 without a word."""
    return texts.get((of_class, subtype), str(subtype) if subtype else '')


def numbered(values: set[str], name: str, earlier: dict[str, int]) -> Optional[dict[str, int]]:
    """A number for each word of a class: the one that it had, or the next that is free, in the order of the words. None where all values are
    whole numbers; then those are the subtypes."""
    if not earlier and all(map(WHOLE.fullmatch, values)):
        wrong = next((value for value in sorted(values) if not 0 <= int(value) <= MOST_SUBTYPE), None)
        if wrong:
            raise SourceError('class %s: a subtype is a number from 0 to %d, and there is %s' % (name, MOST_SUBTYPE, wrong))
        return None
    free = (number for number in range(1, MOST_SUBTYPE + 1) if number not in earlier.values())
    numbers = dict(earlier)
    for word in sorted(values - set(earlier)):
        numbers[word] = next(free, 0)
        if not numbers[word]:
            raise SourceError('class %s: there are more than %d words for subtypes' % (name, MOST_SUBTYPE))
    return numbers


class Subtypes:
    """The fields that have the subtypes of classes, by their names, and the numbers of their words."""

    def __init__(self, classes: list['Class'], fields: dict[str, str], earlier: Numbers) -> None:
        self.fields = fields
        self.numbers: Numbers = {}
        for name, field in fields.items():
            values = set(values_of([of for of in classes if of.name == name], field))
            numbers = numbered(values, name, earlier.get(name, {}))
            if numbers is not None:
                self.numbers[name] = numbers
                say('class %s: its subtypes are words of the field %s: %s' %
                    (name, field, ', '.join('%d %s' % (number, word) for word, number in sorted(numbers.items(), key=lambda each: each[1]))))

    def number(self, of_class: str, value: str) -> int:
        """The subtype of a feature by the text of its field; 0 where it has none."""
        if not value:
            return 0
        numbers = self.numbers.get(of_class)
        if numbers is not None and value not in numbers:
            raise SourceError('class %s: the field %s said nothing of %s before: the source changed while it was read' %
                              (of_class, self.fields[of_class], value))
        return int(value) if numbers is None else numbers[value]

    def side(self, text: str) -> str:
        """A side of a rule with a number in place of a word."""
        name, colon, word = text.partition(':')
        return side_text(name, self.numbers[name][word]) if word in self.numbers.get(name, {}) else text


def values_of(classes: list['Class'], field: str) -> Iterator[str]:
    """The values that features of these classes have in a field, without empty ones."""
    for of in classes:
        for batch in batches_of(of.layer, field):
            yield from (feature.id for feature in batch.features if feature.id)
