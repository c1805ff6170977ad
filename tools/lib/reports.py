"""Reports of errors as CSV, and each error as it is found again in another report: by its rule, and the classes and ids of its features."""
from __future__ import annotations

from typing import NamedTuple

from .lines import number_of, side_of
from .tables import COLUMNS, Record, rows_of

REPORT = ['rule', 'kind', 'subject', 'other', 'extent', 'mark', 'x0', 'y0', 'x1', 'y1']


class Name(NamedTuple):
    """A feature by its class and its id; one without an id by its handle. Of no feature both are empty."""

    of_class: str
    id: str

    def told(self) -> str:
        return ('%s %s' % self).strip()


NONE = Name('', '')


class Key(NamedTuple):
    """An error by the number of its rule, its subject and its partner."""

    rule: int
    subject: Name
    other: Name


class Found(NamedTuple):
    """An error of a report: the word of its rule, the handles of its features, its extent, mark and frame. Of features that were cut it also
    has the same error of the other parts."""

    word: str
    subject: int
    other: int
    extent: str
    mark: str
    frame: tuple[int, int, int, int]
    more: tuple['Found', ...] = ()

    def is_as(self, other: 'Found') -> bool:
        """Whether both have the same extent and frame."""
        return (self.extent, self.frame) == (other.extent, other.frame)

    def with_part(self, error: 'Found') -> 'Found':
        """The error with the one of another part: an exception where both are."""
        x0, y0, x1, y1 = zip(self.frame, error.frame)
        mark = self.mark if self.mark == error.mark else 'error'
        return self._replace(mark=mark, frame=(min(x0), min(y0), max(x1), max(y1)), more=(*(self.more or (self,)), error))

    @property
    def parts(self) -> tuple['Found', ...]:
        """The errors of all parts; of a whole feature this one."""
        return self.more or (self,)


def handle_name(handle: int) -> Name:
    return Name('', '#%d' % handle) if handle else NONE


def names_of(table: str) -> dict[int, Name]:
    """The names of the features by their handles, as a table of tools/from-ogr or tools/changes has them."""
    rows = [row for row in rows_of(table, COLUMNS, True) if row['handle']]
    return {number_of(row['handle']): Name(side_of(row['class'])[0], row['id'] or '#' + row['handle']) for row in rows}


def found_in(row: Record) -> Found:
    x0, y0, x1, y1 = (number_of(row[side]) for side in ('x0', 'y0', 'x1', 'y1'))
    return Found(row['kind'], number_of(row['subject']), number_of(row['other']), row['extent'], row['mark'], (x0, y0, x1, y1))


def errors_in(report: str, names: dict[int, Name]) -> dict[Key, Found]:
    """The errors of a report by their keys, in their order."""
    found: dict[Key, Found] = {}
    for row in rows_of(report, REPORT):
        error = found_in(row)
        subject, other = (names.get(handle, handle_name(handle)) for handle in (error.subject, error.other))
        key = Key(number_of(row['rule']), subject, other)
        found[key] = found[key].with_part(error) if key in found else error
    return found
