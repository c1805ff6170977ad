"""The table of tools/fixes: its columns, and its rows as a page shows them."""
from __future__ import annotations

from typing import Iterator

from .scenes import ShownFix
from .tables import Record, TableError, rows_of

COLUMNS = ['fix', 'rule', 'kind', 'subject', 'other', 'subject_id', 'other_id', 'how', 'lines', 'mends', 'distance', 'changes', 'made', 'gone', 'new', 'new_errors',
           'x0', 'y0', 'x1', 'y1', 'ways']


def shown(row: Record) -> ShownFix:
    x0, y0, x1, y1 = (int(row[side]) for side in ('x0', 'y0', 'x1', 'y1'))
    ways = [list(map(int, way.split())) for way in row['ways'].split(', ') if way]
    if any(len(way) not in (2, 4) for way in ways):
        raise ValueError(row['ways'])
    leaves = 'mends %s, %s gone, %s new' % (row['mends'], row['gone'], row['new']) + (' (%s)' % row['new_errors'] if row['new_errors'] else '')
    return ShownFix(int(row['fix']), row['how'], row['lines'], float(row['distance']), leaves, (x0, y0, x1, y1), ways)


def shown_fixes(path: str) -> Iterator[ShownFix]:
    """The fixes of a table; a TableError where it is none of tools/fixes."""
    for number, row in enumerate(rows_of(path, COLUMNS), 1):
        try:
            yield shown(row)
        except ValueError as fault:
            raise TableError('%s: row %d is none of tools/fixes: %s' % (path, number, fault)) from None
