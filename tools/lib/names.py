"""What a table says of features by their handles: their numbers and ids in the source, and what other columns it has."""
from __future__ import annotations

import csv
import re
from typing import Iterator, NamedTuple

from .replies import Ending, Origin
from .tables import TableError

# The columns of a table of from-ogr that say nothing of the feature itself.
PASSED = 'layer', 'handle', 'class', 'moved', 'note', 'fid', 'id'

PART = re.compile('part [0-9]+ of [0-9]+(?: along [-0-9 ,]+)?')


class Name(NamedTuple):
    """The number and the id of a feature in its source, and its cells of the other columns; its class where the table has one; which part it is
    of a feature that was cut."""

    fid: str
    id: str
    of_class: str
    more: list[str]
    part: str = ''


class Names(NamedTuple):
    """The names of columns beside those of from-ogr, and the names of features by their handles."""

    columns: list[str]
    by_handle: dict[int, Name]

    def origin(self, handle: int, ending: Ending) -> Origin:
        """Where a feature comes from, by the remark above its line or by the table, which in a tile has the handles of the whole."""
        origin = ending.origins.get(handle, Origin(''))
        name = self.by_handle.get(origin.handle or handle)
        if name is None:
            return origin
        return origin._replace(of_class=origin.of_class or name.of_class, fid=name.fid or origin.fid, id=name.id or origin.id, part=origin.part or name.part)

    def more(self, handle: int) -> list[str]:
        """The cells of the other columns; empty ones where the table does not name the feature."""
        return self.by_handle[handle].more if handle in self.by_handle else [''] * len(self.columns)


NO_NAMES = Names([], {})


def rows_of(path: str) -> Iterator[dict[str, str]]:
    """The rows of a table with commas or semicolons between. A TableError where it is none with a column `handle`."""
    with open(path, encoding='utf-8-sig', newline='') as table:
        head = table.readline()
        table.seek(0)
        rows = csv.DictReader(table, delimiter=';' if head.count(';') > head.count(',') else ',')
        try:
            if 'handle' not in (rows.fieldnames or ()):
                raise TableError('%s has no column `handle`: it is not the table of from-ogr --table' % path)
            for number, row in enumerate(rows, 1):
                if None in row or None in row.values():
                    raise TableError('%s: row %d has not as many cells as there are columns' % (path, number))
                yield row
        except (csv.Error, UnicodeDecodeError) as fault:
            raise TableError('%s is no table: %s' % (path, fault)) from None


def names_of(path: str) -> Names:
    """The names of features that a table says: that of from-ogr, or another one with a column `handle`. Rows without a handle are of features
    that were left out."""
    columns: list[str] = []
    found: dict[int, Name] = {}
    for row in rows_of(path):
        columns = columns or [column for column in row if column not in PASSED]
        if not row['handle']:
            continue
        if not row['handle'].isdecimal() or len(row['handle']) > 10:
            raise TableError('%s: %s is no handle' % (path, row['handle'][:20]))
        name = Name(row.get('fid', ''), row.get('id', ''), row.get('class', ''), [row[column] for column in columns], (PART.search(row.get('note', '')) or ('',))[0])
        if found.setdefault(int(row['handle']), name) != name:
            raise TableError('%s: the handle %s is there twice' % (path, row['handle']))
    return Names(columns, found)
