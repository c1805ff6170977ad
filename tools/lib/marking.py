"""What an officer said of errors in a column of a GeoPackage or of a CSV table, and the marks that follow from it."""
from __future__ import annotations

import contextlib
import csv
import os
import sqlite3
from typing import Iterator, NamedTuple, Optional

from .frame import ToolError
from .lines import number_of
from .reports import NONE, Found, Key, Name

NEEDED = 'rule', 'class', 'subject', 'subject_id', 'other_class', 'other', 'other_id'
SAID = {'exception': True, 'yes': True, 'true': True, 'x': True, '1': True, 'error': False, 'no': False, 'false': False, '0': False}


class Marks(NamedTuple):
    """The lines that mark and unmark, and sentences on what was said of errors that are none any more, or others."""

    lines: list[str]
    told: list[str]


def quoted(name: str) -> str:
    return '"%s"' % name.replace('"', '""')


def rows_of_package(path: str) -> Iterator[dict[str, str]]:
    """The rows of the layers of errors of a GeoPackage."""
    with contextlib.closing(sqlite3.connect('file:%s?mode=ro' % path.replace('?', '%3f').replace('#', '%23'), uri=True)) as package:
        names = [name for name, in package.execute('SELECT table_name FROM gpkg_contents ORDER BY table_name')]
        for name in names:
            cursor = package.execute('SELECT * FROM ' + quoted(name))
            columns = [column[0] for column in cursor.description]
            if set(NEEDED) <= set(columns):
                yield from ({column: '' if cell is None else str(cell) for column, cell in zip(columns, row)} for row in cursor)


def rows_of_table(path: str) -> Iterator[dict[str, str]]:
    """The rows of a table whose cells have commas or semicolons between them."""
    with open(path, encoding='utf-8-sig', newline='') as table:
        head = table.readline()
        table.seek(0)
        yield from csv.DictReader(table, delimiter=';' if head.count(';') > head.count(',') else ',')


def marked_rows(path: str) -> list[dict[str, str]]:
    """The rows of a GeoPackage or of a table; a ToolError where it is neither, or has not the columns of layers of errors."""
    if not os.path.isfile(path):
        raise ToolError('there is no file %s' % path)
    try:
        rows = list(rows_of_package(path) if path.endswith('.gpkg') else rows_of_table(path))
    except (sqlite3.Error, csv.Error, UnicodeDecodeError) as fault:
        raise ToolError('%s: %s' % (path, fault)) from None
    missing = [column for column in NEEDED if rows and column not in rows[0]]
    if missing:
        raise ToolError('%s has no column %s: it takes what tools/to-gis wrote' % (path, missing[0]))
    return rows


def name_in(row: dict[str, str], of_class: str, handle: str, id_column: str) -> Name:
    """The feature that a row names as its subject or its partner."""
    if row[handle] in ('', '0'):
        return NONE
    return Name(row[of_class].partition(':')[0], row[id_column] or '#' + row[handle])


def said_in(path: str, column: str) -> dict[Key, bool]:
    """What a column says of errors: whether each is an exception. A ToolError where it says something else, or both of one error."""
    said: dict[Key, bool] = {}
    for number, row in enumerate(marked_rows(path), 1):
        if column not in row:
            raise ToolError('%s has no column %s' % (path, column))
        text = (row[column] or '').strip().lower()
        if not text:
            continue
        if text not in SAID:
            raise ToolError('%s: row %d says `%s` in %s; it may say %s' % (path, number, text[:40], column, ', '.join(SAID)))
        key = Key(number_of(row['rule']), name_in(row, 'class', 'subject', 'subject_id'), name_in(row, 'other_class', 'other', 'other_id'))
        if said.setdefault(key, SAID[text]) != SAID[text]:
            raise ToolError('%s: two rows say both of the error of rule %d at %s' % (path, key.rule, key.subject.told()))
    return said


def marks_for(said: dict[Key, bool], errors: dict[Key, Found], seen: Optional[dict[Key, Found]], may_unmark: bool) -> Marks:
    """The lines that make errors as they are now what was said of them. What was said of an error that looked otherwise when it was seen
    is passed over."""
    marks = Marks([], [])
    for key, is_exception in said.items():
        now = errors.get(key)
        what = 'rule %d, %s%s' % (key.rule, key.subject.told(), ' with ' + key.other.told() if key.other != NONE else '')
        if now is None:
            marks.told.extend(['%s: there is no such error now' % what] if is_exception else [])
        elif (now.mark == 'exception') == is_exception or not (is_exception or may_unmark):
            continue
        elif seen is not None and (key not in seen or not now.is_as(seen[key])):
            marks.told.append('%s: the error is another one now, so it is not %s' % (what, 'marked' if is_exception else 'unmarked'))
        else:
            marks.lines.extend('%s %d %d %d' % ('mark' if is_exception else 'unmark', key.rule, each.subject, each.other)
                               for each in now.parts if (each.mark == 'exception') != is_exception)
    return marks
