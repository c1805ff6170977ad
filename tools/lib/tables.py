"""Tables of features as CSV: what is in a cell never begins another row."""
from __future__ import annotations

import csv
import re
from typing import Iterable, Iterator, TextIO

FORMULA = '=', '+', '-', '@', '\t', '\r'
NUMBER = re.compile(r'[+-]?[0-9]+(?:\.[0-9]+)?(?:e[+-]?[0-9]+)?')
COLUMNS = ['layer', 'fid', 'id', 'class', 'handle', 'moved', 'note']

Record = dict[str, str]


class TableError(Exception):
    """A table that is none; its text says why."""


def is_formula(cell: str) -> bool:
    """Whether a spreadsheet may take a text for a formula: it begins as one, and is no number."""
    return cell.startswith(FORMULA) and not NUMBER.fullmatch(cell)


class Table:
    """Writes rows under these columns. A cell with an LF or CR is put in quotes. Cells that a spreadsheet may take for formulas are counted,
    and with `is_safe` a `'` is put before them."""

    def __init__(self, out: TextIO, columns: list[str], delimiter: str = ',', is_safe: bool = False) -> None:
        self.plain = csv.writer(out, lineterminator='\n', delimiter=delimiter)
        self.quoting = csv.writer(out, lineterminator='\n', delimiter=delimiter, quoting=csv.QUOTE_ALL)
        self.is_safe, self.formulas = is_safe, 0
        self.write(columns)

    def write(self, row: Iterable[object]) -> None:
        cells = list(map(str, row))
        formulas = [at for at, cell in enumerate(cells) if cell and is_formula(cell)]
        self.formulas += len(formulas)
        for at in formulas if self.is_safe else []:
            cells[at] = "'" + cells[at]
        (self.quoting if '\r' in ''.join(cells) else self.plain).writerow(cells)


def rows_of(path: str, columns: list[str], may_have_more: bool = False) -> Iterator[Record]:
    """The rows of a table with these columns, and perhaps more behind them; a TableError where it has others, or is no table."""
    with open(path, encoding='utf-8', newline='') as table:
        rows = csv.DictReader(table)
        try:
            if (rows.fieldnames or [])[:len(columns) if may_have_more else None] != columns:
                raise TableError('%s has not the columns %s' % (path, ','.join(columns)))
            for number, row in enumerate(rows, 1):
                if None in row or None in row.values():
                    raise TableError('%s: row %d has not as many cells as there are columns' % (path, number))
                yield row
        except csv.Error as fault:
            raise TableError('%s is no table: %s' % (path, fault)) from None
        except UnicodeDecodeError as fault:
            raise TableError('%s is no text in UTF-8: %s' % (path, fault)) from None
