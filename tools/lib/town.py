"""The made town (docs/town.md): its script, and its summary as the replies to the script have it."""
from __future__ import annotations

import itertools
from typing import Iterator

LAST = 2 ** 64 - 1
HEAD = """class parcels polygon
class addresses point
class roads line
rule polygon_must_not_overlap parcels
rule polygon_must_not_have_gaps parcels
rule polygon_contains_point parcels addresses
rule point_must_be_disjoint addresses
rule line_must_not_have_dangles roads
begin maker"""


def words_of(seed: int) -> Iterator[int]:
    """The words of SplitMix64, the seed being its first state."""
    for state in itertools.count(seed + 0x9E3779B97F4A7C15, 0x9E3779B97F4A7C15):
        word = state & LAST
        word = (word ^ word >> 30) * 0xBF58476D1CE4E5B9 & LAST
        word = (word ^ word >> 27) * 0x94D049BB133111EB & LAST
        yield word ^ word >> 31


def parcel(row: int, column: int) -> str:
    x, y = 100 * column, 100 * row
    corners = (x, y), (x + 100, y), (x + 100, y + 100), (x, y + 100), (x, y)
    return 'by maker add parcels POLYGON ((%s))' % ', '.join('%d %d' % corner for corner in corners)


def address(words: Iterator[int], row: int, column: int) -> str:
    """An address inside the parcel, by the next two words."""
    x, y = (100 * part + 1 + next(words) % 99 for part in (column, row))
    return 'by maker add addresses POINT (%d %d)' % (x, y)


def road(words: Iterator[int], rows: int, row: int) -> str:
    """The road along the foot of the row, with a vertex by the next word."""
    return 'by maker add roads LINESTRING (0 %d, %d %d, %d %d)' % (100 * row, 1 + next(words) % (100 * rows - 1), 100 * row, 100 * rows, 100 * row)


def script(seed: int, rows: int) -> str:
    """The script of the town of so many rows."""
    words, lines, late = words_of(seed), [HEAD], []
    for row in range(rows):
        late.append(next(words) % rows)
        lines += [parcel(row, column) for column in range(rows)]
        lines += [address(words, row, column) for column in range(rows) if column != late[row]]
        lines.append(road(words, rows, row))
    lines.append('validate all')
    lines += [address(words, row, column) for row, column in enumerate(late)]
    return '\n'.join(lines + ['validate 0 0 %d %d' % (100 * rows, 100 * (rows // 2)), ''])


def counts(rows: int) -> str:
    """The four first lines, by the formulas of docs/town.md."""
    shown, gaps = rows // 2, 4 * rows - 4 if rows > 1 else 1
    return 'features %d\njudged %d\nerrors %d\ndirty %d\n' % (
        2 * rows * rows + rows, 4 * rows * rows + 4 * shown, 2 * rows + gaps - shown, rows - shown)


def summary(asked: str, replies: str) -> str:
    """The five lines, from the replies to the script with `features`, `cells` and `dirty` behind it."""
    said = replies.splitlines(keepends=True)
    judged = [int(line.split()[2]) for line in said if line.startswith('ok judged ')]
    said = said[len(asked.splitlines()):]
    ends = [i for i, line in enumerate(said) if line.startswith('total ')]
    features, errors, dirty = (int(said[i].split()[1]) for i in ends)
    listed = ''.join(said[:ends[1] + 1]).encode()
    return 'features %d\njudged %d\nerrors %d\ndirty %d\ntext %d\n' % (features, sum(judged), errors, dirty, sum(listed))
