"""What a night found: errors that are new, changed, lapsed or gone, by the ids of their features, and what stands beside features left out."""
from __future__ import annotations

from typing import Iterable, NamedTuple, TextIO

from .grid import Grid, decimal_text
from .reports import NONE, Found, Key
from .replies import Frame, meet
from .tables import Table

COLUMNS = ['news', 'rule', 'word', 'class', 'id', 'other_class', 'other_id', 'mark', 'x0', 'y0', 'x1', 'y1']
# How many of each sort are told.
SHOWN = 20
SORTS = 'new', 'changed', 'lapsed', 'gone'


class News(NamedTuple):
    """One error of which there is news: of which sort, and how it is now, or where it is gone, how it was."""

    sort: str
    key: Key
    error: Found

    def told(self) -> str:
        other = ' with ' + self.key.other.told() if self.key.other != NONE else ''
        return '%s %s%s' % (self.error.word, self.key.subject.told(), other)


class LeftOut(NamedTuple):
    """A feature that the source has and the project has not: what it is called, why, and its frame on the grid, if it has one."""

    name: str
    why: str
    frames: list[Frame]


def sort_of(was: Found, now: Found) -> str:
    """What is said of an error that was there before; nothing where it is as it was."""
    if was.mark == 'exception' and now.mark == 'error':
        return 'lapsed'
    return '' if was.is_as(now) else 'changed'


def news_of(before: dict[Key, Found], after: dict[Key, Found]) -> list[News]:
    """The news in the order of the errors; those that are gone come last."""
    found = [News(sort_of(before[key], error) if key in before else 'new', key, error) for key, error in after.items()]
    return [news for news in found if news.sort] + [News('gone', key, error) for key, error in before.items() if key not in after]


def write_news(out: TextIO, news: Iterable[News], grid: Grid) -> None:
    """A table of the news, the frames in the source's coordinates."""
    table = Table(out, COLUMNS)
    for sort, key, error in news:
        x0, y0, x1, y1 = error.frame
        corners = [decimal_text(number) for corner in ((x0, y0), (x1, y1)) for number in grid.source_of(*corner)]
        table.write([sort, key.rule, error.word, *key.subject, *key.other, error.mark, *corners])


def beside(left: LeftOut, errors: dict[Key, Found]) -> list[str]:
    """The errors that are no exceptions whose frames meet that of a feature that was left out."""
    near = [News('', key, error) for key, error in errors.items() if error.mark == 'error' and any(meet(error.frame, frame) for frame in left.frames)]
    return [news.told() for news in near]


def some(lines: list[str]) -> list[str]:
    """The first lines, and how many there are more."""
    return lines[:SHOWN] + ['    .. and %d more' % (len(lines) - SHOWN)] * (len(lines) > SHOWN)


def told_left_out(left_out: list[LeftOut], errors: dict[Key, Found]) -> list[str]:
    lines = ['left out: %d' % len(left_out)] if left_out else []
    for left in left_out:
        near = beside(left, errors)
        where = '; errors beside it: %d' % len(near) if left.frames else '; it has no place'
        lines += ['    %s: %s%s' % (left.name, left.why, where)] + some(['        ' + each for each in near])
    return lines


def told(news: list[News], errors: dict[Key, Found], left_out: list[LeftOut]) -> list[str]:
    """The lines of a night: how many errors and exceptions there are, the news by sort, and what was left out."""
    marked = sum(error.mark == 'exception' for error in errors.values())
    lines = ['errors: %d; exceptions: %d' % (len(errors) - marked, marked)]
    for sort in SORTS:
        of_sort = [each for each in news if each.sort == sort]
        lines += ['%s: %d' % (sort, len(of_sort))] * bool(of_sort) + some(['    ' + each.told() for each in of_sort])
    return lines + told_left_out(left_out, errors)
