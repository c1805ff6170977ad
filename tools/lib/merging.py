"""The tiles of a folder with their replies: whether they belong together, and their errors with handles and coordinates of the whole."""
from __future__ import annotations

import glob
import os
from functools import lru_cache
from typing import Callable, Iterator, NamedTuple, cast

from .replies import Cells, Ending, Error, Listing, Origin, ReplyError, Rule, ending_of, errors_of, half_of

TILE = '# grid tile '
SCRIPT, REPLIES = '.topo', '.replies'


class Merged(NamedTuple):
    """The errors of all subjects in the order of their keys, the rules, the number of refused lines of each tile that has some, and what stands
    at the end of the whole, as far as the errors ask for it: the grid, and where their features come from, by handles of the whole."""

    errors: list[Error]
    rules: dict[int, Rule]
    refused: dict[str, int]
    ending: Ending


def tile_remark(number: int, count: int) -> str:
    """The remark line of a tile that says which it is, of how many."""
    return '%s%d of %d' % (TILE, number, count)


def files_of(folder: str, end: str) -> list[str]:
    return sorted(glob.glob(os.path.join(glob.escape(folder), '*' + end)))


def check_place(script: str, ending: Ending, number: int, count: int) -> None:
    """Raises a ReplyError where the script is not the tile of this number, of so many."""
    said = next((line for line in ending.remarks if line.startswith(TILE)), None)
    if said is None or ending.grid is None:
        raise ReplyError('%s is no tile of tools/tiles' % script)
    if said != tile_remark(number, count):
        raise ReplyError('%s is tile %s, and not %d of %d: these are not all tiles of one split, or more' %
                         (script, said[len(TILE):], number, count))


def endings_of(folder: str) -> Iterator[tuple[str, Ending]]:
    """The script of each tile, and what stands at its end. A ReplyError, which names the tile, where the replies are not those of the script
    beside them, or the tiles not those of one split."""
    scripts = files_of(folder, SCRIPT)
    if not scripts:
        raise ReplyError('no tiles in %s' % folder)
    for number, script in enumerate(scripts, 1):
        replies = script[:-len(SCRIPT)] + REPLIES
        try:
            ending = ending_of(script, replies)
        except FileNotFoundError:
            raise ReplyError('%s has no replies: there is no file %s' % (script, replies)) from None
        except ReplyError as fault:
            raise ReplyError('%s: %s' % (script, fault)) from None
        check_place(script, ending, number, len(scripts))
        yield script, ending


def is_of_tile(error: Error, listing: Listing, ending: Ending) -> bool:
    """Whether the error is of a rule of the tile, and of features that its script adds to the classes of the rule."""
    rule, handles = listing.rules.get(error.rule), [error.subject, error.other] if error.other else [error.subject]
    return rule is not None and all(own in ending.origins and ending.origins[own].of_class in rule.classes for own in handles)


def mover(dx: int, dy: int) -> Callable[[str], str]:
    """Moves the text of a half-plane by so many units."""
    @lru_cache(1 << 14)
    def moved(text: str) -> str:
        a, b, c, op = half_of(text)
        return '%d %d %d %s' % (a, b, c - a * dx - b * dy, op)
    return moved


def moved_back(errors: list[Error], ending: Ending) -> Iterator[Error]:
    """Errors of a tile with handles and coordinates of the whole."""
    handle = lambda own: ending.origins[own].handle if own else 0
    dx, dy = ending.grid.whole_offset(ending.remarks)
    moved = mover(dx, dy)
    for error in errors:
        x0, y0, x1, y1 = error.frame
        cells = Cells([', '.join(map(moved, halves)) for halves in cast(Cells, error.cells).split()])
        yield error._replace(subject=handle(error.subject), other=handle(error.other), frame=(x0 + dx, y0 + dy, x1 + dx, y1 + dy), cells=cells)


def listing_of(script: str, ending: Ending) -> Listing:
    listing = ending.errors()
    if listing is None:
        raise ReplyError('%s lists no errors' % script)
    return listing


def errors_of_tile(script: str, listing: Listing, ending: Ending) -> list[Error]:
    """The errors of a tile's subjects, as the tile has them."""
    errors = errors_of(listing.lines)
    stray = next((error for error in errors if not is_of_tile(error, listing, ending)), None)
    if stray:
        raise ReplyError('%s: the error %d %d %d cannot be one of this script: the replies are not those of this script' %
                         (script, *stray[1:4]))
    return [error for error in errors if ending.origins[error.subject].is_subject]


def whole_remarks(ending: Ending) -> list[str]:
    """The remark lines of the grid of the whole that a tile is part of."""
    dx, dy = ending.grid.whole_offset(ending.remarks)
    return ending.grid.shifted((-dx, -dy)).remarks()


def origins_in(errors: list[Error], ending: Ending) -> dict[int, Origin]:
    """Where the features of a tile's errors come from, by handles of the whole."""
    asked = {handle for error in errors for handle in error[2:4] if handle}
    return {origin.handle: origin for origin in map(ending.origins.__getitem__, sorted(asked))}


def merged(folder: str) -> Merged:
    """The errors of all tiles in a folder. A ReplyError where an error comes twice, or the tiles have different rules."""
    found: list[Error] = []
    rules: dict[int, Rule] = {}
    refused: dict[str, int] = {}
    whole = Ending()
    for script, ending in endings_of(folder):
        listing = listing_of(script, ending)
        of_tile = errors_of_tile(script, listing, ending)
        found += moved_back(of_tile, ending)
        whole.remarks = whole.remarks or whole_remarks(ending)
        whole.origins.update(origins_in(of_tile, ending))
        refused.update({script: ending.refused} if ending.refused else {})
        rules = rules or listing.rules
        if listing.rules != rules:
            raise ReplyError('%s has other rules than the tiles before it' % script)
    found.sort(key=lambda error: error[1:4])
    twice = next((error for error, after in zip(found, found[1:]) if error[1:4] == after[1:4]), None)
    if twice:
        raise ReplyError('two tiles in %s have the error %d %d %d: a feature is the subject of one alone' % (folder, *twice[1:4]))
    return Merged(found, rules, refused, whole)
