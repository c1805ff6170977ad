"""The corners of cells as the program lists them, in place of those that are computed in fractions."""
from __future__ import annotations

import subprocess
from fractions import Fraction
from typing import Iterator

from .outlines import Point, turn
from .replies import Error, ReplyError

Key = tuple[int, int, int]
Closures = list[list[Point]]


def ring_of(corners: list[Point]) -> list[Point]:
    """The corners of a convex polygon counter-clockwise, where they stand by abscissa and then by ordinate; of a stretch its two ends."""
    if len(corners) < 3:
        return corners
    first, last = corners[0], corners[-1]
    below = [corner for corner in corners[1:-1] if turn(first, last, corner) < 0]
    above = [corner for corner in corners[1:-1] if turn(first, last, corner) > 0]
    return [first, *below, last, *reversed(above)]


def closures_in(lines: list[str], count: int) -> Closures:
    """The corners of each of so many cells, by the lines of a listing of corners."""
    cells: Closures = [[] for _ in range(count)]
    for line in lines:
        _, number, x, y = line.split()
        if not 1 <= int(number) <= count:
            raise ReplyError('the program lists corners of cell %s of %d: the replies are not those of this script' % (number, count))
        cells[int(number) - 1].append((Fraction(x), Fraction(y)))
    return [ring_of(corners) for corners in cells]


def last_listings(replies: list[str], count: int) -> list[list[str]]:
    """The lines of the last so many listings of corners, without their totals; fewer where there are others among them."""
    found: list[list[str]] = []
    at = len(replies)
    while len(found) < count and at > 0 and replies[at - 1].startswith('total '):
        end = at = at - 1
        while at > 0 and replies[at - 1].startswith('corner '):
            at -= 1
        found.append(replies[at:end])
    return found[::-1]


def asked_closures(program: list[str], script: bytes, counts: dict[Key, int]) -> dict[Key, Closures]:
    """The corners of the cells of these errors, of which each has so many, as they stand at the end of the script: the program replays it once
    more, with a line `corners` for each behind it. A ReplyError where it lists others."""
    lines = ''.join('corners %d %d %d\n' % key for key in counts)
    asked = script.rstrip(b'\r\n') + b'\n' + lines.encode()
    replies = subprocess.run(program + ['replay'], input=asked, stdout=subprocess.PIPE).stdout.decode().splitlines()
    listings = last_listings(replies, len(counts))
    if len(listings) != len(counts):
        raise ReplyError('the program does not list the corners of each error: the replies are not those of this script, or it knows no line `corners`')
    return {key: closures_in(listing, count) for (key, count), listing in zip(counts.items(), listings)}


def with_closures(program: list[str], script: bytes, errors: list[Error]) -> Iterator[Error]:
    """The errors, each with the corners of its cells as the program lists them."""
    found = asked_closures(program, script, {error[1:4]: len(error.cells) for error in errors if error.cells})
    return (error._replace(closures=found.get(error[1:4])) for error in errors)
