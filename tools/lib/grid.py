"""The grid of a script: its resolution and its origin, the way from a source's coordinates to grid units and back.

A script that was made of a source says its grid in remark lines at its head, which a replay skips:

    # grid resolution 0.001
    # grid origin 3499300 5412300
    # grid crs PROJCRS["..", ..]
    # grid class parcels polygon "parcels"

All is computed exactly. A coordinate goes to the nearest line of the grid, a half upwards: so two grids of one resolution whose
origins lie a whole number of units apart move a coordinate to the same place.
"""
from __future__ import annotations

import math
from dataclasses import dataclass
from decimal import Decimal
from fractions import Fraction
from typing import Iterable, Optional, Sequence

from .outlines import Number

REACH = 4194304
# How far from the origin of the whole a coordinate of tiles may be.
FAR = 1 << 40
ROUND = 100000
# No number of a grid has more digits, before the point or behind it.
MOST_DIGITS = 320

Place = tuple[int, int]
Extent = tuple[Fraction, Fraction, Fraction, Fraction]


class GridError(Exception):
    """A resolution, an origin or an extent that makes no grid; its text says what helps."""


def decimal_text(number: Fraction) -> str:
    """A number in decimals: exactly, where it has an end, else as the nearest number of double precision."""
    twos = fives = 0
    rest = number.denominator
    while rest % 2 == 0:
        rest, twos = rest // 2, twos + 1
    while rest % 5 == 0:
        rest, fives = rest // 5, fives + 1
    if rest != 1:
        return repr(float(number))
    digits = max(twos, fives)
    text = str(abs(number.numerator) * 10 ** digits // number.denominator).rjust(digits + 1, '0')
    whole, end = text[:len(text) - digits], text[len(text) - digits:]
    return ('-' if number < 0 else '') + whole + ('.' + end if end else '')


def exact(text: str) -> Fraction:
    """The number that a text in decimals says; a GridError where it says none, or one of too many digits to reckon with."""
    try:
        number = Decimal(text)
        if len(text) > MOST_DIGITS or number and abs(number.adjusted()) > MOST_DIGITS:
            raise GridError('%s has more than %d digits' % (text[:20], MOST_DIGITS))
        return Fraction(number)
    except (ArithmeticError, ValueError):
        raise GridError('%r is no number' % text[:60]) from None


@dataclass(frozen=True)
class Grid:
    """Unit (i, j) lies at origin + resolution * (i, j) in the source's coordinates."""

    resolution: Fraction
    x: Fraction
    y: Fraction
    crs: str = ''

    def units(self, number: Fraction, origin: Fraction) -> tuple[int, Fraction]:
        """The nearest line of the grid, and by how much the number moves to it, in the source's units."""
        ideal = (number - origin) / self.resolution
        near = math.floor(ideal + Fraction(1, 2))
        return near, abs(ideal - near) * self.resolution

    def source_of(self, x: Number, y: Number) -> tuple[Fraction, Fraction]:
        """A point of the grid's plane in the source's coordinates, exactly."""
        return self.x + self.resolution * x, self.y + self.resolution * y

    def shifted(self, by: Place) -> 'Grid':
        """The grid of the same resolution whose origin lies at this place of it."""
        return Grid(self.resolution, *self.source_of(*map(Fraction, by)), self.crs)

    def whole_offset(self, remarks: Iterable[str]) -> Place:
        """The origin of a tile's grid in units of that of the whole, which its remark lines say."""
        said = next((line for line in remarks if line.startswith('# grid whole ')), '').split()[3:]
        x, y = map(exact, said) if said else (self.x, self.y)
        dx, dy = (self.x - x) / self.resolution, (self.y - y) / self.resolution
        if dx.denominator != 1 or dy.denominator != 1:
            raise GridError('the origin of the tile is not on the grid of the whole')
        return dx.numerator, dy.numerator

    def remarks(self) -> list[str]:
        """The remark lines that say it."""
        lines = ['# grid resolution ' + decimal_text(self.resolution),
                 '# grid origin %s %s' % (decimal_text(self.x), decimal_text(self.y))]
        return lines + (['# grid crs ' + self.crs] if self.crs else [])


def grid_of(remarks: Iterable[str]) -> Optional[Grid]:
    """The grid that the remark lines of a script say; none where they do not."""
    said: dict[str, str] = {}
    for line in remarks:
        fields = line.split(None, 3)
        if fields[:2] == ['#', 'grid'] and len(fields) == 4:
            said.setdefault(fields[2], fields[3])
    if 'resolution' not in said or 'origin' not in said:
        return None
    x, y = said['origin'].split()
    return Grid(exact(said['resolution']), exact(x), exact(y), said.get('crs', ''))


def rounded(number: Number, step: Fraction) -> Fraction:
    """The nearest multiple of the step."""
    return math.floor(number / step + Fraction(1, 2)) * step


def middle_origin(resolution: Fraction, low: Fraction, high: Fraction) -> Fraction:
    """A round number near the middle of the two, from which both are within the reach; a GridError where none is."""
    step = ROUND
    while step:
        origin = rounded((low + high) / 2, resolution * step)
        if max(high - origin, origin - low) <= (REACH - 1) * resolution:
            return origin
        step //= 10
    raise GridError('it does not fit')


def chosen_grid(resolution: Fraction, extent: Extent, crs: str) -> Grid:
    """The grid of this resolution in whose middle the extent lies, if it fits."""
    x0, y0, x1, y1 = extent
    try:
        return Grid(resolution, middle_origin(resolution, x0, x1), middle_origin(resolution, y0, y1), crs)
    except GridError:
        sizes = float(x1 - x0), float(y1 - y0), decimal_text(resolution), decimal_text(2 * REACH * resolution)
        raise GridError('the extent is %.10g wide and %.10g high, and a grid of %s holds %s each way: take a coarser one, or split '
                        'the source with tools/tiles' % sizes) from None


def origin_of(words: Optional[Sequence[str]]) -> Optional[tuple[Fraction, Fraction]]:
    """Where unit (0, 0) lies, as the words of --origin say; none where it is not given."""
    return (exact(words[0]), exact(words[1])) if words else None


def whole_grid(resolution: Fraction, origin: Optional[tuple[Fraction, Fraction]], extent: Extent, crs: str) -> Grid:
    """The grid that tiles have in common, which may go beyond the reach: with the origin that is given, or one in the middle."""
    x0, y0, x1, y1 = extent
    x, y = origin or (rounded((x0 + x1) / 2, resolution * ROUND), rounded((y0 + y1) / 2, resolution * ROUND))
    return Grid(resolution, x, y, crs)
