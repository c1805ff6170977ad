"""From numbers of a source to lines of the grid, along one axis: exactly, in whole numbers.

A number of double precision stands for the decimal with the fewest digits that reads as it. Let t be a power of ten, at most 10^22, and V the
whole number nearest to x * t. V / t is the double nearest to that decimal, since both are exact doubles and a division rounds once. Two
decimals of 15 digits at most never have the same nearest double. So if V / t is x again and V is below 10^15, V / t is the decimal that x
stands for. What has more digits is read from its text.
"""
from __future__ import annotations

import functools
import math
from fractions import Fraction
from typing import NamedTuple, Optional

MOST_DIGITS = 22
MOST_WHOLE = 10 ** 15
# So many decimals more than the grid's own are tried for all numbers of a shape at once.
FINER = 4


class Lines(NamedTuple):
    """The lines of the grid nearest to some numbers, and by how much one of them moved at most, in the source's units."""

    units: list[int]
    moved: Fraction


def digits_of(*numbers: Fraction) -> Optional[int]:
    """The fewest decimals with which all of the numbers can be written; none where there are more than powers of ten that are doubles."""
    return next((digits for digits in range(MOST_DIGITS + 1) if all((number * 10 ** digits).denominator == 1 for number in numbers)), None)


class Axis:
    """Lines of the grid at origin + resolution * i. Where `digits` is a number, both are whole numbers of 10^-digits, `first` and `step`."""

    def __init__(self, resolution: Fraction, origin: Fraction) -> None:
        self.resolution, self.origin = resolution, origin
        self.digits = digits_of(resolution, origin)
        self.scale = 10 ** (self.digits or 0)
        self.step, self.first = int(resolution * self.scale), int(origin * self.scale)
        self.line_of = functools.lru_cache(1 << 16)(self.line_of_text)

    def line_of_text(self, number: float) -> tuple[int, int, int]:
        """The line nearest to a number, a half upwards, and by how much it moves there: as a whole number, and of how many decimals."""
        whole, _, decimals = repr(number).partition('.')
        digits = len(decimals)
        if self.digits is None or 'e' in decimals or 'e' in whole:
            return self.line_exactly(number)
        finer = 10 ** max(0, digits - self.digits)
        offset = int(whole + decimals) * 10 ** max(0, self.digits - digits) - self.first * finer
        step = self.step * finer
        line = (2 * offset + step) // (2 * step)
        return line, abs(offset - line * step), max(digits, self.digits)

    def line_exactly(self, number: float) -> tuple[int, int, int]:
        """The same of numbers with exponents, and of grids whose lines have no decimals that are few."""
        exact = Fraction(repr(number)) - self.origin
        line = math.floor(exact / self.resolution + Fraction(1, 2))
        by = abs(exact - line * self.resolution)
        digits = next(digits for digits in range(1200) if (by * 10 ** digits).denominator == 1)
        return line, int(by * 10 ** digits), digits

    def lines(self, numbers: list[float]) -> Lines:
        """The lines nearest to some numbers that are finite."""
        whole, digits = self.whole(numbers)
        if whole is None:
            return self.lines_one_by_one(numbers)
        finer = 10 ** (digits - self.digits)
        first, step = self.first * finer, self.step * finer
        if step == 1:
            return Lines([number - first for number in whole], Fraction(0))
        units = [(2 * (number - first) + step) // (2 * step) for number in whole]
        by = max(abs(number - first - unit * step) for number, unit in zip(whole, units))
        return Lines(units, Fraction(by, 10 ** digits))

    def whole(self, numbers: list[float]) -> tuple[Optional[list[int]], int]:
        """The numbers in units of 10^-d, where all are whole numbers of them, with d: the decimals of the grid, or a few more."""
        most = max(max(numbers), -min(numbers))
        for digits in range(self.digits, min(self.digits + FINER, MOST_DIGITS) + 1) if self.digits is not None else ():
            scale = float(10 ** digits)
            if most * scale >= MOST_WHOLE:
                break
            whole = [round(number * scale) for number in numbers]
            if [number / scale for number in whole] == numbers:
                return whole, digits
        return None, 0

    def lines_one_by_one(self, numbers: list[float]) -> Lines:
        units: list[int] = []
        most: dict[int, int] = {}
        for line, by, digits in map(self.line_of, numbers):
            units.append(line)
            if by > most.get(digits, 0):
                most[digits] = by
        return Lines(units, max((Fraction(by, 10 ** digits) for digits, by in most.items()), default=Fraction(0)))
