"""Cells that lie on lines, clipped along them in whole numbers: fractions are made of the ends alone that are left at last."""
from __future__ import annotations

from fractions import Fraction
from functools import lru_cache
from math import gcd
from typing import Iterable, NamedTuple, Optional, Sequence, Union

from .outlines import Number, Point, turn
from .replies import Cells, Error, Frame, Half, half_of

Segment = tuple[Point, Point]
# A half-plane by its numbers, or by its text.
Told = Union[Half, str]
# Two places along a line, each by its whole number of a table.
Span = tuple[int, int]
# A point as it is nearest in double precision.
Near = tuple[float, float]
# What is lost of a number in double precision is less than this part of it, many times.
ROOM = 1e-14
# So many bits have what divides a bound along a line, if coordinates are those of a grid.
BITS = 64


class Line(NamedTuple):
    """The points where a * u + b * v + c is 0, with b over 0 and no common divisor: u is x and v is y, or of an upright line the other way
    round. So each number u stands for one point of it."""

    is_upright: bool
    a: int
    b: int
    c: int

    def point(self, u: Number) -> Point:
        """In whole numbers where it can be: such are compared fastest, and are the same as fractions."""
        v = -self.a * u - self.c
        v = Fraction(v, self.b) if v % self.b else v // self.b
        return (v, u) if self.is_upright else (u, v)


@lru_cache(1 << 14)
def line_of(half: Half) -> Line:
    """The line where the term of a half-plane is 0."""
    a, b, c, _ = half
    is_upright = b == 0
    if is_upright:
        a, b = b, a
    by = gcd(a, b, c) if b > 0 else -gcd(a, b, c)
    return Line(is_upright, a // by, b // by, c // by)


def numbers_of(half: Told) -> Half:
    return half_of(half) if isinstance(half, str) else half


def is_equation(half: Told) -> bool:
    """Whether a half-plane says on which line its cell lies."""
    if isinstance(half, str) and not half.endswith(' ='):
        return False
    a, b, _, op = numbers_of(half)
    return op == '=' and bool(a or b)


def equation_of(cell: Sequence[Told]) -> Optional[Told]:
    """The first half-plane of a cell that says on which line it lies; none where the cell may have an area."""
    return next(filter(is_equation, cell), None)


class Table:
    """The bounds of half-planes along a line, within a frame that is a unit larger, and the spans of cells that lie on it.

    A bound has a whole number: it is multiplied by four to the power of `bits`, and rounded down. What divides a bound has no more bits than that,
    so two bounds that differ do so by more than a unit of these numbers, which thus have the order of the bounds."""

    def __init__(self, line: Line, frame: Frame, bits: int) -> None:
        self.line, self.bits = line, bits
        self.places: dict[int, tuple[int, int]] = {}
        # Of each half-plane that is known from where and up to where it may be met.
        self.lows: dict[Told, int] = {}
        self.highs: dict[Told, int] = {}
        self.spans: set[Span] = set()
        x0, y0, x1, y1 = frame
        along, across = ((y0, y1), (x0, x1)) if line.is_upright else ((x0, x1), (y0, y1))
        self.low, self.high = self.number(along[0] - 1, 1), self.number(along[1] + 1, 1)
        sides = [(0, 1, 1 - across[0], '>='), (0, -1, across[1] + 1, '>=')]
        self.low, self.high = self.span([(b, a, c, op) if line.is_upright else (a, b, c, op) for a, b, c, op in sides])

    def number(self, whole: int, by: int) -> int:
        """The number of a bound; an OverflowError where what divides it has more bits."""
        if by >> self.bits:
            raise OverflowError
        number = (whole << 2 * self.bits) // by
        self.places[number] = whole, by
        return number

    def ask(self, halves: Iterable[Told]) -> None:
        """Says of half-planes from where and up to where each may be met: along the line it is where p * u + q is at least 0."""
        is_upright, a, b, c = self.line
        for half in halves:
            p, across, q, op = half_of(half) if isinstance(half, str) else half
            if is_upright:
                p, across = across, p
            if across:
                p, q = p * b - across * a, q * b - across * c
            low, high = self.low, self.high
            if p > 0:
                number = self.number(-q, p)
                low = max(low, number)
                high = min(high, number) if op == '=' else high
            elif p < 0:
                number = self.number(q, -p)
                high = min(high, number)
                low = max(low, number) if op == '=' else low
            elif q < 0 or q and op == '=':
                low = high + 1
            self.lows[half], self.highs[half] = low, high

    def span(self, cell: Sequence[Told]) -> Span:
        """Where a cell's closure lies along the line; an empty one ends before it begins."""
        lows = self.lows
        self.ask([half for half in cell if half not in lows])
        return max(map(lows.__getitem__, cell)), min(map(self.highs.__getitem__, cell))

    def add(self, cell: Sequence[Told]) -> None:
        low, high = self.span(cell)
        if low <= high:
            self.spans.add((low, high))

    def point(self, number: int) -> Point:
        whole, by = self.places[number]
        return self.line.point(Fraction(whole, by) if whole % by else whole // by)


def most_bits(cells: Iterable[list[Half]]) -> int:
    """How many bits what divides a bound along a line may have, where these half-planes meet."""
    return 1 + 2 * max(abs(number).bit_length() for cell in cells for half in cell for number in half[:2])


def ends_of(frame: Frame, cell: list[Half], equation: Half) -> list[Point]:
    """The closure of a cell that lies on a line: its two ends in their order, one point, or nothing."""
    table = Table(line_of(equation), frame, most_bits([cell]))
    table.add(cell)
    ends = {table.point(end) for span in table.spans for end in span}
    return [(Fraction(x), Fraction(y)) for x, y in sorted(ends)]


def tables_of(error: Error, bits: int) -> Optional[dict[Line, Table]]:
    """The same as `bounds_of` says; an OverflowError where what divides a bound has more bits."""
    found: dict[Line, Table] = {}
    known: dict[Told, Table] = {}
    cells: Iterable[Sequence[Told]] = error.cells
    if isinstance(error.cells, Cells):
        cells = error.cells.split()
    for cell in cells:
        equation = cell[0] if cell[0] in known else equation_of(cell)
        if equation is None:
            return None
        if equation not in known:
            line = line_of(numbers_of(equation))
            known[equation] = found[line] = found.get(line) or Table(line, error.frame, bits)
        known[equation].add(cell)
    return found


def bounds_of(error: Error) -> Optional[dict[Line, Table]]:
    """The spans of an error's cells by the lines on which they lie; none where one may have an area."""
    try:
        return tables_of(error, BITS)
    except OverflowError:
        return tables_of(error, most_bits(error.cells))


def stops_in(found: dict[Line, Table]) -> set[Point]:
    """The ends of all cells that lie on lines, also where two of them on one line meet."""
    return {table.point(end) for table in found.values() for end in set().union(*table.spans)}


def merged(spans: Iterable[Span]) -> list[Span]:
    """The same numbers in as few spans as there can be, in their order."""
    out: list[Span] = []
    for low, high in sorted(spans):
        if out and low <= out[-1][1]:
            out[-1] = out[-1][0], max(out[-1][1], high)
        else:
            out.append((low, high))
    return out


def holds(segment: Segment, point: Point) -> bool:
    """Whether a point lies on a segment, whose first end is the lesser one."""
    return segment[0] <= point <= segment[1] and turn(*segment, point) == 0


def may_be_straight(p: Near, q: Near, r: Near) -> bool:
    """Whether three points may lie on one line, by what is nearest to them in double precision: where they may not, they do not."""
    (x, y), (u, v), (s, t) = p, q, r
    room = max(1.0, abs(x), abs(y), abs(u), abs(v), abs(s), abs(t)) * ROOM
    size = abs(u - x) + abs(v - y) + abs(s - x) + abs(t - y) + room
    return abs((u - x) * (t - y) - (v - y) * (s - x)) <= size * room


def may_hold(p: Near, q: Near, point: Near) -> bool:
    """Whether a point may lie on a segment, in the same way."""
    (x, y), (u, v), (s, t) = p, q, point
    room = max(1.0, abs(x), abs(y), abs(u), abs(v)) * ROOM
    return min(x, u) - room <= s <= max(x, u) + room and min(y, v) - room <= t <= max(y, v) + room and may_be_straight(p, q, point)


def near(point: Point) -> Near:
    """A point as it is nearest in double precision."""
    return float(point[0]), float(point[1])


def beside(points: set[Point], segments: list[Segment]) -> list[Point]:
    """The points that lie on none of the segments, in their order."""
    ends = [(segment, near(segment[0]), near(segment[1])) for segment in segments]
    is_held = lambda point, at: any(holds(segment, point) for segment, p, q in ends if may_hold(p, q, at))
    at_ends = {end for segment in segments for end in segment}
    return sorted(point for point in points - at_ends if not is_held(point, near(point)))


def parts_on_lines(found: dict[Line, Table]) -> tuple[list[Segment], list[Point]]:
    """What such cells cover: as few segments as there can be, and the points beside them."""
    ends = [(table.point(low), table.point(high)) for table in found.values() for low, high in merged(table.spans)]
    segments = sorted((min(pair), max(pair)) for pair in ends if pair[0] != pair[1])
    return segments, beside({p for p, q in ends if p == q}, segments)
