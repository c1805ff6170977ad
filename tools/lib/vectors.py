"""The shapes of many features at once, in numpy: what a Converter makes of each, and for all that is not plain the Converter itself."""
from __future__ import annotations

from fractions import Fraction
from itertools import chain, islice
from typing import NamedTuple, Optional

import numpy as np

from .axes import FINER, MOST_DIGITS, MOST_WHOLE, Axis
from .grid import Grid
from .ogr import KINDS
from .scripts import LEAST, Converter, Outcome, Taken
from .shapes import MOST_VERTICES, Counts, Flat
from .wkb import geometry_of

# How near to the middle between two lines a number of 16 or 17 digits is left to whole numbers; that of a product of two doubles
# below 2^42 is right to 2^-11.
NEAR = 2.0 ** -9
MOST_SURE = 2.0 ** 42
# No coordinate is farther from the origin, so that a turn of three vertices is below 2^62.
FARTHEST = 1 << 29
# Lines farther than this are not told apart.
BEYOND = 1 << 60
# So many pairs of sides are looked at together.
PAIRS = 1 << 19


class Load(NamedTuple):
    """A geometry as it is read: how many vertices each list of each part has, the bytes of their numbers, and whether Z or M stood there."""

    counts: Counts
    data: bytes
    has_more: bool


class Moves(NamedTuple):
    """By how much numbers moved to the grid, of those that did: in whole numbers of 10^-digits, by the place of each number."""

    at: np.ndarray
    by: np.ndarray
    digits: int


class Found(NamedTuple):
    """The lines nearest to numbers; the numbers that have yet to be read from their texts to say by how much they moved, and about how much."""

    units: np.ndarray
    moves: list[Moves]
    long: np.ndarray
    about: np.ndarray


def load_of(data: Optional[bytes], kind: str) -> Optional[Load]:
    """What is read of a geometry that is of the kind and of one shape; none where it is another, or has a ring that is not closed."""
    load = plain_load_of(data, kind) if data else None
    if load is not None or not data:
        return load
    geometry = geometry_of(data)
    if geometry is None or geometry.is_empty or KINDS.get(geometry.word) != kind or kind == 'point' and len(geometry.parts) > 1:
        return None
    if kind == 'polygon' and any(each[:2] != each[-2:] for part in geometry.parts for each in part):
        return None
    counts = tuple(tuple(len(each) // 2 for each in part) for part in geometry.parts)
    return Load(counts, b''.join(each.tobytes() for part in geometry.parts for each in part), geometry.has_more)


def plain_load_of(data: bytes, kind: str) -> Optional[Load]:
    """The same of a polygon of one part, without Z and M, as most are; none of all others."""
    if kind != 'polygon' or data[:5] != b'\1\3\0\0\0':
        return None
    at, counts, pieces = 9, [], []
    for _ in range(int.from_bytes(data[5:9], 'little')):
        count = int.from_bytes(data[at:at + 4], 'little')
        end = at + 4 + 16 * count
        if not count or end > len(data) or data[at + 4:at + 20] != data[end - 16:end]:
            return None
        counts.append(count)
        pieces.append(data[at + 4:end])
        at = end
    return Load((tuple(counts),), pieces[0] if len(pieces) == 1 else b''.join(pieces), False) if counts else None


class VectorAxis:
    """Finds lines of an axis for many numbers at once."""

    def __init__(self, axis: Axis) -> None:
        self.axis = axis
        self.is_able = axis.digits is not None and max(abs(axis.first), axis.step) * 10 ** FINER < MOST_WHOLE

    def lines(self, numbers: np.ndarray) -> Found:
        units, rest = np.zeros(len(numbers), np.int64), np.arange(len(numbers))
        moves: list[Moves] = []
        for digits in range(self.axis.digits, min(self.axis.digits + FINER, MOST_DIGITS) + 1):
            scale = 10.0 ** digits
            whole = np.rint(numbers[rest] * scale)
            fits = (whole / scale == numbers[rest]) & (np.abs(whole) < MOST_WHOLE)
            self.settle(units, moves, rest[fits], whole[fits].astype(np.int64), digits)
            rest = rest[~fits]
            if not len(rest):
                break
        return Found(units, moves, rest, self.settle_long(units, numbers, rest))

    def settle(self, units: np.ndarray, moves: list[Moves], at: np.ndarray, whole: np.ndarray, digits: int) -> None:
        """Puts down the lines of numbers that are whole numbers of 10^-digits, and by how much they moved."""
        finer = 10 ** (digits - self.axis.digits)
        offset, step = whole - self.axis.first * finer, self.axis.step * finer
        if step == 1:
            units[at] = offset
            return
        line = (2 * offset + step) // (2 * step)
        units[at] = line
        by = np.abs(offset - line * step)
        if by.any():
            moves.append(Moves(at, by, digits))

    def settle_long(self, units: np.ndarray, numbers: np.ndarray, rest: np.ndarray) -> np.ndarray:
        """Puts down the lines of numbers with more digits; about by how much of a step each moved."""
        scaled = numbers[rest] * float(self.axis.scale)
        ideal = (scaled - float(self.axis.first)) / float(self.axis.step)
        line = np.floor(ideal + 0.5)
        is_sure = (np.abs(ideal - np.floor(ideal) - 0.5) > NEAR) & (np.abs(scaled) < MOST_SURE) & (np.abs(ideal) < MOST_SURE)
        units[rest[is_sure]] = line[is_sure].astype(np.int64)
        about = np.where(is_sure, np.abs(ideal - line), 0.5)
        for place, number in zip(rest[~is_sure].tolist(), numbers[rest[~is_sure]].tolist()):
            units[place] = min(max(self.axis.line_of(number)[0], -BEYOND), BEYOND)
        return about


def most_of(owners: np.ndarray, amounts: np.ndarray) -> tuple[np.ndarray, np.ndarray]:
    """The owners, which ascend, once each, and the greatest amount of each."""
    starts = np.flatnonzero(np.diff(owners, prepend=-1))
    return owners[starts], np.maximum.reduceat(amounts, starts)


def add_moves(moved: dict[int, Fraction], found: Found, owners: np.ndarray, numbers: np.ndarray, axis: Axis) -> None:
    """Puts down by how much each owner's numbers moved at most."""
    for at, by, digits in found.moves:
        for owner, most in zip(*(each.tolist() for each in most_of(owners[at], by))):
            if most:
                moved[owner] = max(moved.get(owner, Fraction(0)), Fraction(most, 10 ** digits))
    if not len(found.long):
        return
    of = owners[found.long]
    known, most = most_of(of, found.about)
    near = found.about >= most[np.searchsorted(known, of)] - NEAR
    for owner, number in zip(of[near].tolist(), numbers[found.long[near]].tolist()):
        _, far, finer = axis.line_of(number)
        if far:
            moved[owner] = max(moved.get(owner, Fraction(0)), Fraction(far, 10 ** finer))


class Sides(NamedTuple):
    """Sides by their owners and by the x and y of their lesser end, then of their greater one; in the order of owners and of ends."""

    owner: np.ndarray
    ax: np.ndarray
    ay: np.ndarray
    bx: np.ndarray
    by: np.ndarray


def sides_of(x: np.ndarray, y: np.ndarray, owner: np.ndarray, lists: np.ndarray) -> Sides:
    """The sides between vertices that follow each other in one list."""
    at = np.flatnonzero(lists[1:] == lists[:-1])
    px, py, qx, qy = x[at], y[at], x[at + 1], y[at + 1]
    turned = (qx < px) | (qx == px) & (qy < py)
    px, qx = np.where(turned, qx, px), np.where(turned, px, qx)
    py, qy = np.where(turned, qy, py), np.where(turned, py, qy)
    order = np.lexsort((px, owner[at]))
    return Sides(*(each[order] for each in (owner[at], px, py, qx, qy)))


def clashing(sides: Sides) -> np.ndarray:
    """The owners of sides that clash, once or more often each."""
    found = [np.zeros(0, np.int64)]
    width = int(sides.bx.max() - sides.ax.min()) + 1 if len(sides.ax) else 1
    low = sides.ax.min() if len(sides.ax) else 0
    keys = sides.owner * width + (sides.ax - low)
    first = np.arange(1, len(keys) + 1)
    counts = np.searchsorted(keys, sides.owner * width + (sides.bx - low), side='right') - first
    ends = np.cumsum(counts)
    start = 0
    while start < len(keys):
        stop = max(start + 1, int(np.searchsorted(ends, (ends[start - 1] if start else 0) + PAIRS, side='right')))
        i = np.repeat(np.arange(start, stop), counts[start:stop])
        j = np.arange(len(i)) - np.repeat(ends[start:stop] - counts[start:stop] - (ends[start - 1] if start else 0), counts[start:stop]) + i + 1
        found.append(sides.owner[i[clash(sides, i, j)]])
        start = stop
    return np.concatenate(found)


def clash(sides: Sides, i: np.ndarray, j: np.ndarray) -> np.ndarray:
    """The places of the pairs that clash, of pairs whose ranges of x meet."""
    _, ax, ay, bx, by = sides
    low, high = np.minimum(ay, by), np.maximum(ay, by)
    near = np.flatnonzero((low[i] <= high[j]) & (low[j] <= high[i]))
    i, j = i[near], j[near]
    px, py, ux, uy = ax[i], ay[i], bx[i] - ax[i], by[i] - ay[i]
    qx, qy, vx, vy = ax[j] - px, ay[j] - py, bx[j] - ax[j], by[j] - ay[j]
    of_c, of_d = np.sign(ux * qy - uy * qx), np.sign(ux * (qy + vy) - uy * (qx + vx))
    of_a, of_b = np.sign(vy * qx - vx * qy), np.sign(vx * (uy - qy) - vy * (ux - qx))
    cross = (of_c * of_d < 0) & (of_a * of_b < 0)
    long = (ax[j] < bx[i]) & (ux > 0) | (ux == 0) & (np.maximum(ay[i], ay[j]) < np.minimum(by[i], by[j]))
    return near[cross | (of_c == 0) & (of_d == 0) & long]


class VectorConverter(Converter):
    """Makes shapes of many features at once."""

    def __init__(self, grid: Grid, is_bounded: bool = True, linearize: float = 0) -> None:
        super().__init__(grid, is_bounded, linearize)
        self.axes = VectorAxis(self.x), VectorAxis(self.y)

    def outcomes(self, geometries: list[Optional[bytes]], kind: str) -> list[Outcome]:
        loads = [load_of(data, kind) for data in geometries] if all(axis.is_able for axis in self.axes) else []
        known = [number for number, load in enumerate(loads) if load]
        with np.errstate(all='ignore'):
            taken = self.taken([loads[number] for number in known], kind) if known else []
        found = dict(zip(known, taken))
        return [[found[number]] if found.get(number) else self.outcome(data, kind) for number, data in enumerate(geometries)]

    def taken(self, loads: list[Load], kind: str) -> list[Optional[Taken]]:
        """What is taken of each geometry; none where its Converter has to say."""
        numbers = np.frombuffer(b''.join(load.data for load in loads), '<f8').reshape(-1, 2)
        counts = np.array([count for load in loads for part in load.counts for count in part])
        owners = np.repeat(np.arange(len(loads)), [sum(map(len, load.counts)) for load in loads])
        lists = np.repeat(np.arange(len(counts)), counts)
        owner = owners[lists]
        is_finite = np.isfinite(numbers).all(axis=1)
        columns = [np.where(is_finite, numbers[:, axis], 0.0) for axis in (0, 1)]
        found = [axis.lines(column) for axis, column in zip(self.axes, columns)]
        x, y = (each.units for each in found)
        is_odd = np.zeros(len(loads), bool)
        is_odd[owner[~is_finite]] = True
        is_odd[owner[np.maximum(np.abs(x), np.abs(y)) > min(self.reach, FARTHEST)]] = True
        kept = np.ones(len(x), bool)
        kept[1:] = (lists[1:] != lists[:-1]) | (x[1:] != x[:-1]) | (y[1:] != y[:-1])
        self.mark_invalid(is_odd, kind, x[kept], y[kept], owner[kept], lists[kept], owners)
        moved: dict[int, Fraction] = {}
        for axis, each, column in zip(self.axes, found, columns):
            add_moves(moved, each, owner, column, axis.axis)
        return flats(loads, kind, is_odd, np.stack([x[kept], y[kept]], axis=1), np.bincount(lists[kept], minlength=len(counts)), moved)

    def mark_invalid(self, is_odd: np.ndarray, kind: str, x: np.ndarray, y: np.ndarray, owner: np.ndarray, lists: np.ndarray,
                     owners: np.ndarray) -> None:
        """Marks the owners whose shapes have too few or too many vertices, or sides that clash."""
        counts = np.bincount(lists, minlength=len(owners)) - (kind == 'polygon')
        is_odd[owners[counts < LEAST[kind]]] = True
        is_odd[np.bincount(owners, counts, len(is_odd)) > MOST_VERTICES] = True
        if kind == 'polygon':
            plain = ~is_odd[owner]
            is_odd[clashing(sides_of(x[plain], y[plain], owner[plain], lists[plain]))] = True


def flats(loads: list[Load], kind: str, is_odd: np.ndarray, places: np.ndarray, counts: np.ndarray, moved: dict[int, Fraction]) -> list[Optional[Taken]]:
    """The shapes of all that are plain."""
    numbers, found, end = places.ravel().tolist(), [], 0
    of_lists = iter(counts.tolist())
    zero, note = Fraction(0), ['its Z or M is left out']
    for number, (load, odd) in enumerate(zip(loads, is_odd.tolist())):
        kept = tuple(tuple(islice(of_lists, len(part))) for part in load.counts)
        start, end = end, end + 2 * sum(chain.from_iterable(kept))
        found.append(None if odd else Taken(Flat(kind, kept, numbers[start:end]), moved.get(number, zero), note if load.has_more else []))
    return found
