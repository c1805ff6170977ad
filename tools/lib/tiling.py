"""Features cut into tiles: whose subject each feature is, and which others a tile needs beside its subjects."""
from __future__ import annotations

import os
import tempfile
from array import array
from typing import Iterable, Iterator, NamedTuple, Optional

from .grid import REACH, GridError, Place
from .intake import Arrival
from .lines import MOST_BYTES, add_line, feature_remark
from .replies import meet
from .shapes import Counts, form_of

Envelope = tuple[int, int, int, int]
ROUND = 1000
MOST_SQUARES = 4096
CROWDED = -1


class Tile(NamedTuple):
    """The numbers of the features of a tile, ascending, the subjects among them, and the place of its origin on the grid of the whole."""

    features: list[int]
    subjects: set[int]
    origin: Place


class Records:
    """Pieces of bytes in a file, by their numbers from 0."""

    def __init__(self) -> None:
        self.file, self.ends = tempfile.TemporaryFile('w+b'), array('q', [0])

    def add(self, data: bytes) -> None:
        self.file.write(data)
        self.ends.append(self.ends[-1] + len(data))

    def __getitem__(self, number: int) -> bytes:
        start, end = self.ends[number], self.ends[number + 1]
        return os.pread(self.file.fileno(), end - start, start)


class Features:
    """All features in the order of their handles: their envelopes and forms in memory, their numbers and remarks in files. A form is the line
    that adds a feature, with room for the numbers."""

    def __init__(self, tiles: int = 1) -> None:
        self.sides = tuple(array('q') for _ in range(4))
        self.most = tiles * MOST_BYTES
        self.forms: dict[tuple[str, str, Counts], int] = {}
        self.lines_of: list[str] = []
        self.form_of = array('L')
        self.numbers, self.remarks = Records(), Records()

    def __len__(self) -> int:
        return len(self.form_of)

    def form(self, of_class: str, kind: str, counts: Counts) -> int:
        """The number of the form of features of a class with such shapes."""
        number = self.forms.setdefault((of_class, kind, counts), len(self.lines_of))
        if number == len(self.lines_of):
            self.lines_of.append(add_line(of_class, form_of(kind, counts)))
        return number

    def add(self, arrival: Arrival) -> None:
        """Takes a feature; a GridError where it and those before it are more bytes than the tiles can have."""
        kind, counts, numbers = arrival.taken.shape
        xs, ys = numbers[0::2], numbers[1::2]
        for side, number in zip(self.sides, (min(xs), min(ys), max(xs), max(ys))):
            side.append(number)
        self.form_of.append(self.form(arrival.side, kind, counts))
        self.numbers.add(array('q', xs + ys).tobytes())
        self.remarks.add(feature_remark(arrival.feature.fid, arrival.feature.id).encode('utf-8', 'replace'))
        if self.remarks.ends[-1] + self.numbers.ends[-1] // 8 > self.most:
            raise GridError('the features are more bytes than the scripts of the tiles may have: take more tiles')

    def end(self) -> None:
        """All features have come."""
        self.numbers.file.flush()
        self.remarks.file.flush()

    def envelope(self, number: int) -> Envelope:
        x0, y0, x1, y1 = self.sides
        return x0[number], y0[number], x1[number], y1[number]

    def lines(self, number: int, origin: Place) -> tuple[str, str]:
        """The remark line and the line that adds a feature, in units from this origin."""
        x, y = origin
        data = array('q', self.numbers[number])
        half = len(data) // 2
        numbers = [0] * len(data)
        numbers[0::2], numbers[1::2] = [each - x for each in data[:half]], [each - y for each in data[half:]]
        return self.remarks[number].decode(), self.lines_of[self.form_of[number]] % tuple(numbers)


def shared_out(features: Features, numbers: list[int], count: int) -> Iterator[list[int]]:
    """The features in so many groups that differ little in size, by halving what is longer of width and height."""
    if count == 1:
        yield numbers
        return
    low, high = features.sides[:2], features.sides[2:]
    middles = [[low[axis][n] + high[axis][n] for n in numbers] for axis in (0, 1)]
    axis = 0 if not numbers or max(middles[0]) - min(middles[0]) >= max(middles[1]) - min(middles[1]) else 1
    order = [number for _, number in sorted(zip(middles[axis], numbers))]
    half = len(numbers) * (count // 2) // count
    yield from shared_out(features, order[:half], count // 2)
    yield from shared_out(features, order[half:], count - count // 2)


class Squares:
    """The features of groups by the squares of the plane that their envelopes meet; those that meet too many stand apart."""

    def __init__(self, features: Features, groups: list[list[int]]) -> None:
        self.features = features
        extents = sum(sum(side) for side in features.sides[2:]) - sum(sum(side) for side in features.sides[:2])
        self.size = max(1, extents // max(1, len(features)))
        self.group_of = array('l', bytes(array('l').itemsize * len(features)))
        self.wide: list[int] = []
        # The one group that has features in a square, or CROWDED.
        self.group_in: dict[Place, int] = {}
        for group, numbers in enumerate(groups):
            for number in numbers:
                self.put(number, group)

    def met(self, envelope: Envelope) -> Optional[list[Place]]:
        """The squares that an envelope meets; none where they are too many."""
        x0, y0, x1, y1 = (number // self.size for number in envelope)
        if x0 == x1 and y0 == y1:
            return [(x0, y0)]
        if (x1 - x0 + 1) * (y1 - y0 + 1) > MOST_SQUARES:
            return None
        return [(x, y) for x in range(x0, x1 + 1) for y in range(y0, y1 + 1)]

    def put(self, number: int, group: int) -> None:
        self.group_of[number] = group
        squares = self.met(self.features.envelope(number))
        if squares is None:
            self.wide.append(number)
            return
        for square in squares:
            if self.group_in.setdefault(square, group) != group:
                self.group_in[square] = CROWDED

    def crowded(self) -> Iterator[tuple[int, list[Place]]]:
        """The features that share squares with those of other groups, with these squares."""
        for number in range(len(self.features)):
            squares = [square for square in self.met(self.features.envelope(number)) or () if self.group_in[square] == CROWDED]
            if squares:
                yield number, squares

    def visits(self) -> Iterator[tuple[int, int]]:
        """Features with the other groups in which they meet the envelope of a subject."""
        members: dict[Place, list[int]] = {}
        crowded = list(self.crowded())
        for number, squares in crowded:
            for square in squares:
                members.setdefault(square, []).append(number)
        for number, squares in crowded:
            yield from self.groups_met(number, {other for square in squares for other in members[square]})
        for number in self.wide:
            others = range(len(self.features))
            yield from self.groups_met(number, others)
            yield from ((other, self.group_of[number]) for other in others if meet(self.features.envelope(number), self.features.envelope(other)))

    def groups_met(self, number: int, others: Iterable[int]) -> Iterator[tuple[int, int]]:
        own, envelope, group_of = self.group_of[number], self.features.envelope(number), self.group_of
        found = {group_of[other] for other in others if group_of[other] != own and meet(envelope, self.features.envelope(other))}
        return ((number, group) for group in found)


def origin_for(features: Features, numbers: list[int]) -> Place:
    """A place of the whole grid in the middle of the features, from which all lie within the reach."""
    if not numbers:
        return 0, 0
    lows = [min(features.sides[axis][n] for n in numbers) for axis in (0, 1)]
    highs = [max(features.sides[axis + 2][n] for n in numbers) for axis in (0, 1)]
    x, y = ((low + high + ROUND) // (2 * ROUND) * ROUND for low, high in zip(lows, highs))
    if max(highs[0] - x, x - lows[0], highs[1] - y, y - lows[1]) > REACH:
        raise GridError('a tile would be %d by %d units, and the reach is %d each way: take more tiles, or a coarser grid' %
                        (highs[0] - lows[0], highs[1] - lows[1], 2 * REACH))
    return x, y


def tiles_of(features: Features, count: int) -> Iterator[Tile]:
    """The tiles: each feature is a subject of one, and each tile has all that meet its subjects' envelopes."""
    groups = list(shared_out(features, list(range(len(features))), count))
    visitors: list[set[int]] = [set() for _ in groups]
    for number, group in Squares(features, groups).visits():
        visitors[group].add(number)
    for subjects, others in zip(groups, visitors):
        numbers = sorted(others.union(subjects))
        yield Tile(numbers, set(subjects), origin_for(features, numbers))
