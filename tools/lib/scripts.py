"""Features of a source as shapes of a script: what was moved, split or left out, and the classes of layers."""
from __future__ import annotations

import math
import re
import unicodedata
from array import array
from fractions import Fraction
from itertools import accumulate, chain, pairwise
from operator import eq
from typing import Iterable, NamedTuple, Optional, Union

from .axes import Axis
from .bodies import common
from .curves import KINDS as CURVE_KINDS
from .curves import TooFine, linear_of
from .cutting import Uncuttable, pieces_of
from .grid import FAR, REACH, Grid, decimal_text
from .ogr import KINDS, Layer, words_of
from .outlines import Point
from .parts import CutPart
from .shapes import MOST_VERTICES, Flat, List, Shape, fault_of, flat_of, has_clash, kept, segments_of, sides_of
from .wkb import Geometry, geometry_of, vertex_text, word_of

# Letters that no accent makes of one from A to Z, and how they are written without.
LETTERS = str.maketrans({'ä': 'ae', 'ö': 'oe', 'ü': 'ue', 'Ä': 'Ae', 'Ö': 'Oe', 'Ü': 'Ue', 'ß': 'ss', 'æ': 'ae', 'Æ': 'Ae', 'œ': 'oe', 'Œ': 'Oe',
                         'ø': 'o', 'Ø': 'O', 'đ': 'd', 'Đ': 'D', 'ł': 'l', 'Ł': 'L', 'þ': 'th', 'Þ': 'Th', 'ð': 'd', 'ı': 'i'})

LEAST = {'point': 1, 'line': 2, 'polygon': 3}
CURVES = re.compile('CIRCULAR|COMPOUND|CURVE|MULTICURVE|MULTISURFACE')


class Taken(NamedTuple):
    """A shape of a feature, by how much its coordinates moved at most, and what else was done to it; of a feature that was cut which part."""

    shape: Flat
    moved: Fraction
    notes: list[str]
    part: Optional[CutPart] = None


class LeftOut(Exception):
    """Why a feature cannot be one of its class."""


# The shapes of a feature: one, or of a multipoint one for each point; or why there is none.
Outcome = Union[list[Taken], LeftOut]


def transliterated(name: str) -> str:
    """A name with its letters as those from A to Z, where they have such: ä as ae, é as e."""
    plain = unicodedata.normalize('NFC', name).translate(LETTERS)
    return ''.join(letter for letter in unicodedata.normalize('NFKD', plain) if not unicodedata.combining(letter))


def class_name(layer: str, taken: set[str]) -> str:
    """A name of a class for a layer: letters, digits and _, a letter first, 32 at most, and none that is taken."""
    name = re.sub(r'[^A-Za-z0-9_]', '_', transliterated(layer))
    name = (name if re.match('[A-Za-z]', name) else 'l' + name)[:32]
    number = 2
    while name in taken:
        name, number = '%s_%d' % (name[:28], number), number + 1
    return name


def kind_of_layer(layer: Layer) -> Optional[str]:
    """The kind of a layer's features: of its type, or where that leaves it open of the first one that has a kind; where none has one,
    polygon, so that each is told of. None where the layer has no geometries."""
    if layer.type == 'NONE':
        return None
    known = KINDS | CURVE_KINDS
    return known.get(layer.type) or next((known[word] for word in words_of(layer) if word in known), 'polygon')


class Converter:
    """Makes shapes on a grid of the geometries of features."""

    def __init__(self, grid: Grid, is_bounded: bool = True, linearize: float = 0) -> None:
        self.grid = grid
        # How far lines may be from the curves that they stand for; 0 where curves are left out.
        self.linearize = linearize
        self.reach = REACH if is_bounded else FAR
        # Tiles are not told which parts are of one feature.
        self.may_cut = is_bounded
        self.x, self.y = Axis(grid.resolution, grid.x), Axis(grid.resolution, grid.y)

    def outcomes(self, geometries: list[Optional[bytes]], kind: str) -> list[Outcome]:
        """What becomes of features of a class of this kind, by the bytes of their geometries."""
        return [self.outcome(data, kind) for data in geometries]

    def outcome(self, data: Optional[bytes], kind: str) -> Outcome:
        try:
            return self.shapes(data, kind)
        except LeftOut as why:
            return why

    def point_text(self, place: Point) -> str:
        """A point of the plane, for reading."""
        return '%.10g %.10g' % tuple(map(float, self.grid.source_of(*place)))

    def geometry(self, data: Optional[bytes], kind: str) -> Geometry:
        """The geometry of a feature, of the kind that its class has."""
        geometry = geometry_of(data)
        if geometry is None or geometry.is_empty:
            raise LeftOut('it is empty')
        word = geometry.word
        if CURVES.match(word) and (not self.linearize or CURVE_KINDS.get(word) == kind):
            geometry = self.linear(data, word)
            word = geometry.word
        if KINDS.get(word) != kind:
            raise LeftOut('%s is no %s' % (word, kind))
        return geometry

    def linear(self, data: bytes, word: str) -> Geometry:
        """A geometry with curves as lines; a LeftOut where this is not asked for, or is too fine."""
        if not self.linearize:
            raise LeftOut('%s may hold curves: say --linearize with how far lines may be from them' % word)
        try:
            geometry = linear_of(data, self.linearize)
        except TooFine:
            raise LeftOut('an arc of it would have too many vertices: take a larger --linearize') from None
        if geometry is None or geometry.is_empty:
            raise LeftOut('it is empty')
        return geometry._replace(is_curved=True)

    def shapes(self, data: Optional[bytes], kind: str) -> list[Taken]:
        """The shapes of a feature. LeftOut where it has none that is valid."""
        geometry = self.geometry(data, kind)
        notes = ['its Z or M is left out'] if geometry.has_more else []
        notes += ['its curves are lines, at most %g from them' % self.linearize] if geometry.is_curved else []
        if kind != 'point':
            return self.whole_or_cut(*self.shape(geometry.parts, kind), notes)
        notes += ['it is split into %d points' % len(geometry.parts)] if len(geometry.parts) > 1 else []
        return [taken for part in geometry.parts for taken in self.whole_or_cut(*self.shape([part], kind), notes)]

    def whole_or_cut(self, shape: Shape, moved: Fraction, notes: list[str]) -> list[Taken]:
        """The shape as it is written, or where it has too many vertices, its parts."""
        count = sum(len(each) for part in shape.parts for each in part)
        if count <= MOST_VERTICES or not self.may_cut:
            return [Taken(self.checked(shape), moved, notes)]
        self.check_lists(shape)
        try:
            pieces = pieces_of(shape)
        except Uncuttable as why:
            raise LeftOut('it has %d vertices, and a shape has 2,000 at most: %s' % (count, why)) from None
        return [Taken(flat_of(piece.shape), moved, notes, CutPart(number, len(pieces), tuple(piece.cuts))) for number, piece in enumerate(pieces, 1)]

    def shape(self, parts: list[list[array]], kind: str) -> tuple[Shape, Fraction]:
        """The vertices on the grid that say something, and by how much they moved at most."""
        counts = [len(each) // 2 for part in parts for each in part]
        numbers = parts[0][0] if len(counts) == 1 else array('d', chain.from_iterable(chain.from_iterable(parts)))
        xs, ys = numbers[0::2].tolist(), numbers[1::2].tolist()
        if not (all(map(math.isfinite, xs)) and all(map(math.isfinite, ys))):
            self.refuse_vertex(xs, ys)
        (across, of_x), (up, of_y) = self.x.lines(xs), self.y.lines(ys)
        if max(max(across), max(up), -min(across), -min(up)) > self.reach:
            self.refuse_vertex(xs, ys)
        places = list(zip(across, up))
        lists = iter([places[start:end] for start, end in pairwise(accumulate(counts, initial=0))])
        is_ring = kind == 'polygon'
        return Shape(kind, [[said(next(lists), is_ring) for _ in part] for part in parts]), max(of_x, of_y)

    def refuse_vertex(self, xs: list[float], ys: list[float]) -> None:
        """Raises a LeftOut that names the first vertex that is no number or beyond the reach."""
        for x, y in zip(xs, ys):
            if not (math.isfinite(x) and math.isfinite(y)):
                raise LeftOut('its coordinate %s is no number' % vertex_text(x, y))
            if max(abs(self.x.line_of(x)[0]), abs(self.y.line_of(y)[0])) > self.reach:
                raise LeftOut('its vertex %s is beyond the reach of the grid' % vertex_text(x, y))

    def checked(self, shape: Shape) -> Flat:
        """The shape as it is written; a LeftOut where it is not valid."""
        if sum(len(each) for part in shape.parts for each in part) > MOST_VERTICES:
            raise LeftOut(self.fault_text(shape, fault_of(shape)))
        self.check_lists(shape)
        return flat_of(shape)

    def check_lists(self, shape: Shape) -> None:
        """Raises a LeftOut where a list has too few vertices, or sides clash."""
        lists = [each for part in shape.parts for each in part]
        if min(map(len, lists)) < LEAST[shape.kind] or shape.kind == 'polygon' and has_clash(closed_sides(lists)):
            raise LeftOut(self.fault_text(shape, fault_of(shape, sum(map(len, lists)))))

    def fault_text(self, shape: Shape, fault: str) -> str:
        """Why the shape is not valid, in words, with the place in the source's coordinates."""
        word, *numbers = fault.split()
        if word == 'few':
            return '%s %s has too few vertices on the grid' % ('part' if shape.kind == 'line' else 'ring', numbers[0])
        if word == 'many':
            return 'it has %s vertices, and a shape has 2,000 at most' % numbers[0]
        i, j = map(int, numbers)
        s, t = segments_of(shape.parts)[i], segments_of(shape.parts)[j]
        how = 'cross' if word == 'cross' else 'run along each other'
        return 'its segments %d and %d %s at %s' % (i, j, how, self.point_text(common(s, t)[0]))


def said(places: List, is_ring: bool) -> List:
    """The vertices that say something; in a hurry where all do but the last one of a ring."""
    if any(map(eq, places, places[1:])) or is_ring and places[0] != places[-1]:
        return kept(places, is_ring)
    return places[:-1] if is_ring else places


def closed_sides(rings: Iterable[List]) -> list[tuple[int, int, int, int]]:
    """The sides of all rings."""
    return [side for ring in rings for side in sides_of(ring + ring[:1])]


def moved_text(moved: Fraction) -> str:
    return decimal_text(moved) if moved.denominator < 10 ** 12 else '%.6g' % float(moved)
