"""Well-known binary, as GDAL writes it (ISO or PostGIS's own): the geometry of a feature as lists of numbers, and numbers as text."""
from __future__ import annotations

import math
import struct
import sys
from array import array
from decimal import Decimal
from typing import NamedTuple, Optional

WORDS = {1: 'POINT', 2: 'LINESTRING', 3: 'POLYGON', 4: 'MULTIPOINT', 5: 'MULTILINESTRING', 6: 'MULTIPOLYGON', 7: 'GEOMETRYCOLLECTION',
         8: 'CIRCULARSTRING', 9: 'COMPOUNDCURVE', 10: 'CURVEPOLYGON', 11: 'MULTICURVE', 12: 'MULTISURFACE', 13: 'CURVE', 14: 'SURFACE',
         15: 'POLYHEDRALSURFACE', 16: 'TIN', 17: 'TRIANGLE'}
PARTS = {4: 1, 5: 2, 6: 3}
WITH_Z, WITH_M, WITH_SRID = 0x80000000, 0x40000000, 0x20000000

# x and y of each vertex in turn.
Numbers = array


class Geometry(NamedTuple):
    """A geometry of a source: each part has one list of vertices, or of a polygon one for each ring. A geometry of another word than those of
    points, lines and polygons has no parts but says whether it is empty; has_more says that Z or M stood beside the numbers, is_curved that it
    stands for curves."""

    word: str
    has_more: bool
    is_empty: bool
    parts: list[list[Numbers]]
    is_curved: bool = False


class Reader:
    """Reads a geometry from its bytes; struct.error where they end too early."""

    def __init__(self, data: bytes) -> None:
        self.data, self.at = data, 0

    def head(self) -> tuple[str, int, int]:
        """The order of bytes as struct names it, the code of the word, and how many numbers a vertex has."""
        order = '<' if self.data[self.at:self.at + 1] == b'\1' else '>'
        code, = struct.unpack_from(order + 'I', self.data, self.at + 1)
        self.at += 9 if code & WITH_SRID else 5
        flags, plain = code & 0xE0000000, code & 0x1FFFFFFF
        more = plain // 1000 if plain < 4000 else 0
        return order, plain % 1000, 2 + max((more + 1) // 2, bool(flags & WITH_Z) + bool(flags & WITH_M))

    def count(self, order: str, least_bytes: int) -> int:
        """How many follow; a struct.error where the bytes are too few for so many."""
        number, = struct.unpack_from(order + 'I', self.data, self.at)
        self.at += 4
        if number * least_bytes > len(self.data) - self.at:
            raise struct.error('too few bytes')
        return number

    def vertices(self, order: str, size: int, count: int) -> Numbers:
        """Vertices of so many numbers each, without what stands beside x and y."""
        end = self.at + 8 * size * count
        if end > len(self.data):
            raise struct.error('too few bytes')
        numbers = array('d', self.data[self.at:end])
        self.at = end
        if (order == '<') != (sys.byteorder == 'little'):
            numbers.byteswap()
        if size == 2:
            return numbers
        plain = array('d', bytes(16 * count))
        plain[0::2], plain[1::2] = numbers[0::size], numbers[1::size]
        return plain

    def lists(self, order: str, code: int, size: int) -> list[Numbers]:
        """The lists of a point, a line or a polygon; those without vertices are left out."""
        if code == 1:
            found = [self.vertices(order, size, 1)]
            return [] if found[0][0] != found[0][0] and found[0][1] != found[0][1] else found
        if code == 2:
            found = [self.vertices(order, size, self.count(order, 8 * size))]
        else:
            found = [self.vertices(order, size, self.count(order, 8 * size)) for _ in range(self.count(order, 4))]
            found = found if found and found[0] else []
        return [each for each in found if each]

    def parts(self, order: str, code: int) -> list[list[Numbers]]:
        """The parts of a geometry of several, without those that are empty."""
        found = []
        for _ in range(self.count(order, 5)):
            order, of, size = self.head()
            if of != PARTS[code]:
                raise struct.error('a part of another kind')
            found.append(self.lists(order, of, size))
        return [part for part in found if part]


def word_of(data: Optional[bytes]) -> str:
    """The word of a geometry; nothing where there is none."""
    try:
        return WORDS.get(Reader(data).head()[1], '') if data else ''
    except struct.error:
        return ''


def geometry_of(data: Optional[bytes]) -> Optional[Geometry]:
    """A geometry; none where there are no bytes, or none that are one."""
    if not data:
        return None
    reader = Reader(data)
    try:
        order, code, size = reader.head()
        if code in PARTS:
            parts = reader.parts(order, code)
        elif code in (1, 2, 3):
            parts = [lists] if (lists := reader.lists(order, code, size)) else []
        else:
            return Geometry(WORDS.get(code, 'another geometry'), size > 2, reader.count(order, 0) == 0, [])
    except struct.error:
        return None
    return Geometry(WORDS[code], size > 2, not parts, parts)


def number_text(number: float) -> str:
    """A number of a source with as many digits as say which double it is."""
    if not math.isfinite(number):
        return str(number)
    if not -1 < number < 1:
        text = '%.17G' % number
        return text if 'E' in text or '.' in text else text + '.0'
    return format(Decimal(repr(number)), 'f')


def vertex_text(x: float, y: float) -> str:
    """A vertex of a source, for reading."""
    if x == x and y == y and abs(x) < 1e15 and abs(y) < 1e15 and x == int(x) and y == int(y):
        return '%d %d' % (x, y)
    return '%s %s' % (number_text(x), number_text(y))
