"""Well-known text of tables as lines of a script take it: in grid units, exactly, and fast where the numbers are plain decimals."""
from __future__ import annotations

import functools
import itertools
import json
import re
import struct
from fractions import Fraction
from typing import Optional

from ..grid import Grid, GridError
from ..ogr import KINDS
from ..scripts import Converter, LeftOut
from ..wkb import PARTS, WORDS

POSITION = re.compile(r'(-?[0-9.]+(?:e[-+]?[0-9]+)?) (-?[0-9.]+(?:e[-+]?[0-9]+)?)')
ONE_POINT = re.compile(r'^MULTIPOINT ?\(\(?([^,()]*)\)?\)$')


def decimals_of(resolution: Fraction) -> int:
    """How many decimals the resolution has, where it is 1, 0.1, 0.01 and so on; else -1."""
    digits = len(str(resolution.denominator)) - 1
    return digits if resolution == Fraction(1, 10 ** digits) else -1


def number_of(text: str) -> Fraction:
    """The number with the fewest decimals that double precision reads as this one."""
    return Fraction(repr(float(text)))


def head_of(code: int) -> bytes:
    return struct.pack('<BI', 1, code)


def vertices_of(vertices: list[list[float]]) -> bytes:
    return struct.pack('<%dd' % (2 * len(vertices)), *itertools.chain(*vertices))


def body_of(code: int, lists: list) -> bytes:
    """What follows the head of a geometry: of a point its vertex, of a line its vertices, of a polygon its rings, of several their parts."""
    if code == 1:
        return vertices_of(lists)
    count = struct.pack('<I', len(lists))
    if code == 2:
        return count + vertices_of(lists)
    if code == 3:
        return count + b''.join(struct.pack('<I', len(ring)) + vertices_of(ring) for ring in lists)
    parts = [[part] if isinstance(part[0], float) else part for part in lists]
    return count + b''.join(head_of(PARTS[code]) + body_of(PARTS[code], part) for part in parts)


def wkb_of(wkt: str) -> Optional[bytes]:
    """Well-known text as a table writes it, in well-known binary; none where it is empty or has Z or M."""
    word, _, body = wkt.partition('(')
    codes = [code for code, known in WORDS.items() if known == word.strip()]
    if not codes or not body:
        return None
    if codes[0] > 6:
        return head_of(codes[0]) + struct.pack('<I', 1)
    brackets = POSITION.sub(lambda found: '[%r,%r]' % (float(found[1]), float(found[2])), '(' + body)
    return head_of(codes[0]) + body_of(codes[0], json.loads(brackets.replace('(', '[').replace(')', ']')))


class Units:
    """The way from the text of a table to the text of a line."""

    def __init__(self, grid: Grid) -> None:
        self.grid = grid
        self.converter = Converter(grid)
        self.converter.may_cut = False
        self.digits = decimals_of(grid.resolution)
        steps = [origin / grid.resolution for origin in (grid.x, grid.y)]
        if any(step.denominator != 1 for step in steps):
            self.digits = -1
        self.steps = [int(step) for step in steps]
        self.rounded = functools.lru_cache(1 << 16)(lambda text, origin: grid.units(number_of(text), origin)[0])

    def number(self, text: str, axis: int) -> int:
        """A coordinate in grid units: by whole numbers where it lies on the grid as it is written, else as the grid rounds it."""
        whole, _, part = text.partition('.')
        if len(part) <= self.digits and 'e' not in text:
            return int(whole + part.ljust(self.digits, '0')) - self.steps[axis]
        return self.rounded(text, (self.grid.x, self.grid.y)[axis])

    def position(self, found: re.Match) -> str:
        return '%d %d' % (self.number(found[1], 0), self.number(found[2], 1))

    def line(self, wkt: str, kind: str) -> str:
        """The shape in grid units; LeftOut where it is none of the kind. topo may still refuse it: then `why` says it in words."""
        text = ONE_POINT.sub(r'POINT(\1)', wkt) if kind == 'point' else wkt
        word = text.partition('(')[0].strip()
        if KINDS.get(word) != kind or word == 'MULTIPOINT' or 'EMPTY' in text:
            raise LeftOut(self.why(wkt, kind, 'it is no %s' % kind))
        return POSITION.sub(self.position, text)

    def why(self, wkt: str, kind: str, reply: str) -> str:
        """Why a shape is left out, in the words of tools/from-ogr; the reply where these find nothing."""
        word = wkt.partition('(')[0].strip()
        if 'EMPTY' not in wkt and word not in WORDS.values():
            return '%s is no %s' % (word, kind)
        try:
            shapes = list(self.converter.shapes(wkb_of(wkt), kind))
        except (LeftOut, GridError) as fault:
            return str(fault)
        return 'it has %d points, and a row is one feature' % len(shapes) if len(shapes) > 1 else reply
