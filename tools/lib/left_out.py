"""The features of a source that a script left out: which, why, and where they are about."""
from __future__ import annotations

import math
import struct
from fractions import Fraction
from typing import Iterator, Optional

from .grid import Grid
from .news import LeftOut
from .ogr import Layer, batches_of
from .replies import Frame
from .tables import COLUMNS, Record, rows_of
from .wkb import Reader

NOTE = 'left out: '
# Geometries of vertices alone, of lists of vertices, and of other geometries, by their codes.
OF_VERTICES, OF_LISTS, OF_OTHERS = {2, 8}, {3, 17}, {4, 5, 6, 7, 9, 10, 11, 12, 15, 16}
DEEPEST = 32


def numbers_in(reader: Reader, depth: int = 0) -> Iterator[float]:
    """x and y of all vertices of a geometry of any word in turn; a struct.error where the bytes are none."""
    order, code, size = reader.head()
    if code == 1:
        yield from reader.vertices(order, size, 1)
    elif code in OF_VERTICES:
        yield from reader.vertices(order, size, reader.count(order, 8 * size))
    elif code in OF_LISTS:
        for _ in range(reader.count(order, 4)):
            yield from reader.vertices(order, size, reader.count(order, 8 * size))
    elif code in OF_OTHERS and depth < DEEPEST:
        for _ in range(reader.count(order, 5)):
            yield from numbers_in(reader, depth + 1)


def side_of(numbers: list[float], grid: Grid, origin: Fraction) -> tuple[int, int]:
    """The least and the greatest line of the grid between which numbers lie."""
    ideal = [(Fraction(number) - origin) / grid.resolution for number in (min(numbers), max(numbers))]
    return math.floor(ideal[0]), math.ceil(ideal[1])


def frame_of(data: Optional[bytes], grid: Grid) -> Optional[Frame]:
    """The frame of a geometry on the grid, grown by the longer of its sides, since a curve may go beyond its vertices; none of an empty one."""
    try:
        numbers = list(numbers_in(Reader(data))) if data else []
    except struct.error:
        return None
    if not numbers or not all(map(math.isfinite, numbers)):
        return None
    (x0, x1), (y0, y1) = side_of(numbers[0::2], grid, grid.x), side_of(numbers[1::2], grid, grid.y)
    more = max(x1 - x0, y1 - y0)
    return x0 - more, y0 - more, x1 + more, y1 + more


def frames_in(layer: Layer, fids: set[int], grid: Grid) -> dict[int, Frame]:
    """The frames of features of a layer by their numbers."""
    wanted = ((feature.fid, data) for batch in batches_of(layer) for feature, data in zip(batch.features, batch.geometries) if feature.fid in fids)
    frames = ((fid, frame_of(data, grid)) for fid, data in wanted)
    return {fid: frame for fid, frame in frames if frame is not None}


def left_out_of(table: str, layers: list[Layer], grid: Grid) -> list[LeftOut]:
    """The features that a table of tools/from-ogr says were left out."""
    rows = [row for row in rows_of(table, COLUMNS, True) if not row['handle']]
    frames: dict[tuple[str, int], list[Frame]] = {}
    for layer in layers:
        fids = {int(row['fid']) for row in rows if row['layer'] == layer.name}
        for fid, frame in frames_in(layer, fids, grid).items() if fids else ():
            frames.setdefault((layer.name, fid), []).append(frame)
    return [LeftOut(name_of(row), row['note'].removeprefix(NOTE), frames.get((row['layer'], int(row['fid'])), [])) for row in rows]


def name_of(row: Record) -> str:
    return '%s %s%s' % (row['layer'], row['fid'], ' (%s)' % row['id'] if row['id'] else '')
