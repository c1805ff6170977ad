"""Geometries rounded once to double precision, valid where they are polygons, and layers of them as GeoPackage or GeoJSON."""
from __future__ import annotations

import csv
import json
import math
import os
import re
import shutil
from typing import NamedTuple, Optional, Sequence, TextIO, Union
from xml.sax.saxutils import escape, quoteattr

from .cells import Cover, closures_of, cover_of_error
from .grid import Grid, Place
from .ogr import run
from .outlines import Point, doubled_area, turn
from .outputs import binary_output
from .replies import Error
from .shapes import first_clash, near_pairs

Position = tuple[float, float]
List = list[Position]
Field = Union[str, int, float, None]

TYPES = {'error_polygons': 'MultiPolygon', 'error_lines': 'MultiLineString', 'error_points': 'MultiPoint', 'gaps': 'MultiPolygon',
         'perimeter': 'MultiLineString', 'dirty': 'Unknown', 'fixes': 'Unknown'}


class Geometry(NamedTuple):
    """A geometry of the kind polygon, line or point: polygons as lists of rings, lines as lists of positions, points."""

    kind: str
    parts: list


class Rounding:
    """Puts points of a grid into the source's coordinates, each number rounded once."""

    def __init__(self, grid: Grid):
        self.grid = grid

    def position(self, point: Point) -> Position:
        x, y = self.grid.source_of(*point)
        return float(x), float(y)

    def line(self, points: Sequence[Point]) -> List:
        out = [self.position(point) for point in points]
        return [p for i, p in enumerate(out) if i == 0 or p != out[i - 1]]

    def ring(self, points: list[Point]) -> List:
        out = self.line(points)
        return out[:-1] if len(out) > 1 and out[0] == out[-1] else out

    def cell(self, corners: list[Point]) -> Geometry:
        """A convex polygon, a segment or a point; where the rounding leaves no polygon, what it leaves."""
        hull = hull_of([self.position(point) for point in corners])
        if len(hull) > 2:
            return Geometry('polygon', [[hull]])
        return Geometry('line', [hull]) if len(hull) == 2 else Geometry('point', hull)

    def cover(self, cover: Cover) -> Optional[list[Geometry]]:
        """What cells cover, as a geometry of each kind; none where a polygon would not be valid once rounded."""
        polygons = [[self.ring(ring) for ring in [outline.shell] + outline.holes] for outline in cover.polygons]
        if polygons and not are_valid(polygons):
            return None
        lines = [line for line in map(self.line, cover.lines) if len(line) > 1]
        points = [self.position(point) for point in cover.points]
        found = Geometry('polygon', polygons), Geometry('line', lines), Geometry('point', points)
        return [geometry for geometry in found if geometry.parts]


def whole(rings: list[List]) -> list[list[Place]]:
    """The rings in whole numbers, all scaled by one power of two."""
    ratios = [[(x.as_integer_ratio(), y.as_integer_ratio()) for x, y in ring] for ring in rings]
    scale = max((q for ring in ratios for pair in ring for _, q in pair), default=1)
    return [[(x[0] * (scale // x[1]), y[0] * (scale // y[1])) for x, y in ring] for ring in ratios]


def are_valid(polygons: list[list[List]]) -> bool:
    """Whether polygons are valid that were so before their vertices were rounded: none has gone over a side, or onto one of its ring."""
    rings = whole([ring for polygon in polygons for ring in polygon])
    shells = [i == 0 for polygon in polygons for i in range(len(polygon))]
    if any(len(ring) < 3 or (doubled_area(ring) > 0) != is_shell for ring, is_shell in zip(rings, shells)):
        return False
    sides = [[(p, q) for p, q in zip(ring, ring[1:] + ring[:1])] for ring in rings]
    return not any(meets_itself(ring) for ring in sides) and first_clash([side for ring in sides for side in ring]) is None


def meets_itself(ring: list[tuple[Place, Place]]) -> bool:
    """Whether a vertex of a ring lies on another side of it than the two that it ends."""
    between = lambda p, side: p not in side and turn(side[0], side[1], p) == 0 and min(side) < p < max(side)
    return any(between(p, ring[j]) or between(q, ring[i]) for i, j in near_pairs(ring) for p, q in [(ring[i][0], ring[j][0])])


def hull_of(positions: List) -> List:
    """The corners of the convex hull, counter-clockwise: two where all lie on one line, one where all are one."""
    ends = sorted(set(positions))
    numbers = dict(zip(ends, whole([ends])[0]))
    half: list[List] = []
    for order in (ends, ends[::-1]):
        chain: List = []
        for p in order:
            while len(chain) > 1 and turn(numbers[chain[-2]], numbers[chain[-1]], numbers[p]) <= 0:
                chain.pop()
            chain.append(p)
        half.append(chain[:-1])
    return half[0] + half[1] if len(ends) > 1 else ends


def geometries_of(error: Error, rounding: Rounding, by_cell: bool) -> tuple[list[tuple[int, Geometry]], bool]:
    """The geometries of an error, with the number of the cell where each has one; and whether they were dissolved as asked."""
    return geometries_in(error, None if by_cell else cover_of_error(error), rounding)


def geometries_in(error: Error, cover: Optional[Cover], rounding: Rounding) -> tuple[list[tuple[int, Geometry]], bool]:
    """The same of an error whose cells cover this; by cells where no cover is given."""
    by_cell = cover is None
    dissolved = None if by_cell else rounding.cover(cover)
    if dissolved is None:
        return [(number, rounding.cell(corners)) for number, corners in enumerate(closures_of(error), 1)], by_cell
    return [(0, geometry) for geometry in dissolved], True


def size_of(geometry: Geometry) -> list[float]:
    """The area of polygons, or the length of lines, as a list; an empty one of points."""
    if geometry.kind == 'polygon':
        return [sum(area_of(ring) for rings in geometry.parts for ring in rings)]
    if geometry.kind == 'line':
        return [sum(math.dist(p, q) for line in geometry.parts for p, q in zip(line, line[1:]))]
    return []


def area_of(ring: List) -> float:
    """Under 0 where the ring goes clockwise; far from the origin as exact as near to it."""
    x, y = ring[0]
    return sum((p[0] - x) * (q[1] - y) - (q[0] - x) * (p[1] - y) for p, q in zip(ring, ring[1:] + ring[:1])) / 2


# ---- written

def list_text(positions: List) -> str:
    return '(%s)' % ','.join('%r %r' % position for position in positions)


def wkt_of(geometry: Geometry) -> str:
    if geometry.kind == 'point':
        return 'MULTIPOINT (%s)' % ','.join(list_text([position]) for position in geometry.parts)
    if geometry.kind == 'line':
        return 'MULTILINESTRING (%s)' % ','.join(map(list_text, geometry.parts))
    return 'MULTIPOLYGON (%s)' % ','.join('(%s)' % ','.join(list_text(ring + ring[:1]) for ring in rings) for rings in geometry.parts)


def json_of(geometry: Geometry) -> dict:
    """A geometry as GeoJSON has it."""
    kind = {'point': 'MultiPoint', 'line': 'MultiLineString', 'polygon': 'MultiPolygon'}[geometry.kind]
    parts = [[ring + ring[:1] for ring in rings] for rings in geometry.parts] if geometry.kind == 'polygon' else geometry.parts
    return {'type': kind, 'coordinates': parts}


def crs_name(crs: str) -> str:
    """The name of a coordinate system as GeoJSON has it, where its text ends with its number."""
    number = re.search(r'ID\["(\w+)",(\d+)\]\]$', crs)
    return 'urn:ogc:def:crs:%s::%s' % number.groups() if number else ''


class JsonLayer:
    """A layer as a file of GeoJSON."""

    def __init__(self, out: TextIO, name: str, fields: dict[str, str], crs: str):
        self.fields, self.file = fields, out
        of = {'crs': {'type': 'name', 'properties': {'name': crs_name(crs)}}} if crs_name(crs) else {}
        self.file.write('%s, "features": [' % json.dumps(dict(type='FeatureCollection', name=name, **of))[:-1])
        self.between = '\n'

    def add(self, row: list[Field], geometry: Geometry) -> None:
        feature = {'type': 'Feature', 'properties': {name: None if cell == '' else cell for name, cell in zip(self.fields, row)}, 'geometry': json_of(geometry)}
        self.file.write(self.between + json.dumps(feature, ensure_ascii=False))
        self.between = ',\n'

    def close(self) -> None:
        self.file.write('\n]}\n')


class TextLayer:
    """A layer as a table with well-known text, which ogr2ogr reads."""

    def __init__(self, out: TextIO, name: str, fields: dict[str, str], crs: str):
        self.file = out
        self.rows = csv.writer(self.file)
        self.rows.writerow(list(fields) + ['geometry'])

    def add(self, row: list[Field], geometry: Geometry) -> None:
        self.rows.writerow(row + [wkt_of(geometry)])

    def close(self) -> None:
        self.file.flush()


def vrt_of(layers: dict[str, dict[str, str]], folder: str, crs: str) -> str:
    """What tells ogr2ogr of the tables: their files, their columns and the coordinate system."""
    text = ['<OGRVRTDataSource>']
    for layer, fields in layers.items():
        text += ['<OGRVRTLayer name="%s"><SrcDataSource>%s</SrcDataSource>' % (layer, escape(os.path.join(folder, layer + '.csv'))),
                 '<GeometryType>wkb%s</GeometryType>' % TYPES[layer], '<LayerSRS>%s</LayerSRS>' % escape(crs) if crs else '',
                 '<OpenOptions><OOI key="EMPTY_STRING_AS_NULL">YES</OOI></OpenOptions><GeometryField encoding="WKT" field="geometry"/>']
        text += ['<Field name=%s type="%s"/>' % (quoteattr(name), type) for name, type in fields.items()] + ['</OGRVRTLayer>']
    return ''.join(text + ['</OGRVRTDataSource>'])


def write_geopackage(layers: dict[str, dict[str, str]], folder: str, crs: str, out: str) -> None:
    """Lets ogr2ogr make a GeoPackage of the tables in the folder; it takes the place of an old one when it is whole."""
    source, made = os.path.join(folder, 'layers.vrt'), os.path.join(folder, 'made.gpkg')
    with open(source, 'w', encoding='utf-8') as file:
        file.write(vrt_of(layers, folder, crs))
    run(['ogr2ogr', '-f', 'GPKG', made, source])
    with open(made, 'rb') as whole_file, binary_output(out) as beside:
        shutil.copyfileobj(whole_file, beside, 1 << 20)
