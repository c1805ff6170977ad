"""The fast ways of the readers against the exact one: numbers to lines of the grid, sides that clash, and all through both ways of reading."""
import csv
import os
import random
import re
import shutil
import unittest
from fractions import Fraction
from unittest import mock

from lib.axes import Axis
from lib.grid import Grid
from lib.interpreter import READER
from lib.shapes import first_clash, has_clash, segments_of, sides_of
from lib.wkb import geometry_of
from working import Case

try:
    import numpy as np
    from lib import vectors
except ImportError:
    np = None

STEPS = '1', '0.1', '0.01', '0.001', '0.25', '0.003', '5', '0.0001'
ORIGINS = '500000', '-12345.1', '0', '5400000.125'
ROUNDS = int(os.environ.get('VECTOR_ROUNDS', 300))


def numbers_near(step: Fraction, lot: random.Random) -> list[float]:
    """Numbers that lie on lines of a grid, near them, at halves, near halves, and anywhere."""
    base = lot.choice([lot.uniform(-1e7, 1e7), lot.uniform(-10, 10), lot.uniform(5.3e6, 5.5e6)])
    line = round(base / float(step))
    half = float((line + Fraction(1, 2)) * step)
    near = [float(line * step), half, base, round(base, lot.randint(0, 12))]
    return near + [np.nextafter(each, lot.choice([-1e9, 1e9])).item() for each in near[:2]] if np else near


def exactly(number: float, step: Fraction, origin: Fraction) -> tuple[int, Fraction]:
    """The line nearest to a number, a half upwards, and by how much it moves: by the definition alone."""
    return Grid(step, origin, origin).units(Fraction(repr(number)), origin)


class Numbers(unittest.TestCase):
    def test_lines_of_the_grid(self) -> None:
        lot = random.Random(5)
        for step, origin in ((Fraction(step), Fraction(origin)) for step in STEPS for origin in ORIGINS):
            axis = Axis(step, origin)
            for _ in range(ROUNDS // 10):
                numbers = numbers_near(step, lot)
                lines = [exactly(number, step, origin) for number in numbers]
                self.assertEqual(axis.lines(numbers), ([line for line, _ in lines], max(by for _, by in lines)))
                for number, (line, moved) in zip(numbers, lines):
                    found, by, digits = axis.line_of(number)
                    self.assertEqual((found, Fraction(by, 10 ** digits)), (line, moved))
                    self.assertEqual(axis.lines([number]), ([line], moved))

    @unittest.skipIf(np is None, 'numpy is not installed')
    def test_lines_of_many_numbers(self) -> None:
        lot = random.Random(6)
        for step, origin in ((Fraction(step), Fraction(origin)) for step in STEPS for origin in ORIGINS):
            axis = Axis(step, origin)
            vector = vectors.VectorAxis(axis)
            self.assertTrue(vector.is_able)
            numbers = [number for _ in range(ROUNDS) for number in numbers_near(step, lot)]
            found = vector.lines(np.array(numbers))
            lines = [exactly(number, step, origin) for number in numbers]
            self.assertEqual(found.units.tolist(), [line for line, _ in lines])
            moved: dict[int, Fraction] = {}
            owners = np.arange(len(numbers)) // 7
            vectors.add_moves(moved, found, owners, np.array(numbers), axis)
            for owner in range(owners[-1] + 1):
                self.assertEqual(moved.get(owner, 0), max(by for _, by in lines[7 * owner:7 * owner + 7]))


class Clashes(unittest.TestCase):
    def rings(self) -> list[list[list[tuple[int, int]]]]:
        """Small polygons of one ring or two, with touches, crossings and folds."""
        lot = random.Random(3)
        found: list[list[list[tuple[int, int]]]] = []
        while len(found) < 20 * ROUNDS:
            size = lot.choice([3, 4, 6, 20])
            rings = [[(lot.randint(0, size), lot.randint(0, size)) for _ in range(lot.randint(3, 9))] for _ in range(lot.choice([1, 1, 2]))]
            if all(p != q for ring in rings for p, q in zip(ring, ring[1:] + ring[:1])):
                found.append(rings)
        return found

    def test_sides_that_clash(self) -> None:
        polygons = self.rings()
        expected = [first_clash(segments_of([rings])) is not None for rings in polygons]
        self.assertEqual([has_clash([side for ring in rings for side in sides_of(ring + ring[:1])]) for rings in polygons], expected)
        self.assertGreater(min(expected.count(True), expected.count(False)), len(expected) // 10)

    @unittest.skipIf(np is None, 'numpy is not installed')
    def test_sides_of_many_polygons(self) -> None:
        polygons = self.rings()
        closed = [(number, ring + ring[:1]) for number, rings in enumerate(polygons) for ring in rings]
        x, y = (np.array([place[axis] for _, ring in closed for place in ring]) for axis in (0, 1))
        owner = np.array([number for number, ring in closed for _ in ring])
        lists = np.array([at for at, (_, ring) in enumerate(closed) for _ in ring])
        with mock.patch.object(vectors, 'PAIRS', 1000):
            found = set(vectors.clashing(vectors.sides_of(x, y, owner, lists)).tolist())
        self.assertEqual(found, {number for number, rings in enumerate(polygons) if first_clash(segments_of([rings]))})


class Bytes(unittest.TestCase):
    def test_bytes_that_are_no_geometry(self) -> None:
        """Any bytes are a geometry or none: no other fault, and no wait."""
        lot = random.Random(8)
        good = bytes.fromhex('0106000000010000000103000000010000000400000000000000000000000000000000000000000000000000f03f00000000000000000000000000'
                             '00f03f000000000000f03f00000000000000000000000000000000')
        self.assertEqual(len(geometry_of(good).parts[0][0]), 8)
        for _ in range(20 * ROUNDS):
            data = bytearray(good[:lot.randint(0, len(good))])
            for _ in range(lot.randint(0, 4)):
                if data:
                    data[lot.randrange(min(len(data), 24))] = lot.choice([0, 1, 3, 6, 7, 10, 127, 128, 255])
            for kind in ('polygon', 'line', 'point'):
                found = geometry_of(bytes(data))
                self.assertTrue(found is None or found.is_empty == (not found.parts) or not found.parts)
                if np is not None:
                    vectors.load_of(bytes(data), kind)


def ring_text(cx: float, cy: float, size: float, lot: random.Random, more: str = '') -> str:
    digits = lot.choice([0, 1, 2, 3, 4, 7, 10, 12])
    places = [(round(cx + size * dx * lot.uniform(0.6, 1), digits), round(cy + size * dy * lot.uniform(0.6, 1), digits))
              for dx, dy in ((1, 0), (0.7, 0.7), (0, 1), (-0.7, 0.7), (-1, 0), (0, -1))[:lot.randint(3, 6)]]
    return '(%s)' % ','.join('%r %r%s' % (*place, more) for place in places + places[:1])


@unittest.skipUnless(shutil.which('ogr2ogr'), 'ogr2ogr is not installed (package gdal-bin)')
class Ways(Case):
    """Both ways of reading make the same bytes."""

    def write_shapes(self) -> None:
        lot, texts = random.Random(4), []
        for _ in range(ROUNDS):
            x, y = lot.uniform(499500, 500500), lot.uniform(5399500, 5400500)
            ring, hole = ring_text(x, y, lot.choice([3, 10, 40]), lot), ring_text(x, y, 1, lot)
            texts.append(lot.choice(['POLYGON (%s)' % ring, 'POLYGON (%s,%s)' % (ring, hole), 'POLYGON Z (%s)' % ring_text(x, y, 9, lot, ' 5'),
                                     'POLYGON M (%s)' % ring_text(x, y, 9, lot, ' 5'), 'MULTIPOLYGON ((%s),(%s,%s))' % (ring_text(x + 99, y, 9, lot), ring, hole),
                                     'MULTIPOLYGON Z ((%s))' % ring_text(x, y, 9, lot, ' 1')]))
        texts += ['POLYGON EMPTY', 'MULTIPOLYGON EMPTY', 'LINESTRING (0 0,1 1)', 'POINT (1 2)', 'MULTIPOINT (1 2,3 4)', 'GEOMETRYCOLLECTION EMPTY',
                  'CURVEPOLYGON (CIRCULARSTRING (0 0,4 0,4 4,0 4,0 0))', 'POLYGON ((0 0,9 9,9 0,0 9,0 0))', 'POLYGON ((1e30 0,1e30 1,0 0,1e30 0))', '']
        with open(self.path('shapes.csv'), 'w', encoding='utf-8', newline='') as out:
            rows = csv.writer(out)
            rows.writerow(['text', 'whole', 'real', 'day', 'time', 'WKT'])
            rows.writerows(['N"%d\\' % i if i % 7 else '', i * 3 - 50 if i % 5 else '', i / 7, '2020/01/%02d' % (i % 28 + 1), '2020/01/02 03:04:%02d' % (i % 60), text]
                           for i, text in enumerate(texts))
        made = ['-nlt', 'GEOMETRY', '-a_srs', 'EPSG:25832', '-oo', 'GEOM_POSSIBLE_NAMES=WKT', '-oo', 'AUTODETECT_TYPE=YES', 'shapes.csv']
        for name in ('shapes.gpkg', 'shapes.sqlite'):
            self.run_words(['ogr2ogr', '-f', {'g': 'GPKG', 's': 'SQLite'}[name[7]], name, *made])

    def through(self, way: str, *words: str) -> tuple:
        with mock.patch.dict(os.environ, {READER: way}):
            done = self.tool('from-ogr', *words, '--table', 'table.csv')
        with open(self.path('table.csv'), encoding='utf-8', newline='') as table:
            # (how far a slow run is depends on the clock)
            told = re.sub(r'^[0-9,]+ of [0-9,]+ features\n', '', done.told, flags=re.M)
            return done.status, done.out, told, table.read()

    def test_both_ways_give_the_same_bytes(self) -> None:
        self.write_shapes()
        fields = ['text', 'whole', 'real', 'day', 'time']
        for number, (source, grid) in enumerate((source, grid) for source in ('shapes.gpkg', 'shapes.sqlite') for grid in ('0.001', '0.25', '3')):
            words = [source, '--grid', grid, '--origin', '500000', '5400000', '--id', fields[number % 5]]
            found = [self.through(way, *words) for way in ('bindings', 'programs')]
            self.assertEqual(found[0], found[1])
            self.assertEqual(found[0][0], 1)
            self.assertGreater(found[0][1].count('\nby import add '), ROUNDS // 4)

    def text(self, name: str) -> str:
        with open(self.path(name), encoding='utf-8') as text:
            return text.read()

    def test_tiles_by_both_ways(self) -> None:
        self.write_shapes()
        texts = []
        for way in ('bindings', 'programs'):
            with mock.patch.dict(os.environ, {READER: way}):
                self.assertEqual(self.tool('tiles', 'split', 'shapes.gpkg', '--grid', '0.01', '--tiles', '3', '--into', way, '--origin', '500000', '5400000').status, 1)
            texts.append([self.text('%s/00%d.topo' % (way, number)) for number in (1, 2, 3)])
        self.assertEqual(texts[0], texts[1])


if __name__ == '__main__':
    unittest.main()
