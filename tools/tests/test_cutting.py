"""Lines and polygons of too many vertices: parts that are exactly the whole, and errors that are those of the whole again."""
import csv
import math
import random
import unittest
from fractions import Fraction
from unittest import mock

from lib import cutting
from lib.cutting import Uncuttable, pieces_of
from lib.outlines import doubled_area
from lib.shapes import Shape, fault_of
from working import PROGRAM, TOOLS, Case, polygon, rectangle

FEW = 12


def star(count: int, radius: int, seed: int, at: tuple[int, int] = (0, 0)) -> list[tuple[int, int]]:
    """A ring that goes round a place once, as near to it and as far from it as it happens."""
    lot = random.Random(seed)
    ways = [(2 * math.pi * number / count, radius * lot.uniform(0.4, 1)) for number in range(count)]
    return [(at[0] + round(far * math.cos(angle)), at[1] + round(far * math.sin(angle))) for angle, far in ways]


def square(x: int, y: int, side: int) -> list[tuple[int, int]]:
    return [(x, y), (x + side, y), (x + side, y + side), (x, y + side)]


def is_inside(rings: list, x: float, y: float) -> bool:
    """Whether a point is inside, by the sides that a ray to the east meets."""
    odd = False
    for ring in rings:
        for (px, py), (qx, qy) in zip(ring, ring[1:] + ring[:1]):
            odd ^= (py <= y) != (qy <= y) and ((qx - px) * (y - py) > (qy - py) * (x - px)) == (qy > py)
    return odd


def rings_in(shape: Shape) -> list:
    return [ring for part in shape.parts for ring in part]


def area(shape: Shape) -> Fraction:
    areas = [abs(Fraction(doubled_area(ring))) * (-1 if number else 1) for part in shape.parts for number, ring in enumerate(part)]
    return sum(areas, Fraction(0))


@mock.patch.object(cutting, 'MOST_VERTICES', FEW)
class Polygons(unittest.TestCase):
    def check(self, parts: list) -> int:
        """How many pieces there are; each is valid and has few vertices, and together they are the whole."""
        whole = Shape('polygon', parts)
        self.assertIsNone(fault_of(whole))
        pieces = pieces_of(whole)
        self.assertEqual(sum(area(piece.shape) for piece in pieces), area(whole))
        known = {place for ring in rings_in(whole) for place in ring}
        lot = random.Random(3)
        for piece in pieces:
            rings = rings_in(piece.shape)
            self.assertIsNone(fault_of(piece.shape))
            self.assertLessEqual(sum(map(len, rings)), FEW)
            self.assertTrue(known.issuperset(place for ring in rings for place in ring))
            self.assertTrue(known.issuperset(end for cut in piece.cuts for end in cut))
        xs, ys = zip(*known)
        for _ in range(40):
            point = lot.uniform(min(xs), max(xs)), lot.uniform(min(ys), max(ys))
            self.assertEqual(sum(is_inside(rings_in(piece.shape), *point) for piece in pieces), is_inside(rings_in(whole), *point))
        cuts = [cut for piece in pieces for cut in piece.cuts]
        self.assertEqual(sorted(cuts), sorted(cut[::-1] for cut in cuts), 'a cut is of two pieces')
        return len(pieces)

    def test_rings_of_all_kinds(self) -> None:
        for seed in range(25):
            self.check([[star(random.Random(seed).randint(13, 60), 1000, seed)]])

    def test_straight_sides_with_many_vertices(self) -> None:
        ring = [(x, 0) for x in range(9)] + [(9, y) for y in range(9)] + [(9 - x, 9) for x in range(9)] + [(0, 9 - y) for y in range(9)]
        self.assertGreater(self.check([[ring]]), 2)

    def test_holes(self) -> None:
        holes = [star(3 + seed, 40, seed, (x, y)) for seed, (x, y) in enumerate([(-100, -90), (-100, 90), (0, 0), (100, -90), (100, 90)])]
        self.check([[square(-200, -200, 400), *holes]])
        self.check([[square(0, 0, 70)[::-1], *(square(x, y, 6) for x in range(4, 60, 10) for y in range(4, 60, 10))]])

    def test_holes_that_touch(self) -> None:
        self.check([[square(0, 0, 90), [(0, 0), (20, 30), (30, 20)], [(30, 20), (50, 50), (60, 40)], [(90, 90), (60, 80), (80, 60)]]])

    def test_parts(self) -> None:
        self.assertGreater(self.check([[star(30, 100, 1)], [square(200, 0, 9)], [square(300, 0, 90), square(320, 20, 9), square(350, 20, 9)]]), 3)

    def test_what_is_no_shell_with_holes(self) -> None:
        """By the count of sides a ring within another one is a hole, whichever part it stands in; such are not cut."""
        for parts in ([[square(0, 0, 90)], [square(10, 10, 9)], [star(20, 20, 1, (50, 50))]], [[square(0, 0, 9), square(20, 0, 9), square(40, 0, 9), square(60, 0, 9)]],
                      [[star(30, 100, 1), star(8, 10, 2), star(8, 3, 3)]]):
            with self.assertRaises(Uncuttable):
                pieces_of(Shape('polygon', parts))

    def test_what_is_too_much(self) -> None:
        with mock.patch.object(cutting, 'MOST_CUT', 20), self.assertRaises(Uncuttable):
            pieces_of(Shape('polygon', [[star(21, 100, 1)]]))


@mock.patch.object(cutting, 'MOST_VERTICES', FEW)
class Lines(unittest.TestCase):
    def test_runs(self) -> None:
        line = [(x, x % 3) for x in range(40)]
        pieces = pieces_of(Shape('line', [[line], [line[:3]], [line[:9]], [line[:4]]]))
        self.assertEqual([[part[0] for part in piece.shape.parts] for piece in pieces[:2]], [[line[:3], line[:9]], [line[:4]]])
        runs = [piece.shape.parts[0][0] for piece in pieces[2:]]
        self.assertEqual(runs[0] + [place for run in runs[1:] for place in run[1:]], line)
        self.assertTrue(all(len(run) <= FEW for run in runs))
        self.assertEqual(pieces[2].cuts, [(runs[0][-1], runs[0][-1])])


class Told(Case):
    """A lot of 2,402 vertices and a road of 4,500, each as one in what is told."""

    RULES = [('polygon_must_not_overlap', 'lots'), ('polygon_must_not_have_gaps', 'lots'), ('polygon_boundary_must_be_covered_by', 'lots', 'roads'),
             ('polygon_contains_point', 'lots', 'wells'), ('line_must_not_have_pseudo_nodes', 'roads'), ('line_must_not_have_dangles', 'roads'),
             ('point_must_be_properly_inside', 'wells', 'lots')]

    def make(self, name: str, east: int) -> None:
        """The lots, of which the last one begins so far in the east, the road, and a well."""
        long = [(x, 0) for x in range(1201)] + [(x, 50 + x % 7) for x in range(1200, -1, -1)]
        self.source(name, [polygon(long), rectangle(600, 20, 700, 30), rectangle(east, 0, east + 10, 10)], layer='lots')
        self.source(name, [{'type': 'LineString', 'coordinates': [[x, 100 + x % 5] for x in range(4500)]}], '-update', layer='roads')
        self.source(name, [{'type': 'Point', 'coordinates': [5, 5]}], '-update', layer='wells')

    def words(self, *rules: tuple[str, ...]) -> list[str]:
        return ['--grid', '1', '--origin', '0', '0', '--id', 'nr', *(word for rule in rules for word in ('--rule', *rule))]

    def test_parts_are_one_in_what_is_told(self) -> None:
        self.make('long.gpkg', 2000)
        done = self.tool('from-ogr', 'long.gpkg', '--table', 'table.csv', *self.words(*self.RULES, ('line_must_be_single_part', 'roads')))
        self.assertEqual(done.status, 0, done.told)
        for said in ('lots 1 (N1): cut into 2 parts', 'roads 1 (N1): cut into 3 parts',
                     'rule line_must_be_single_part: of a feature of roads that was cut it misses that it has several parts'):
            self.assertIn(said, done.told)
        script, replies = self.replayed('long', done.out)
        told = self.tool('report', script, replies, '--wide')
        rows = [(row['kind'], row['subject_id'], row['other_id'], row['area'] or row['length']) for row in csv.DictReader(told.out.splitlines())]
        self.assertEqual(rows, [('polygon_must_not_overlap', 'N1', 'N2', '1000'), ('polygon_must_not_have_gaps', 'N1', '', '3798.37815'),
                                ('polygon_must_not_have_gaps', 'N3', '', '40'), ('polygon_boundary_must_be_covered_by', 'N1', '', '3798.37815'),
                                ('polygon_boundary_must_be_covered_by', 'N2', '', '220'), ('polygon_boundary_must_be_covered_by', 'N3', '', '40'),
                                ('polygon_contains_point', 'N2', '', ''), ('polygon_contains_point', 'N3', '', ''), ('line_must_not_have_dangles', 'N1', '', '')])
        self.assertEqual(self.tool('to-gis', script, replies, 'layers').status, 0)
        self.assertEqual(self.rows('layers/error_polygons.geojson', 'SELECT count(*) AS n FROM error_polygons'), [{'n': 3}])

    def test_two_sources_in_one_class(self) -> None:
        """Features of the same number and id, each of several parts, stay two."""
        self.make('north.gpkg', 2000)
        self.make('south.gpkg', 2000)
        done = self.tool('from-ogr', 'north.gpkg', 'south.gpkg', '--layer', 'lots=lots', *self.words(('polygon_must_not_overlap', 'lots')))
        told = self.tool('report', *self.replayed('two', done.out), '--wide')
        rows = [(row['subject'], row['other'], row['area']) for row in csv.DictReader(told.out.splitlines())]
        self.assertIn(('1', '5', str(self.area())), rows)
        self.assertEqual([(subject, other) for subject, other, _ in rows], [('1', '3'), ('1', '5'), ('1', '7'), ('3', '5'), ('3', '7'), ('4', '8'), ('5', '7')])

    def area(self) -> float:
        """That of the long lot."""
        return 1200 * 50 + sum((x % 7 + (x + 1) % 7) / 2 for x in range(1200))

    def test_nights(self) -> None:
        """Parts keep their handles from night to night, an officer marks all of them with one row, and no error is of a cut alone."""
        self.make('day.gpkg', 2000)
        rules = self.words(('polygon_must_not_have_gaps', 'lots'), ('line_must_not_have_pseudo_nodes', 'roads'))
        done = self.tool('night', 'day.gpkg', 'nights', '--program', PROGRAM[0], *rules)
        self.assertEqual((done.status, done.out.splitlines()[0]), (1, 'errors: 2; exceptions: 0'), done.told)
        with open(self.path('marked.csv'), 'w', encoding='utf-8') as out:
            out.write('rule,class,subject,subject_id,other_class,other,other_id,mark\n1,lots,1,N1,,,,x\n1,lots,4,N3,,,,x\n')
        self.make('other.gpkg', 3000)
        done = self.tool('night', 'other.gpkg', 'nights', '--program', PROGRAM[0], '--marks', 'marked.csv')
        self.assertIn('7 the same, 1 changed, 0 added, 0 deleted', done.told)
        said = ['marked: 2', '    not marked: rule 1, lots N3: the error is another one now, so it is not marked']
        self.assertEqual((done.status, done.out.splitlines()[:2]), (1, said), done.told)
        self.assertIn('errors: 1; exceptions: 1', done.out)


if __name__ == '__main__':
    unittest.main()
