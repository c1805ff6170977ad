"""tools/to-gis: exact corners, dissolved cells that are valid, dirt, ids of the source, thin slivers, and both formats."""
from __future__ import annotations

import json
import os
import random
import unittest
from fractions import Fraction
from typing import Any, Iterable

from lib.cells import corners_of, cover_of, cover_of_error
from lib.maps import Rounding, are_valid, geometries_of
from lib.grid import Grid
from lib.outlines import Point, doubled_area, outlines_of
from lib.replies import Error, Half, half_of
from working import TOOLS, Case, by_lines, rectangle

UNIT = Grid(Fraction(1), Fraction(0), Fraction(0))


class Layers(Case):
    def test_three_faults_of_a_thousand_parcels(self) -> None:
        done = self.run_words([os.path.join(os.path.dirname(TOOLS), 'examples', 'make_parcels'), 'town.gpkg'])
        self.assertEqual(done.status, 0, done.told)
        script = self.tool('from-ogr', 'town.gpkg', '--grid', '0.001', '--id', 'parcel', '--rule', 'polygon_must_not_overlap', 'parcels')
        self.assertEqual(script.status, 0, script.told)
        made = self.tool('to-gis', *self.replayed('town', script.out), 'errors.gpkg')
        self.assertEqual((made.status, made.told), (0, '3 errors in 3 polygons, 0 lines, 0 points; 0 dirty areas\n'))
        rows = self.rows('errors.gpkg', 'SELECT *, ST_IsValid(geom) AS v, ST_Area(geom) AS a, ST_SRID(geom) AS s FROM error_polygons ORDER BY subject')
        self.assertEqual([(row['subject_id'], row['other_id'], row['word'], row['mark'], row['v'], row['s']) for row in rows],
                         [(a, b, 'polygon_must_not_overlap', 'error', 1, 31467) for a, b in
                          (('03/06', '03/07'), ('10/13', '10/13a'), ('19/18', '19/19'))])
        common = self.rows('town.gpkg', 'SELECT ST_Area(ST_Intersection(a.geom, b.geom)) AS a FROM parcels a, parcels b WHERE '
                           "(a.parcel, b.parcel) IN (VALUES ('03/06', '03/07'), ('10/13', '10/13a'), ('19/18', '19/19')) ORDER BY a.fid")
        for row, of_both in zip(rows, common):
            self.assertAlmostEqual(row['a'], of_both['a'], 5)

    def test_ids_of_a_field_of_each_layer(self) -> None:
        self.source('two.gpkg', [rectangle(0, 0, 9, 9)], layer='lots')
        self.source('two.gpkg', [rectangle(20, 0, 29, 9), rectangle(5, 0, 12, 9)], '-update', '-sql', 'SELECT nr AS name FROM lakes', layer='lakes')
        words = ['two.gpkg', '--grid', '1', '--rule', 'polygon_must_not_overlap_with', 'lots', 'lakes', '--id', 'lots', 'nr', '--id', 'lakes', 'name']
        self.assertEqual(self.tool('to-gis', *self.replayed('two', self.tool('from-ogr', *words).out), 'out.gpkg').status, 0)
        asked = 'SELECT class, subject_id, other_class, other_id FROM error_polygons'
        self.assertEqual([tuple(row.values()) for row in self.rows('out.gpkg', asked)], [('lots', 'N1', 'lakes', 'N2')])
        self.assertEqual(self.tool('tiles', 'split', *words, '--tiles', '2', '--into', 'tiles').status, 0)
        for name in ('001', '002'):
            with open(self.path('tiles/%s.topo' % name), encoding='utf-8') as script:
                self.replayed('tiles/' + name, script.read())
        self.assertEqual(self.tool('to-gis', 'tiles', 'tiled.gpkg').status, 0)
        self.assertEqual([tuple(row.values()) for row in self.rows('tiled.gpkg', asked)], [('lots', 'N1', 'lakes', 'N2')])

    def errors(self, *lines: str, words: Iterable[str] = ()) -> dict:
        """The layers of a script with two classes of lots, as GeoJSON, by name."""
        script = by_lines('# grid resolution 0.01', '# grid origin 100 200', 'class lots polygon', 'class wells point',
                          'rule polygon_must_not_overlap lots', 'rule point_must_be_disjoint wells', 'begin a', *lines)
        done = self.tool('to-gis', *self.replayed('s', script), 'out', *words)
        self.assertEqual(done.status, 0, done.told)
        found = {}
        for name in ('error_polygons', 'error_lines', 'error_points', 'dirty'):
            with open(self.path('out/%s.geojson' % name), encoding='utf-8') as file:
                found[name] = json.load(file)['features']
        return found

    def test_a_corner_off_the_grid_is_rounded_once(self) -> None:
        found = self.errors('by a add lots POLYGON ((0 0, 2 1, 0 2, 0 0))', 'by a add lots POLYGON ((0 1, 2 0, 2 3, 0 1))', 'validate all', 'cells')
        ring = found['error_polygons'][0]['geometry']['coordinates'][0][0]
        places: list[Point] = [(0, 1), (1, Fraction(1, 2)), (2, 1), (Fraction(2, 3), Fraction(5, 3))]
        exact = [(Fraction(100) + Fraction(x) / 100, Fraction(200) + Fraction(y) / 100) for x, y in places]
        self.assertEqual(sorted(map(tuple, ring[1:])), sorted((float(x), float(y)) for x, y in exact))

    def test_points_dirt_and_cells(self) -> None:
        lines = ['by a add wells POINT (3 4)', 'by a add wells POINT (3 4)', 'by a add lots POLYGON ((0 0, 8 0, 8 4, 4 8, 0 8, 0 0))',
                 'by a add lots POLYGON ((2 2, 9 2, 9 6, 2 6, 2 2))', 'validate all', 'by a change 1 POINT (50 50)', 'by a delete 4', 'cells', 'dirty']
        found = self.errors(*lines)
        self.assertEqual([each['geometry'] for each in found['error_points']], [{'type': 'MultiPoint', 'coordinates': [[100.03, 200.04]]}])
        self.assertEqual([each['geometry']['type'] for each in found['dirty']], ['MultiPoint', 'MultiPolygon'])
        self.assertEqual(len(found['error_polygons']), 1)
        by_cell = self.errors(*lines, words=['--cells'])
        self.assertEqual([len(by_cell[name]) for name in ('error_polygons', 'error_lines', 'error_points')], [2, 1, 1])

    def test_errors_without_cells_are_frames(self) -> None:
        found = self.errors('by a add wells POINT (3 4)', 'by a add wells POINT (3 4)', 'validate all', 'errors')
        self.assertEqual([each['properties']['drawn'] for each in found['error_points']], ['frame'])

    def test_where_no_errors_are_listed_nothing_is_made(self) -> None:
        for lines in (['class lots polygon'], ['class lots polygon', 'dirty']):
            script, replies = self.replayed('s', by_lines(*lines))
            for out in ('out', 'out.gpkg'):
                done = self.tool('to-gis', script, replies, out)
                self.assertEqual((done.status, done.told.splitlines()[-1]),
                                 (2, 'to-gis: %s lists no errors: end it with the lines `cells` and `dirty`' % script))
                self.assertFalse(os.path.exists(self.path(out)))

    def test_ids_of_a_table_and_sizes(self) -> None:
        script, replies = self.replayed('s', by_lines('# grid resolution 0.5', '# grid origin 0 0', 'class lots polygon', 'rule polygon_must_not_overlap lots', 'begin a',
                                                      '# fid 7 id "A"', 'by a add lots POLYGON ((0 0, 9 0, 9 9, 0 9, 0 0))',
                                                      'by a add lots POLYGON ((7 0, 12 0, 12 4, 7 4, 7 0))', 'validate all', 'cells', 'dirty'))
        with open(self.path('names.csv'), 'w', encoding='utf-8') as names:
            names.write('handle,fid,id,owner\n2,8,B,Dorn\n')
        for out in ('out.gpkg', 'out/error_polygons.geojson'):
            self.assertEqual(self.tool('to-gis', script, replies, out.split('/')[0], '--table', 'names.csv').status, 0)
            asked = 'SELECT subject_fid, subject_id, other_fid, other_id, subject_owner, other_owner, area FROM error_polygons'
            self.assertEqual(self.rows(out, asked), [{'subject_fid': 7, 'subject_id': 'A', 'other_fid': 8, 'other_id': 'B', 'subject_owner': None,
                                                      'other_owner': 'Dorn', 'area': 2}])

    def test_an_older_output_stays_where_nothing_can_be_made(self) -> None:
        good, bad = self.replayed('good', 'class lots polygon\nerrors\ndirty\n'), self.replayed('bad', 'class lots polygon\ndirty\n')
        for out in ('out/error_lines.geojson', 'out.gpkg'):
            self.assertEqual(self.tool('to-gis', *good, out.split('/')[0]).status, 0)
            with open(self.path(out), 'rb') as file:
                before = file.read()
            self.assertEqual(self.tool('to-gis', *bad, out.split('/')[0]).status, 2)
            with open(self.path(out), 'rb') as file:
                self.assertEqual(file.read(), before)
            self.assertEqual([name for name in os.listdir(self.folder) if name.startswith('.')], [])

    def test_replies_of_another_script(self) -> None:
        script, replies = self.replayed('s', 'class lots polygon\nclass more polygon\n')
        with open(script, 'a', encoding='utf-8') as out:
            out.write('cells\n')
        done = self.tool('to-gis', script, replies, 'out.gpkg')
        self.assertEqual((done.status, done.told), (2, 'to-gis: line 3 has no reply: the replay ended before it\n'))


class Overlaps(Case):
    def test_overlaps_by_lot_are_valid_and_keep_their_areas(self) -> None:
        """Polygons on a small grid, with holes and pinches, against the areas of GEOS."""
        rows: list[Any] = []
        lot, lines = random.Random(11), ['class lots polygon', 'rule polygon_must_not_overlap lots', 'begin a']
        for _ in range(250):
            rings = [[(lot.randint(0, 7), lot.randint(0, 7)) for _ in range(lot.randint(3, 7))] for _ in range(lot.choice((1, 2)))]
            lines.append('by a add lots POLYGON (%s)' % ', '.join('(%s)' % ', '.join('%d %d' % p for p in ring + ring[:1]) for ring in rings))
        script, replies = self.replayed('s', by_lines(*lines, 'validate 0 0 7 7', 'cells', 'dirty'))
        done = self.tool('to-gis', script, replies, 'out.gpkg')
        self.assertEqual(done.status, 1, done.told)
        self.tool('to-gis', script, replies, 'cells.gpkg', '--cells')
        asked = 'SELECT count(*) AS n, sum(ST_IsValid(geom)) AS good, sum(ST_Area(geom)) AS area FROM error_polygons'
        whole, by_cell = self.rows('out.gpkg', asked)[0], self.rows('cells.gpkg', asked)[0]
        self.assertGreater(whole['n'], 100)
        self.assertEqual((whole['n'], by_cell['n']), (whole['good'], by_cell['good']))
        self.assertAlmostEqual(whole['area'], by_cell['area'], 6)


def cell_of(text: str) -> list[Half]:
    return [half_of(half) for half in text.split(', ')]


def in_the_plane(cell: list[Half]) -> list[Half]:
    """The same cell, with each equation as two half-planes: so it is clipped as one that may have an area."""
    both = lambda a, b, c, op: [(a, b, c, '>='), (-a, -b, -c, '>=')] if op == '=' else [(a, b, c, op)]
    return [half for each in cell for half in both(*each)]


class Lines(unittest.TestCase):
    def error(self, lot: random.Random) -> Error:
        """An error whose cells lie on few lines, through few places."""
        number = lambda: lot.randint(-3, 3)
        line = lambda: (*lot.choice([(1, 0), (0, 1), (1, 1), (2, -1), (-2, 4), (0, -3), (-1, 0)]), number(), '=')
        cells = [[line()] + [(number(), number(), number(), lot.choice(['>', '>=', '='])) for _ in range(lot.randint(0, 4))]
                 for _ in range(lot.randint(1, 6))]
        return Error('error', 1, 1, 2, 'cells', (number() - 4, number() - 4, number() + 4, number() + 4), [lot.sample(cell, len(cell)) for cell in cells])

    def test_cells_on_lines_cover_what_they_cover_in_the_plane(self) -> None:
        lot, kinds = random.Random(5), [0, 0]
        for _ in range(1500):
            error = self.error(lot)
            cover = cover_of_error(error)
            by_plane = cover_of([corners for cell in error.cells if (corners := corners_of(error.frame, in_the_plane(cell)))])
            self.assertEqual(cover, by_plane, error)
            kinds = [kinds[0] + len(cover.lines), kinds[1] + len(cover.points)]
        self.assertGreater(min(kinds), 500)


class Outlines(unittest.TestCase):
    def test_what_holds_and_pinches(self) -> None:
        def square(x: int, y: int) -> list[Point]:
            return [(Fraction(a), Fraction(b)) for a, b in ((x, y), (x + 1, y), (x + 1, y + 1), (x, y + 1))]

        ring = [square(x, y) for x in range(3) for y in range(3) if (x, y) != (1, 1)]
        self.assertEqual([len(of.holes) for of in outlines_of(ring)], [1])
        self.assertEqual([len(of.holes) for of in outlines_of([square(0, 0), square(1, 1)])], [0, 0])
        area = sum(doubled_area(side) for of in outlines_of(ring[1:]) for side in [of.shell, *of.holes])
        self.assertEqual(area, 14)

    def test_a_wall_beside_a_column_and_one_within(self) -> None:
        texts = '1 0 0 >, -1 0 4 >, 0 1 0 >, 0 -1 4 >', '1 0 -4 =, 0 1 0 >, 0 -1 6 >', '1 0 -2 =, 0 1 0 >, 0 -1 4 >', '1 0 -4 =, 0 1 -5 ='
        cover = cover_of([corners_of((0, 0, 9, 9), cell_of(text)) for text in texts])
        self.assertEqual([len(cover.polygons), cover.lines, cover.points], [1, [((4, 4), (4, 6))], []])

    def test_a_sliver_too_thin_for_double_precision(self) -> None:
        far = Grid(Fraction(1), Fraction(2) ** 52, Fraction(2) ** 52)
        thin = Error('error', 1, 1, 2, 'cells', (0, 0, 9, 1), [cell_of('1 0 0 >, -1 0 9 >, 0 1 0 >, 0 -3 1 >')])
        found, as_asked = geometries_of(thin, Rounding(far), False)
        self.assertEqual(([geometry.kind for _, geometry in found], as_asked), (['line'], False))
        self.assertFalse(are_valid([[[(0.0, 0.0), (4.0, 0.0), (4.0, 4.0), (2.0, 0.0)]]]))


if __name__ == '__main__':
    unittest.main()
