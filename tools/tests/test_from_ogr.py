"""tools/from-ogr: sources of three formats, real coordinates, what is moved, split and left out, and handles that hold."""
import csv
import math
import os
import random
import re
import unittest
from fractions import Fraction

from lib.curves import arc, circle_of
from lib.grid import Grid, GridError, chosen_grid, decimal_text, grid_of
from lib.shapes import Shape, fault_of, kept, shape_text
from working import TOOLS, Case, by_lines, polygon, rectangle

X, Y = 3499250.137, 5412300.021
LOTS = [rectangle(X, Y, 3499260.137, 5412310.025), rectangle(3499260.137, Y, 3499270.637, 5412310.0205),
        {'type': 'MultiPolygon', 'coordinates': [rectangle(3499280.137, Y, 3499290.137, 5412310.021)['coordinates'],
                                                 rectangle(3499300.137, Y, 3499310.137, 5412310.021)['coordinates']]}]


class Sources(Case):
    def test_three_formats_make_one_script(self) -> None:
        scripts = []
        for name, driver in (('a.gpkg', 'GPKG'), ('a.shp', 'ESRI Shapefile'), ('a.geojson', 'GeoJSON')):
            source = self.source(name, LOTS, '-f', driver, layer='a')
            done = self.tool('from-ogr', source, '--grid', '0.001', '--id', 'nr')
            self.assertEqual(done.status, 0, done.told)
            self.assertIn('3 features read, 3 added, 0 left out; 1 moved, by 0.0005 at most', done.told)
            scripts.append([set(re.findall(r'-?\d+ -?\d+', line)) for line in done.out.splitlines() if line.startswith('by')])
            self.assertEqual(self.replay(done.out), ['ok 1', 'ok', 'ok 1', 'ok 2', 'ok 3'])
        self.assertEqual(list(map(len, scripts[0])), [4, 4, 8])
        self.assertTrue(scripts[0] == scripts[1] == scripts[2])

    def test_the_way_back_is_exact(self) -> None:
        for resolution in ('0.001', '0.01'):
            source = self.source('b%s.gpkg' % resolution, LOTS)
            done = self.tool('from-ogr', source, '--grid', resolution)
            grid = grid_of(done.out.splitlines())
            first = next(line for line in done.out.splitlines() if line.startswith('by'))
            x, y = first[first.index('((') + 2:first.index(',')].split()
            back = grid.source_of(Fraction(int(x)), Fraction(int(y)))
            self.assertEqual(list(map(decimal_text, back)), ['3499250.137', '5412300.021'] if resolution == '0.001' else ['3499250.14', '5412300.02'])
            self.assertIn('ID["EPSG",31467]', grid.crs)

    def test_an_origin_that_is_given(self) -> None:
        source = self.source('c.gpkg', LOTS[:1])
        done = self.tool('from-ogr', source, '--grid', '0.01', '--origin', '3499000', '5412000')
        self.assertIn('POLYGON ((25014 30002, 26014 30002, 26014 31003, 25014 31003, 25014 30002))', done.out)
        far = self.tool('from-ogr', source, '--grid', '0.01', '--origin', '0', '0')
        self.assertEqual(far.status, 1)
        self.assertIn('lots 1: left out: its vertex 3499250.1370000001 5412300.0209999997 is beyond the reach of the grid', far.told)

    def test_a_source_in_degrees(self) -> None:
        self.source('degrees.gpkg', [rectangle(9, 50, 9.01, 50.01)], '-a_srs', 'EPSG:4326')
        done = self.tool('from-ogr', 'degrees.gpkg', '--grid', '0.001')
        self.assertEqual((done.status, done.out), (2, ''))
        self.assertIn('from-ogr: the coordinates are degrees, so one unit of this grid is about 111 m from south to north', done.told)
        self.assertEqual(self.tool('from-ogr', 'degrees.gpkg', '--grid', '0.00001', '--degrees').status, 0)

    def test_the_odd_coordinate_system_is_named(self) -> None:
        for number in range(6):
            self.source('six.gpkg', LOTS[:1], *(['-update'] if number else []), *(['-a_srs', 'EPSG:25832'] if number == 3 else []),
                        layer='layer%d' % number)
        done = self.tool('from-ogr', 'six.gpkg', '--grid', '0.01')
        self.assertEqual(done.status, 2)
        self.assertIn('from-ogr: layer layer3 has the coordinate system ETRS89 / UTM zone 32N, and the other 5 have DHDN / 3-degree Gauss-Kruger '
                      'zone 3: bring them into one', done.told)

    def test_a_class_of_several_layers_and_files(self) -> None:
        self.source('north.gpkg', LOTS[:1], layer='lots')
        self.source('south.gpkg', LOTS[1:2], layer='lots')
        self.source('south.gpkg', LOTS[2:], '-update', layer='commons')
        self.source('south.gpkg', [{'type': 'Point', 'coordinates': [X, Y]}], '-update', layer='wells')
        words = ['north.gpkg', 'south.gpkg', '--grid', '0.01', '--id', 'nr', '--rule', 'polygon_must_not_overlap', 'parcels']
        done = self.tool('from-ogr', *words, '--layer', 'lots=parcels', '--layer', 'commons=parcels')
        self.assertEqual(done.status, 0, done.told)
        lines = done.out.splitlines()
        self.assertEqual([line for line in lines if line.startswith('class')], ['class parcels polygon'])
        self.assertEqual([line for line in lines if line.startswith('# grid class')], ['# grid class parcels polygon lots north.gpkg',
                         '# grid class parcels polygon lots south.gpkg', '# grid class parcels polygon commons south.gpkg'])
        self.assertEqual(sum(line.startswith('by import add parcels ') for line in lines), 3)
        mixed = self.tool('from-ogr', *words, '--layer', 'lots=parcels', '--layer', 'wells=parcels')
        self.assertEqual((mixed.status, mixed.told), (2, 'from-ogr: layer wells has points, and the class parcels polygons of layer lots\n'))

    def test_a_rule_of_the_wrong_kind(self) -> None:
        self.source('roads.gpkg', [{'type': 'LineString', 'coordinates': [[X, Y], [X + 9, Y]]}], layer='roads')
        done = self.tool('from-ogr', 'roads.gpkg', '--grid', '0.01', '--rule', 'polygon_must_not_overlap', 'roads')
        self.assertEqual((done.status, done.told), (2, 'from-ogr: the rule polygon_must_not_overlap takes a class of polygons, and `roads` is of '
                                                       'lines; did you mean `line_must_not_overlap`?\n'))
        self.assertIn('no --rule is given', self.tool('from-ogr', 'roads.gpkg', '--grid', '0.01').told)

    def test_subtypes(self) -> None:
        """Numbers are the subtypes; words get numbers, which they keep; rules name either."""
        self.source('kinds.gpkg', [rectangle(x, 0, x + 11, 10) for x in range(0, 40, 10)], layer='lots')
        for column, values in (('code', "'N1' THEN 3 WHEN 'N2' THEN 255 WHEN 'N3' THEN 0"), ('use', "'N1' THEN 'farm' WHEN 'N2' THEN 'built' WHEN 'N3' THEN 'farm'")):
            for asked in ('ALTER TABLE lots ADD COLUMN %s %s' % (column, 'INTEGER' if column == 'code' else 'TEXT'),
                          'UPDATE lots SET %s = CASE nr WHEN %s END' % (column, values)):
                self.assertEqual(self.run_words(['ogrinfo', '-q', 'kinds.gpkg', '-sql', asked]).status, 0)
        words = ['kinds.gpkg', '--grid', '1', '--id', 'nr', '--table', 'ids.csv', '--rule', 'polygon_must_not_overlap']
        done = self.tool('from-ogr', *words, 'lots:255', '--subtype', 'code')
        self.assertEqual(re.findall(r'add (\S+)|rule \S+ (\S+)', done.out), [('', 'lots:255'), ('lots:3', ''), ('lots:255', ''), ('lots', ''), ('lots', '')])
        self.assertEqual([row['class'] for row in self.table('ids.csv')], ['lots:3', 'lots:255', 'lots', 'lots'])
        for reader in ('programs', 'bindings'):
            done = self.run_words(['env', 'TOPO_READER=' + reader, os.path.join(TOOLS, 'from-ogr'), *words, 'lots:farm', '--subtype', 'lots', 'use'])
            self.assertEqual(re.findall(r'add (\S+)|rule \S+ (\S+)', done.out), [('', 'lots:2'), ('lots:2', ''), ('lots:1', ''), ('lots:2', ''), ('lots', '')])
            self.assertIn('# grid subtype lots 1 "built"\n# grid subtype lots 2 "farm"\n', done.out)
        self.assertNotIn('refused', '\n'.join(self.replay(done.out)))
        with open(self.path('first.topo'), 'w', encoding='utf-8') as out:
            out.write(done.out)
        self.assertEqual(self.run_words(['ogrinfo', '-q', 'kinds.gpkg', '-sql', "UPDATE lots SET use = 'acre' WHERE nr = 'N4'"]).status, 0)
        done = self.tool('from-ogr', *words, 'lots:acre', '--subtype', 'use', '--subtypes-of', 'first.topo')
        self.assertEqual(re.findall(r'add (\S+)|rule \S+ (\S+)', done.out), [('', 'lots:3'), ('lots:2', ''), ('lots:1', ''), ('lots:2', ''), ('lots:3', '')])
        self.assertEqual(self.run_words(['ogrinfo', '-q', 'kinds.gpkg', '-sql', "UPDATE lots SET code = 256 WHERE nr = 'N4'"]).status, 0)
        done = self.tool('from-ogr', *words, 'lots', '--subtype', 'code')
        self.assertEqual((done.status, done.told), (2, 'from-ogr: class lots: a subtype is a number from 0 to 255, and there is 256\n'))

    def table(self, name: str) -> list[dict[str, str]]:
        with open(self.path(name), encoding='utf-8', newline='') as table:
            return list(csv.DictReader(table))

    def test_an_extent_that_does_not_fit(self) -> None:
        source = self.source('d.gpkg', [rectangle(0, 0, 1, 1), rectangle(9000, 0, 9001, 1)])
        done = self.tool('from-ogr', source, '--grid', '0.001')
        self.assertEqual((done.status, done.out), (2, ''))
        self.assertIn('tools/tiles', done.told)

    def test_layers_and_rules(self) -> None:
        self.source('e.gpkg', LOTS, layer='lots')
        self.source('e.gpkg', LOTS[:1], '-update', layer='Gebäude 2')
        done = self.tool('from-ogr', 'e.gpkg', '--grid', '0.01', '--rule', 'polygon_must_not_overlap_with', 'lots', 'Gebaeude_2')
        self.assertIn('layer Gebäude 2: its class is named Gebaeude_2', done.told)
        self.assertEqual(self.replay(done.out)[-5:-2], ['ok judged 3 errors 1 dirty 0', 'error 1 1 4 cells %s' % self.frame(done.out), self.replay(done.out)[-3]])
        wrong = self.tool('from-ogr', 'e.gpkg', '--grid', '0.01', '--rule', 'polygon_must_not_overlapp', 'lots')
        self.assertEqual(wrong.status, 2)
        self.assertIn('did you mean `polygon_must_not_overlap`?', wrong.told)
        gone = self.tool('from-ogr', 'gone.gpkg', '--grid', '0.01')
        self.assertEqual((gone.status, gone.told), (2, 'from-ogr: there is no file or folder gone.gpkg\n'))
        with open(self.path('lots.txt'), 'w', encoding='utf-8') as text:
            text.write('POLYGON ((0 0, 9 0, 0 9, 0 0))\n')
        other = self.tool('from-ogr', 'lots.txt', '--grid', '0.01')
        self.assertEqual((other.status, other.out), (2, ''))
        self.assertIn('from-ogr: GDAL cannot open this source: ', other.told)
        none = self.tool('from-ogr', 'e.gpkg', '--grid', '0.01', '--layer', 'streets')
        self.assertEqual((none.status, none.told), (2, "from-ogr: no layer 'streets'; there are lots, Gebäude 2\n"))

    def test_ids_of_a_field(self) -> None:
        source = self.source('i.gpkg', LOTS[:1])
        self.assertIn('\n# fid 1 id "N1"\n', self.tool('from-ogr', source, '--grid', '0.01', '--id', 'nr').out)
        done = self.tool('from-ogr', source, '--grid', '0.01', '--id', 'nrr')
        self.assertEqual((done.status, done.out, done.told), (2, '', 'from-ogr: there is no field `nrr`; did you mean `nr`?\n'))

    def test_columns_of_other_fields(self) -> None:
        self.source('c.gpkg', LOTS, layer='lots')
        for asked in ('ALTER TABLE lots ADD COLUMN owner TEXT', "UPDATE lots SET owner = 'Ann' || fid || ',\n' WHERE fid < 3"):
            self.assertEqual(self.run_words(['ogrinfo', '-q', 'c.gpkg', '-sql', asked]).status, 0)
        for reader in ('programs', 'bindings'):
            words = ['c.gpkg', '--grid', '0.01', '--id', 'nr', '--field', 'owner', '--field', 'nr', '--table', 't.csv', '--rule', 'polygon_must_not_overlap', 'lots']
            done = self.run_words(['env', 'TOPO_READER=' + reader, os.path.join(TOOLS, 'from-ogr'), *words])
            self.assertEqual(done.status, 0, done.told)
            self.assertEqual([(row['id'], row['owner'], row['nr']) for row in self.table('t.csv')], [('N1', 'Ann1,\n', 'N1'), ('N2', 'Ann2,\n', 'N2'), ('N3', '', 'N3')])
        with open(self.path('p.project'), 'w', encoding='utf-8') as project:
            shape = next(line for line in done.out.splitlines() if line.startswith('by')).split(' ', 4)[4]
            project.write('topology 1\nnext 2\nclass lots polygon\nfeature 1 lots %s\nend\n' % shape)
        with open(self.path('old.csv'), 'w', encoding='utf-8') as table:
            table.write('layer,fid,id,class,handle,moved,note,size\nlots,1,N1,lots,1,,,small\n')
        with open(self.path('now.topo'), 'w', encoding='utf-8') as script:
            script.write(done.out)
        changed = self.tool('changes', 'p.project', 'old.csv', 'now.topo', 'new.csv', '--beside', 't.csv')
        self.assertEqual(changed.status, 0, changed.told)
        self.assertEqual([(row['id'], row['handle'], row['owner']) for row in self.table('new.csv')], [('N1', '1', 'Ann1,\n'), ('N2', '2', 'Ann2,\n'), ('N3', '3', '')])
        wrong = self.tool('from-ogr', 'c.gpkg', '--grid', '0.01', '--field', 'ownr')
        self.assertEqual((wrong.status, wrong.told), (2, 'from-ogr: there is no field `ownr`; did you mean `owner`?\n'))

    def test_an_outline(self) -> None:
        """What a layer outlines and a class leaves uncovered is an error, with its area."""
        self.source('town.gpkg', [rectangle(0, 0, 30, 10)], layer='town')
        self.source('town.gpkg', [rectangle(0, 0, 10, 10), rectangle(12, 0, 30, 10)], '-update', layer='lots')
        self.source('town.gpkg', [rectangle(50, 0, 60, 10)], '-update', layer='other')
        done = self.tool('from-ogr', 'town.gpkg', '--grid', '0.1', '--layer', 'lots', '--outline', 'town', 'lots')
        self.assertIn('\nrule polygon_must_be_covered_by_feature_class_of town lots\n', done.out)
        self.assertNotIn('other', done.out)
        self.assertEqual(self.tool('to-gis', *self.replayed('town', done.out), 'out.gpkg').status, 0)
        self.assertEqual(self.rows('out.gpkg', 'SELECT class, round(area, 3) AS area FROM error_polygons'), [{'class': 'town', 'area': 20.0}])
        wrong = self.tool('from-ogr', 'town.gpkg', '--grid', '0.1', '--outline', 'town', 'lot')
        self.assertEqual((wrong.status, wrong.told[-53:]), (2, 'from-ogr: there is no class `lot`; did you mean `lots`?\n'[-53:]))

    def test_ids_of_a_field_of_each_layer(self) -> None:
        self.source('j.gpkg', LOTS[:2], layer='lots')
        self.source('j.gpkg', LOTS[:1], '-update', '-sql', 'SELECT nr AS house FROM "old houses"', layer='old houses')
        remarks = lambda *words: [line for line in self.tool('from-ogr', *words, '--grid', '0.01').out.splitlines() if line.startswith('# fid')]
        both = ['# fid 1 id "N1"', '# fid 2 id "N2"', '# fid 1 id "N1"']
        self.assertEqual(remarks('j.gpkg', '--id', 'lots', 'nr', '--id', 'old_houses', 'house'), both)
        self.assertEqual(remarks('j.gpkg', '--id', 'old houses', 'house', '--id', 'nr'), both)
        self.assertEqual(remarks('j.gpkg', '--id', 'old houses', 'house'), ['# fid 1', '# fid 2', both[2]])
        self.assertEqual(remarks('j.gpkg', '--id', 'nr'), both[:2] + ['# fid 1'])

    def test_a_source_behind_an_id(self) -> None:
        self.source('k.gpkg', LOTS[:1])
        for words in (['nr', 'k.gpkg'], ['lots', 'nr', 'k.gpkg'], ['nr', 'k.gpkg', '--id', 'lots', 'nr']):
            self.assertIn('\n# fid 1 id "N1"\n', self.tool('from-ogr', '--grid', '0.01', '--id', *words).out)
        for words, said in ((['nr', 'gone.gpkg'], 'from-ogr: there is no file or folder gone.gpkg\n'),
                            (['lot', 'nr', 'k.gpkg'], 'from-ogr: there is no class or layer `lot`; did you mean `lots`?\n'),
                            (['lots', 'nrr', 'k.gpkg'], 'from-ogr: there is no field `nrr`; did you mean `nr`?\n')):
            done = self.tool('from-ogr', '--grid', '0.01', '--id', *words)
            self.assertEqual((done.status, done.out, done.told), (2, '', said))
        for ids in ('--id', 'nr'), ():
            self.assertIn('required: source', self.tool('from-ogr', '--grid', '0.01', *ids).told)

    def frame(self, script: str) -> str:
        """The frame of the first feature."""
        line = next(line for line in script.splitlines() if line.startswith('by'))
        places = [place.split() for place in line[line.index('((') + 2:-2].split(', ')]
        xs, ys = [sorted(map(int, of)) for of in zip(*places)]
        return '%d %d %d %d' % (xs[0], ys[0], xs[-1], ys[-1])


class Unfit(Case):
    def made_of(self, name: str, rows: str, kind: str = 'GEOMETRY') -> None:
        """A GeoPackage of this name, of rows of a number and a geometry as text."""
        with open(self.path(name + '.csv'), 'w') as out:
            out.write('nr,WKT\n' + rows)
        self.run_words(['ogr2ogr', '-nlt', kind, '-oo', 'GEOM_POSSIBLE_NAMES=WKT', name + '.gpkg', name + '.csv'])

    def test_what_cannot_come_is_named(self) -> None:
        self.made_of('mixed', '1,"POLYGON Z ((0 0 1, 4 0 1, 4 4 1, 0 0 1))"\n2,"CURVEPOLYGON (CIRCULARSTRING (0 0, 4 0, 4 4, 0 4, 0 0))"\n'
                     '3,"POLYGON EMPTY"\n4,"LINESTRING (0 0, 1 1)"\n5,"POLYGON ((0 0, 10 10, 10 0, 0 10, 0 0))"\n'
                     '6,"POLYGON ((0 0, 0.1 0, 0 0.1, 0 0))"\n7,"POLYGON ((0 0, 4 0, 4 4, 0 4, 0 0))"\n8,"GEOMETRYCOLLECTION (POINT (1 2))"\n')
        done = self.tool('from-ogr', 'mixed.gpkg', '--grid', '1', '--id', 'nr', '--table', 'table.csv')
        self.assertEqual(done.status, 1)
        for said in ('mixed 2 (2): left out: CURVEPOLYGON may hold curves', 'mixed 3 (3): left out: it is empty',
                     'mixed 4 (4): left out: LINESTRING is no polygon', 'mixed 5 (5): left out: its segments 0 and 2 cross at 5 5',
                     'mixed 6 (6): left out: ring 0 has too few vertices on the grid', 'mixed 8 (8): left out: GEOMETRYCOLLECTION is no polygon',
                     'mixed 1 (1): its Z or M is left out', '8 features read, 2 added, 6 left out; 0 moved'):
            self.assertIn(said, done.told)
        self.assertEqual(self.replay(done.out), ['ok 1', 'ok', 'ok 1', 'ok 2'])
        with open(self.path('table.csv'), encoding='utf-8') as table:
            self.assertEqual([(row['fid'], row['handle']) for row in csv.DictReader(table)],
                             [('1', '1'), ('2', ''), ('3', ''), ('4', ''), ('5', ''), ('6', ''), ('7', '2'), ('8', '')])

    def test_curves_as_lines(self) -> None:
        """Two lots with an arc between them that goes the one way round in one and the other way in the other neither overlap nor leave a gap."""
        self.made_of('curves', '1,"CURVEPOLYGON (COMPOUNDCURVE (CIRCULARSTRING (20 0, 25 5, 20 10), (20 10, 0 10, 0 0, 20 0)))"\n'
                     '2,"MULTISURFACE (CURVEPOLYGON (COMPOUNDCURVE (CIRCULARSTRING (20 10, 25 5, 20 0), (20 0, 60 0, 60 10, 20 10))))"\n'
                     '3,"CURVEPOLYGON (CIRCULARSTRING (100 0, 140 0, 100 0))"\n')
        words = ['curves.gpkg', '--grid', '0.001', '--rule', 'polygon_must_not_overlap', 'curves', '--rule', 'polygon_must_not_have_gaps', 'curves']
        scripts = []
        for reader in ('programs', 'bindings'):
            done = self.run_words(['env', 'TOPO_READER=' + reader, os.path.join(TOOLS, 'from-ogr'), *words, '--linearize', '0.05'])
            self.assertEqual(done.status, 0, done.told)
            self.assertIn('curves 1: its curves are lines, at most 0.05 from them', done.told)
            scripts.append(done.out)
        self.assertEqual(*scripts)
        self.assertEqual(self.tool('to-gis', *self.replayed('curves', scripts[0]), 'out.gpkg').status, 0)
        self.assertEqual(self.rows('out.gpkg', 'SELECT (SELECT count(*) FROM gaps) AS gaps, (SELECT count(*) FROM error_polygons) AS overlaps'), [{'gaps': 0, 'overlaps': 0}])
        self.assertIn('too many vertices', self.tool('from-ogr', *words, '--linearize', '1e-12').told)
        self.assertEqual(self.tool('from-ogr', *words, '--linearize', '0').status, 2)

    def test_arcs_are_near_and_the_same_both_ways(self) -> None:
        lot = random.Random(5)
        for _ in range(200):
            p, q, r = ((lot.uniform(0, 100), lot.uniform(0, 100)) for _ in range(3))
            circle, most = circle_of(p, q, r), lot.choice((0.01, 0.1, 5))
            points = [p, *arc(p, q, r, most)]
            self.assertEqual([r, *arc(r, q, p, most)], points[::-1])
            self.assertIn(q, points)
            middles = [((a[0] + b[0]) / 2, (a[1] + b[1]) / 2) for a, b in zip(points, points[1:])]
            self.assertLessEqual(max(circle.radius - math.dist(circle.centre, each) for each in middles), most * (1 + 1e-9) + 1e-9 * circle.radius)

    def test_a_layer_of_curves_alone_and_one_without_geometries(self) -> None:
        self.made_of('curves', '1,"CURVEPOLYGON (CIRCULARSTRING (0 0, 4 0, 4 4, 0 4, 0 0))"\n', 'CURVEPOLYGON')
        with open(self.path('names.csv'), 'w') as out:
            out.write('nr,name\n1,a\n')
        self.run_words(['ogr2ogr', '-update', 'curves.gpkg', 'names.csv'])
        done = self.tool('from-ogr', 'curves.gpkg', '--grid', '1')
        self.assertEqual(done.status, 1)
        self.assertIn('curves 1: left out: CURVEPOLYGON may hold curves', done.told)
        self.assertIn('layer names: passed over, since it has no geometries', done.told)
        self.assertNotIn('# grid crs', done.out)

    def test_points_are_split_and_counted(self) -> None:
        source = self.source('p.gpkg', [{'type': 'MultiPoint', 'coordinates': [[1, 2], [3, 4]]}, {'type': 'Point', 'coordinates': [5, 6]}],
                             '-nlt', 'GEOMETRY', layer='wells')
        done = self.tool('from-ogr', source, '--grid', '1', '--origin', '0', '0')
        self.assertIn('wells 1: it is split into 2 points', done.told)
        self.assertEqual(done.out.splitlines()[-6:], ['# fid 1', 'by import add wells POINT (1 2)', '# fid 1', 'by import add wells POINT (3 4)',
                                                      '# fid 2', 'by import add wells POINT (5 6)'])

    def test_more_than_2000_vertices(self) -> None:
        ring = [(x, 0) for x in range(0, 1001)] + [(x, 5) for x in range(1000, -1, -1)]
        self.source('m.gpkg', [polygon(ring)])
        done = self.tool('from-ogr', 'm.gpkg', '--grid', '1')
        self.assertIn('lots 1: cut into 2 parts, since a shape has 2,000 vertices at most', done.told)
        done = self.tool('tiles', 'split', 'm.gpkg', '--grid', '1', '--tiles', '1', '--into', 'tiles')
        self.assertEqual(done.status, 1)
        self.assertIn('it has 2002 vertices, and a shape has 2,000 at most', done.told)

    def test_faults_are_those_of_the_program(self) -> None:
        lot, shapes = random.Random(7), []
        for _ in range(600):
            rings = [kept([(lot.randint(0, 6), lot.randint(0, 6)) for _ in range(lot.randint(3, 6))], True) for _ in range(lot.choice((1, 1, 2)))]
            shapes.append(Shape('polygon', [rings]))
        lines = ['by a add lots ' + shape_text(shape) for shape in shapes]
        said = self.replay(by_lines('class lots polygon', 'begin a', *lines))[2:]
        faults = [fault_of(shape) for shape in shapes]
        self.assertEqual([reply.replace('refused E18 ', '') if reply.startswith('refused') else None for reply in said], faults)
        self.assertGreater(faults.count(None), 50)


class Grids(unittest.TestCase):
    def test_nearest_lines(self) -> None:
        grid = Grid(Fraction('0.01'), Fraction(100), Fraction(0))
        for text, near in (('100.005', 1), ('100.0049', 0), ('99.995', 0), ('99.9949', -1)):
            self.assertEqual(grid.units(Fraction(text), grid.x)[0], near)

    def test_round_origins_that_fit(self) -> None:
        wide = (Fraction(0), Fraction(0), Fraction(8388), Fraction(10))
        grid = chosen_grid(Fraction('0.001'), wide, '')
        self.assertLessEqual(max(grid.units(wide[2], grid.x)[0], -grid.units(wide[0], grid.x)[0]), 4194304)
        with self.assertRaises(GridError):
            chosen_grid(Fraction('0.001'), (Fraction(0), Fraction(0), Fraction(8389), Fraction(1)), '')


if __name__ == '__main__':
    unittest.main()
