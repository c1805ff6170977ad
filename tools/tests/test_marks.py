"""tools/marks: marks from tables and layers, by rule and ids; what is passed over, and what is refused. And shapes in their canonical form."""
from __future__ import annotations

import random
import sqlite3
import unittest

from lib.canonical import canonical, is_same
from working import PROGRAM, Case, Done, by_lines

LOTS = by_lines('class lots polygon', 'rule polygon_must_not_overlap lots', 'begin import', 'by import add lots POLYGON ((0 0, 9 0, 9 9, 0 9, 0 0))',
                'by import add lots POLYGON ((8 0, 19 0, 19 9, 8 9, 8 0))', 'by import add lots POLYGON ((18 0, 29 0, 29 9, 18 9, 18 0))',
                'by import add lots POLYGON ((28 0, 39 0, 39 9, 28 9, 28 0))', 'validate all')
TABLE = by_lines('layer,fid,id,class,handle,moved,note', 'lots,1,A,lots,1,,', 'lots,2,B,lots,2,,', 'lots,3,C,lots:3,3,,', 'lots,4,,lots,4,,')
HEAD = 'rule;class;subject;subject_id;other_class;other;other_id;mark'


class Marks(Case):
    def setUp(self) -> None:
        super().setUp()
        self.replay_into('-', 'a.project', LOTS)
        self.keep('ids.csv', TABLE)

    def replay_into(self, project: str, target: str, lines: str) -> None:
        done = self.run_words(PROGRAM + ['replay', project, target], lines.encode())
        self.assertEqual(done.status, 0, done.out)
        self.keep(target[0] + '.csv', self.run_words(PROGRAM + ['report', target]).out)

    def keep(self, name: str, text: str) -> None:
        with open(self.path(name), 'w', encoding='utf-8') as out:
            out.write(text)

    def marks(self, *rows: str, words: tuple[str, ...] = (), report: str = 'a.csv') -> Done:
        self.keep('marked.csv', by_lines(HEAD, *rows))
        return self.tool('marks', report, 'ids.csv', 'marked.csv', *words)

    def test_by_ids_and_by_handles(self) -> None:
        done = self.marks('1;lots;70;A;lots;71;B;exception', '1;lots;2;B;lots:3;3;C;', '1;lots:3;3;C;lots;4;;yes')
        self.assertEqual(tuple(done), (0, 'mark 1 1 2\nmark 1 3 4\n', ''))
        self.replay_into('a.project', 'b.project', done.out)
        again = self.marks('1;lots;1;A;lots;2;B;exception', '1;lots;3;C;lots;4;;error', report='b.csv')
        self.assertEqual(tuple(again), (0, '', ''))
        self.assertEqual(self.marks('1;lots;3;C;lots;4;;error', words=('--unmark',), report='b.csv').out, 'unmark 1 3 4\n')

    def test_what_has_changed_since(self) -> None:
        self.replay_into('a.project', 'c.project', by_lines('begin import', 'by import change 1 POLYGON ((0 0, 10 0, 10 9, 0 9, 0 0))', 'by import delete 4',
                                                            'validate all'))
        done = self.marks('1;lots;1;A;lots;2;B;x', '1;lots;2;B;lots;3;C;x', '1;lots;3;C;lots;4;;x', words=('--seen', 'a.csv'), report='c.csv')
        self.assertEqual((done.status, done.out), (1, 'mark 1 2 3\n'))
        self.assertEqual(done.told.splitlines(), ['rule 1, lots A with lots B: the error is another one now, so it is not marked',
                                                  'rule 1, lots C with lots #4: there is no such error now'])

    def test_layers_and_another_column(self) -> None:
        with sqlite3.connect(self.path('e.gpkg')) as package:
            package.execute('CREATE TABLE gpkg_contents (table_name TEXT)')
            package.execute("INSERT INTO gpkg_contents VALUES ('error_polygons'), ('dirty')")
            package.execute('CREATE TABLE dirty (number INTEGER)')
            package.execute('CREATE TABLE error_polygons (rule INTEGER, class TEXT, subject INTEGER, subject_id TEXT, other_class TEXT, other INTEGER, '
                            'other_id TEXT, mark TEXT, decision TEXT)')
            package.execute("INSERT INTO error_polygons VALUES (1, 'lots', 1, 'A', 'lots', 2, 'B', 'error', NULL), "
                            "(1, 'lots', 2, 'B', 'lots:3', 3, 'C', 'error', 'Yes')")
        package.close()
        self.assertEqual(tuple(self.tool('marks', 'a.csv', 'ids.csv', 'e.gpkg', '--column', 'decision')), (0, 'mark 1 2 3\n', ''))
        self.assertEqual(tuple(self.tool('marks', 'a.csv', 'ids.csv', 'e.gpkg')), (0, '', ''))

    def test_what_is_refused(self) -> None:
        for rows, words, said in ((('1;lots;1;A;lots;2;B;perhaps',), (), 'marked.csv: row 1 says `perhaps` in mark; it may say exception, yes, true, x, 1, error, '
                                                                         'no, false, 0'),
                                  (('1;lots;1;A;lots;2;B;x', '1;lots;1;A;lots;2;B;no'), (), 'marked.csv: two rows say both of the error of rule 1 at lots A'),
                                  (('1;lots;1;A;lots;2;B;x',), ('--column', 'none'), 'marked.csv has no column none')):
            self.assertEqual(tuple(self.marks(*rows, words=words)), (2, '', 'marks: %s\n' % said))
        self.keep('few.csv', by_lines('rule,class', '1,lots'))
        for name, said in (('none.gpkg', 'there is no file none.gpkg'), ('few.csv', 'few.csv has no column subject: it takes what tools/to-gis wrote')):
            self.assertEqual(tuple(self.tool('marks', 'a.csv', 'ids.csv', name)), (2, '', 'marks: %s\n' % said))


def ring_text(places: list) -> str:
    return '(%s)' % ', '.join('%d %d' % place for place in places + places[:1])


def turned(lot: random.Random, places: list) -> list:
    """The same ring from another place, perhaps the other way round."""
    at = lot.randrange(len(places))
    places = places[at:] + places[:at]
    return places[::-1] if lot.random() < .5 else places


class Canonical(unittest.TestCase):
    def test_rings_parts_and_lines(self) -> None:
        lot = random.Random(5)
        for _ in range(300):
            parts = [[[(lot.randint(0, 9), lot.randint(0, 9)) for _ in range(lot.randint(3, 9))] for _ in range(lot.randint(1, 3))] for _ in range(lot.randint(2, 3))]
            text = 'MULTIPOLYGON (%s)' % ', '.join('(%s)' % ', '.join(map(ring_text, part)) for part in parts)
            other = [[turned(lot, part[0]), *lot.sample([turned(lot, ring) for ring in part[1:]], len(part) - 1)] for part in lot.sample(parts, len(parts))]
            again = 'MULTIPOLYGON (%s)' % ', '.join('(%s)' % ', '.join(map(ring_text, part)) for part in other)
            self.assertTrue(is_same(text, again), (text, again))
            x, y = parts[0][0][1]
            parts[0][0][1] = x + 20, y
            self.assertFalse(is_same(text, 'MULTIPOLYGON (%s)' % ', '.join('(%s)' % ', '.join(map(ring_text, part)) for part in parts)))

    def test_what_is_another_shape(self) -> None:
        self.assertTrue(is_same('LINESTRING (0 0, 5 1, 9 0)', 'LINESTRING (9 0, 5 1, 0 0)'))
        self.assertTrue(is_same('MULTILINESTRING ((0 0, 1 1), (2 2, 3 3))', 'MULTILINESTRING ((3 3, 2 2), (0 0, 1 1))'))
        for one, other in (('LINESTRING (0 0, 5 1, 9 0)', 'LINESTRING (5 1, 0 0, 9 0)'), ('POINT (1 2)', 'POINT (2 1)'),
                           ('POLYGON ((0 0, 9 0, 9 9, 0 9, 0 0))', 'POLYGON ((0 0, 9 9, 9 0, 0 9, 0 0))'),
                           ('LINESTRING (0 0, 9 0, 0 9, 0 0)', 'POLYGON ((0 0, 9 0, 0 9, 0 0))')):
            self.assertNotEqual(canonical(one), canonical(other))


if __name__ == '__main__':
    unittest.main()
