"""tools/changes: a project follows its source, keeps handles and exceptions, and is then what the source makes; what is refused."""
from __future__ import annotations

import csv
import random
import shutil
import unittest

from working import PROGRAM, Case, Done, by_lines, rectangle

HEADER = 'layer,fid,id,class,handle,moved,note'
PROJECT = by_lines('topology 1', 'next 3', 'class lots polygon', 'feature 1 lots POLYGON ((0 0, 9 0, 0 9, 0 0))',
                   'feature 2 lots POLYGON ((20 0, 29 0, 20 9, 20 0))', 'end')
TABLE = by_lines(HEADER, 'lots,1,A,lots,1,,', 'lots,2,B,lots,2,,')
SHAPES = {'A': 'POLYGON ((0 0, 9 0, 0 9, 0 0))', 'B': 'POLYGON ((20 0, 29 0, 20 9, 20 0))', 'C': 'POLYGON ((40 0, 49 0, 40 9, 40 0))'}


def script(*ids: str, of_class: str = 'lots', **shapes: str) -> str:
    """The script of lots with these ids."""
    added = [line for name in ids for line in ('# fid 7 id "%s"' % name if name else '# fid 7',
                                               'by import add %s %s' % (of_class, {**SHAPES, **shapes}.get(name, SHAPES['A'])))]
    return by_lines('# grid resolution 1', '# grid origin 0 0', 'class lots polygon', 'begin import', *added)


class Changes(Case):
    def write(self, **texts: str) -> None:
        for name, text in texts.items():
            with open(self.path(name.replace('_', '.')), 'w', encoding='utf-8') as out:
                out.write(text)

    def changes(self, new: str, project: str = PROJECT, table: str = TABLE) -> Done:
        self.write(a_project=project, a_csv=table, new_topo=new)
        return self.tool('changes', 'a.project', 'a.csv', 'new.topo', 'next.csv')

    def test_the_lines(self) -> None:
        done = self.changes(script('C', 'A', A='POLYGON ((0 0, 8 0, 0 9, 0 0))').replace('"C"', '"C \\"1\\""').replace('49 0', '49 1'))
        lines = ['by import delete 2', 'by import change 1 POLYGON ((0 0, 8 0, 0 9, 0 0))', '# fid 7 id "C \\"1\\""',
                 'by import add lots POLYGON ((40 0, 49 1, 40 9, 40 0))']
        self.assertEqual(done.out.splitlines(), ['# grid resolution 1', '# grid origin 0 0', 'begin import', *lines, 'validate all', 'rules', 'cells', 'dirty'])
        self.assertEqual(done.told.splitlines()[-1], '0 the same, 1 changed, 1 added, 1 deleted; 0 in the project alone')
        self.assertEqual(done.status, 1)
        with open(self.path('next.csv'), encoding='utf-8') as table:
            self.assertEqual(table.read(), by_lines(HEADER, ',7,"C ""1""",lots,3,,', ',7,A,lots,1,,'))

    def test_what_is_in_the_project_alone_stays(self) -> None:
        done = self.changes(script('B'), table=by_lines(HEADER, 'lots,2,B,lots,2,,', 'lots,3,C,lots,3,,', 'lots,4,D,,,,left out: it is empty'))
        self.assertEqual((done.status, done.told), (0, '1 the same, 0 changed, 0 added, 0 deleted; 1 in the project alone\n'))
        self.assertEqual(done.out.splitlines()[3], 'validate all')

    def test_a_class_without_a_feature_now_is_told(self) -> None:
        both = PROJECT.replace('class lots polygon\n', 'class lots polygon\nclass lakes polygon\n').replace('2 lots', '2 lakes')
        done = self.changes(script('A'), both, TABLE.replace('B,lots', 'B,lakes'))
        self.assertEqual((done.status, done.told), (1, 'the source has no feature of class lakes, so all of them are deleted: are the sources and '
                                                       'layers those of the first script?\n1 the same, 0 changed, 0 added, 1 deleted; 0 in the '
                                                       'project alone\n'))
        self.assertIn('by import delete 2', done.out)

    def test_what_is_refused(self) -> None:
        for words, said in (((script('A', 'A'),), 'new.topo: two features of class lots have the id A'),
                            ((script('A', ''),), 'new.topo: a feature of class lots has no id'),
                            ((script('A', of_class='lakes'),), 'new.topo: the project has no class lakes'),
                            ((script('A'), 'topology 3\n'), 'a.project is no saved project'),
                            ((script('A'), PROJECT, 'id,handle\nA,1\n'), 'a.csv has not the columns ' + HEADER),
                            ((script('A'), PROJECT, TABLE.replace('B,lots', 'B,lakes')), 'a.csv: feature 2 is of class lots in the project: '
                                                                                         'the table is of another one')):
            self.assertEqual(tuple(self.changes(*words)), (2, '', 'changes: %s\n' % said))

    @unittest.skipUnless(shutil.which('ogr2ogr'), 'ogr2ogr is not installed (package gdal-bin)')
    def test_a_map_from_night_to_night(self) -> None:
        """The project of a source that changes five times has its features by their ids, and its errors, as a new script would; and a mark
        goes where one of its two lots does, or their overlap changes."""
        lot, places = random.Random(3), {'N%d' % i: (3 * (i % 9), 3 * (i // 9), 4, 3) for i in range(1, 80)}
        self.write(a_project='', a_csv='')
        for night in range(5):
            self.source('row.geojson', [rectangle(x, y, x + w, y + h) for x, y, w, h in places.values()], '-f', 'GeoJSON')
            self.name_lots(list(places))
            words = ['row.geojson', '--grid', '1', '--origin', '0', '0', '--id', 'nr', '--rule', 'polygon_must_not_overlap', 'lots']
            made = self.tool('from-ogr', *words, '--table', 'ids.csv')
            self.assertEqual(made.status, 0, made.told)
            self.follow(made.out, night)
            for name in lot.sample(sorted(places), 6):
                x, y, w, h = places.pop(name)
                if lot.random() < .7:
                    places[name if lot.random() < .5 else 'N%d' % lot.randint(100, 999)] = (x, y + lot.randint(0, 1), w + lot.randint(0, 1), h)

    def name_lots(self, names: list[str]) -> None:
        with open(self.path('row.geojson'), encoding='utf-8') as source:
            text = source.read()
        for number, name in reversed(list(enumerate(names, 1))):
            text = text.replace('"nr": "N%d"' % number, '"nr": "=%s"' % name)
        self.write(row_geojson=text.replace('"=', '"'))

    def follow(self, new: str, night: int) -> None:
        """Brings the project to the new script, or makes it of the first one with all errors marked."""
        self.write(new_topo=new)
        if night == 0:
            errors = [line.split()[1:4] for line in self.replay(new) if line.startswith('error')]
            marks = by_lines(*('mark ' + ' '.join(error) for error in errors))
            self.run_words(PROGRAM + ['replay', '-', 'a.project'], (new + marks).encode())
            self.assertGreater(len(errors), 50)
            with open(self.path('ids.csv'), encoding='utf-8') as table:
                self.write(a_csv=table.read())
            return
        before = self.errors_by_id('a.project', 'a.csv')
        done = self.tool('changes', 'a.project', 'a.csv', 'new.topo', 'next.csv')
        self.assertEqual(done.status, 0, done.told)
        replayed = self.run_words(PROGRAM + ['replay', 'a.project', 'b.project'], done.out.encode())
        self.assertEqual(replayed.status, 0, replayed.out)
        self.run_words(PROGRAM + ['replay', '-', 'c.project'], new.encode())
        now, anew = self.errors_by_id('b.project', 'next.csv'), self.errors_by_id('c.project', 'ids.csv')
        self.assertEqual(now.keys(), anew.keys())
        self.assertEqual([key for key in now if now[key] == 'exception'], [key for key in now if before.get(key) == 'exception'])
        self.assertIn('error', now.values())
        for old, new_name in (('b.project', 'a.project'), ('next.csv', 'a.csv')):
            with open(self.path(old), encoding='utf-8') as text:
                self.write(**{new_name.replace('.', '_'): text.read()})

    def errors_by_id(self, project: str, table: str) -> dict[tuple, str]:
        """The marks of errors by the ids of both lots, without order, and the frame."""
        with open(self.path(table), encoding='utf-8') as rows:
            ids = {row['handle']: row['id'] for row in csv.DictReader(rows)}
        records = [line.split(',') for line in self.run_words(PROGRAM + ['report', project]).out.splitlines()[1:]]
        return {(*sorted([ids[record[2]], ids[record[3]]]), *record[6:]): record[5] for record in records}


if __name__ == '__main__':
    unittest.main()
