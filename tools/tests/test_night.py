"""tools/night: nights that follow each other, with an officer's marks, turned rings and features left out; and one that is killed at any step."""
from __future__ import annotations

import csv
import json
import os
import signal
import sqlite3
import subprocess
import sys

from lib.interpreter import TRIED
from working import PROGRAM, TOOLS, Case, Done, rectangle

WORDS = '--grid', '1', '--id', 'nr', '--rule', 'polygon_must_not_overlap', 'lots'
# Runs a tool that is killed before its Nth call of those that change files or run programs.
KILLER = '''
import os, runpy, subprocess, sys
left = int(sys.argv.pop(1))
def counted(call):
    def step(*words, **named):
        global left
        left -= 1
        if left == 0:
            os.kill(os.getpid(), 9)
        return call(*words, **named)
    return step
for name in 'rename', 'replace', 'symlink', 'fsync', 'mkdir', 'remove', 'rmdir':
    setattr(os, name, counted(getattr(os, name)))
subprocess.run = counted(subprocess.run)
sys.argv.pop(0)
sys.path.insert(0, os.path.dirname(sys.argv[0]))
runpy.run_path(sys.argv[0], run_name='__main__')
'''


def turned(of: dict) -> dict:
    """The same polygon, each ring of which begins elsewhere and goes the other way round."""
    rings = [ring[:-1][::-1] for ring in of['coordinates']]
    return {**of, 'coordinates': [ring[1:] + ring[:1] + ring[1:2] for ring in rings]}


class Night(Case):
    def lots(self, **shapes: dict) -> None:
        """The source, with lots of these ids."""
        features = [{'type': 'Feature', 'properties': {'nr': name}, 'geometry': shape} for name, shape in shapes.items()]
        crs = {'type': 'name', 'properties': {'name': 'urn:ogc:def:crs:EPSG::31467'}}
        with open(self.path('lots.geojson'), 'w', encoding='utf-8') as out:
            json.dump({'type': 'FeatureCollection', 'name': 'lots', 'crs': crs, 'features': features}, out)

    def night(self, *words: str) -> Done:
        return self.tool('night', 'lots.geojson', 'town', '--program', PROGRAM[0], *words)

    def said(self, *words: str) -> tuple[int, list[str]]:
        done = self.night(*words)
        return done.status, done.out.splitlines()

    def news(self) -> list[list[str]]:
        with open(self.path('town/current/news.csv'), encoding='utf-8', newline='') as table:
            return [[row['news'], row['id'], row['other_id']] for row in csv.DictReader(table)]

    def first(self) -> dict[str, dict]:
        shapes = {'A': rectangle(0, 0, 11, 10), 'B': rectangle(10, 0, 20, 10), 'C': rectangle(19, 0, 30, 10)}
        self.lots(**shapes)
        self.assertEqual(self.said(*WORDS), (1, ['errors: 2; exceptions: 0', 'new: 2', '    polygon_must_not_overlap lots A with lots B',
                                                 '    polygon_must_not_overlap lots B with lots C']))
        return shapes

    def mark(self, column: str = 'mark') -> None:
        """What an officer does in the layers of the last night."""
        layers = sqlite3.connect(self.path('town/current/errors.gpkg'))
        names = [name for _, name, *_ in layers.execute('PRAGMA table_info(error_polygons)')]
        if column not in names:
            layers.execute('ALTER TABLE error_polygons ADD COLUMN %s TEXT' % column)
        for trigger, in layers.execute("SELECT name FROM sqlite_master WHERE type = 'trigger'").fetchall():
            layers.execute('DROP TRIGGER "%s"' % trigger)
        layers.execute("UPDATE error_polygons SET %s = 'exception' WHERE subject_id = 'A'" % column)
        layers.commit()
        layers.close()

    def test_from_night_to_night(self) -> None:
        shapes = self.first()
        self.mark()
        self.lots(**{name: turned(shape) for name, shape in shapes.items()})
        status, lines = self.said('--marks', 'town/current/errors.gpkg')
        self.assertEqual((status, lines), (1, ['marked: 1', 'errors: 1; exceptions: 1']))
        self.lots(A=rectangle(0, 0, 12, 10), B=shapes['B'], D=rectangle(29, 0, 40, 10))
        status, lines = self.said()
        self.assertEqual((status, lines), (1, ['errors: 1; exceptions: 0', 'lapsed: 1', '    polygon_must_not_overlap lots A with lots B',
                                               'gone: 1', '    polygon_must_not_overlap lots B with lots C']))
        self.assertEqual(self.news(), [['lapsed', 'A', 'B'], ['gone', 'B', 'C']])
        self.lots(A=rectangle(0, 0, 10, 10), B=shapes['B'])
        self.assertEqual(self.said('--keep', '2')[0], 0)
        self.assertEqual(len(os.listdir(self.path('town/nights'))), 2)

    def test_a_mark_of_what_has_changed_is_told(self) -> None:
        shapes = self.first()
        self.mark('decision')
        self.lots(**{**shapes, 'A': rectangle(0, 0, 12, 10)})
        status, lines = self.said('--marks', 'town/current/errors.gpkg', '--column', 'decision')
        self.assertEqual((status, lines[:2]), (1, ['marked: 0', '    not marked: rule 1, lots A with lots B: the error is another one now, so it is '
                                                                 'not marked']))

    def test_subtypes(self) -> None:
        """A lot that gets another use is retyped, and the words come back in the layers."""
        features = {'A': ('farm', rectangle(0, 0, 11, 10)), 'B': ('built', rectangle(10, 0, 20, 10))}
        def lots() -> None:
            self.lots(**{name: shape for name, (_, shape) in features.items()})
            with open(self.path('lots.geojson'), encoding='utf-8') as file:
                made = json.load(file)
            for feature in made['features']:
                feature['properties']['use'] = features[feature['properties']['nr']][0]
            with open(self.path('lots.geojson'), 'w', encoding='utf-8') as out:
                json.dump(made, out)
        lots()
        words = [*WORDS[:4], '--subtype', 'use', '--rule', 'polygon_must_not_overlap_with', 'lots:built', 'lots:farm']
        self.assertEqual(self.said(*words)[0], 1)
        asked = 'SELECT subtype, other_subtype FROM error_polygons'
        self.assertEqual(self.rows('town/current/errors.gpkg', asked), [{'subtype': 'built', 'other_subtype': 'farm'}])
        features['A'] = 'acre', features['A'][1]
        lots()
        self.assertEqual(self.said(), (0, ['errors: 0; exceptions: 0', 'gone: 1', '    polygon_must_not_overlap_with lots B with lots A']))
        with open(self.path('town/current/edits.topo'), encoding='utf-8') as edits:
            text = edits.read()
        self.assertIn('by import retype 1 3\n', text)
        self.assertIn('# grid subtype lots 3 "acre"\n', text)

    def test_left_out(self) -> None:
        shapes = self.first()
        crossed = {'type': 'Polygon', 'coordinates': [[[10, 0], [20, 10], [20, 0], [10, 10], [10, 0]]]}
        self.lots(A=shapes['A'], B=crossed, C=rectangle(10, 0, 30, 10))
        status, lines = self.said()
        self.assertEqual((status, lines[-3:]), (1, ['left out: 1', '    lots 1 (B): its segments 0 and 2 cross at 15 5; errors beside it: 1',
                                                    '        polygon_must_not_overlap lots A with lots C']))
        self.lots(A=rectangle(0, 0, 10, 10), B=crossed, C=rectangle(10, 0, 30, 10))
        self.assertEqual(self.night().status, 3)

    def test_what_fails_leaves_the_last_night(self) -> None:
        self.first()
        current = os.readlink(self.path('town/current'))
        for words, said in (((*WORDS[:1], '2'), '--grid was "1" in the first night'), (('--marks', 'none.gpkg'), 'there is no file none.gpkg')):
            done = self.night(*words)
            self.assertEqual(done.status, 2)
            self.assertIn('night: ' + said, done.told)
        os.remove(self.path('lots.geojson'))
        self.assertEqual(self.night().status, 2)
        self.lots(A=rectangle(500, 0, 511, 10), B=rectangle(500, 0, 511, 10), C=rectangle(500, 0, 501, 10))
        done = self.night()
        self.assertEqual((done.status, 'most likely another one' in done.told), (2, True))
        self.assertEqual(os.readlink(self.path('town/current')), current)
        self.assertEqual(self.night('--go-on').status, 1)
        self.assertEqual(self.tool('night', 'lots.geojson', 'other', '--grid', '1').status, 2)

    def pair(self) -> tuple[str, str]:
        """The project and the table of the last whole night."""
        with open(self.path('town/current/project'), encoding='utf-8') as project, open(self.path('town/current/table.csv'), encoding='utf-8') as table:
            return project.read(), table.read()

    def killed(self, step: int) -> bool:
        """Whether a night was killed at this step, and did not come to its end before."""
        words = [sys.executable, '-c', KILLER, str(step), os.path.join(TOOLS, 'night'), 'lots.geojson', 'town', '--program', PROGRAM[0]]
        done = subprocess.run(words, cwd=self.folder, capture_output=True, env={**os.environ, TRIED: '1'})
        if done.returncode != -signal.SIGKILL:
            self.assertIn('is current', done.stderr.decode())
        return done.returncode == -signal.SIGKILL

    def test_killed_at_any_step(self) -> None:
        """Each night is cut off at a later step; the next one takes up what it left. The pair is always that of one night."""
        shapes = self.first()
        old = self.pair()
        self.lots(**{**shapes, 'A': rectangle(0, 0, 12, 10), 'E': rectangle(50, 0, 60, 10)})
        step, pairs = 1, []
        while self.killed(step):
            pairs.append(self.pair())
            step += 1
        new = self.pair()
        self.assertGreater(step, 20)
        self.assertNotEqual(old, new)
        self.assertEqual(set(pairs), {old, new})
        self.assertEqual(pairs, sorted(pairs, key=lambda pair: pair == new))
        self.assertEqual(sorted(os.listdir(self.path('town'))), ['.lock', 'current', 'nights'])


if __name__ == '__main__':
    import unittest
    unittest.main()
