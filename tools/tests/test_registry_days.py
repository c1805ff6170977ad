"""Four days of a registry, from the source to the status that lets a delivery go: a town with planted faults of many rules, an officer's exceptions, a second
day with edits, a third with turned rings, a fourth when all is mended.

REGISTRY=50x66 makes a town of 10,000 features; otherwise it has 6 rows of 8 parcels.
"""
from __future__ import annotations

import csv
import os
import shutil
import sqlite3
import unittest

from working import PROGRAM, TOOLS, Case, Done

ROWS, COLUMNS = map(int, os.environ.get('REGISTRY', '6x8').split('x'))
GAPS = 'polygon_must_not_have_gaps'
RULES = [('polygon_must_not_overlap', 'parcels'), (GAPS, 'parcels'), ('polygon_must_not_overlap', 'buildings'), ('polygon_must_be_covered_by', 'buildings', 'parcels'),
         ('polygon_must_not_overlap_with', 'buildings', 'parcels:kept'), ('polygon_contains_point', 'parcels', 'addresses'),
         ('point_must_be_disjoint', 'addresses'), ('point_must_be_properly_inside', 'addresses', 'parcels'), ('line_must_not_have_dangles', 'roads'),
         ('line_must_not_have_pseudo_nodes', 'roads'), ('line_must_not_intersect', 'roads'), ('line_must_not_overlap', 'roads'),
         ('line_must_not_self_intersect', 'roads'), ('line_must_be_single_part', 'roads')]
OVERLAP, TWICE = ('polygon_must_not_overlap', 'P001/001', 'P001/002'), ('polygon_must_not_overlap', 'P004/006', 'P004/006x')
SLIVER = 'polygon_must_not_overlap', 'P001/004', 'P001/005'
ADDRESS_TWICE = 'point_must_be_disjoint', 'A004/003', 'A004/003x'
# What is mended on the second day, and what stays to the fourth.
MENDED = {OVERLAP, TWICE, ADDRESS_TWICE}
LATER = {('polygon_must_not_overlap', 'B002/002', 'B002/002x'), ('polygon_must_be_covered_by', 'B002/005', ''),
         ('polygon_must_not_overlap_with', 'B003/006', 'P003/006'), ('polygon_contains_point', 'P004/001', ''),
         ('point_must_be_properly_inside', 'A outside', ''), ('point_must_be_properly_inside', 'A on a border', ''),
         ('line_must_not_have_dangles', 'R ends nowhere', ''), ('line_must_not_have_pseudo_nodes', 'R along 001/000a', ''),
         ('line_must_not_have_pseudo_nodes', 'R along 001/000b', ''), ('line_must_not_intersect', 'R up 001/001', 'R twice'),
         ('line_must_not_intersect', 'R diagonal', 'R other diagonal'), ('line_must_not_overlap', 'R up 001/001', 'R twice'),
         ('line_must_not_self_intersect', 'R crossed', ''), ('line_must_be_single_part', 'R of two parts', '')}
NEW = {('polygon_must_not_overlap', 'B001/006', 'B001/006x')}
AT_GAP = {(GAPS, 'P%03d/%03d' % (row, place), '') for row in (2, 3, 4) for place in (2, 3)}

Errors = set[tuple[str, str, str]]


def perimeter(*divided: str) -> Errors:
    """The parcels on the perimeter; the one that is divided has these halves."""
    names = {'P%03d/%03d' % (row, place) for row in range(ROWS) for place in range(COLUMNS) if row in (0, ROWS - 1) or place in (0, COLUMNS - 1)}
    on_border = ROWS == 6 and bool(divided)
    return {(GAPS, name, '') for name in (names - {'P005/003'} | set(divided) if on_border else names)}


@unittest.skipUnless(shutil.which('ogr2ogr'), 'ogr2ogr is not installed (package gdal-bin)')
class Days(Case):
    def night(self, day: int, *words: str) -> Done:
        """The source of this day, and its night."""
        maker = os.path.join(os.path.dirname(TOOLS), 'examples', 'make_town')
        made = self.run_words([maker, 'town.gpkg', '--rows', str(ROWS), '--columns', str(COLUMNS), '--day', str(day)])
        self.assertEqual((made.status, made.told), (0, ''))
        return self.tool('night', 'town.gpkg', 'town', '--program', PROGRAM[0], *words)

    def listed(self, sort: str) -> Errors:
        """The errors of a sort that the news of the last night have."""
        with open(self.path('town/current/news.csv'), encoding='utf-8', newline='') as table:
            return {(row['word'], row['id'], row['other_id']) for row in csv.DictReader(table) if row['news'] == sort}

    def mark(self, errors: Errors) -> None:
        """An officer marks errors in the layers of the last night, and saves them as a table for the next one."""
        with sqlite3.connect(self.path('town/current/errors.gpkg')) as layers, open(self.path('marked.csv'), 'w', encoding='utf-8', newline='') as out:
            table = csv.writer(out, delimiter=';')
            head: list[str] = []
            for layer in ('error_polygons', 'error_lines', 'error_points'):
                cursor = layers.execute('SELECT rule, word, class, subject, subject_id, other_class, other, other_id FROM ' + layer)
                if not head:
                    head = [column[0] for column in cursor.description]
                    table.writerow([*head, 'decision'])
                for row in cursor:
                    is_marked = (row[1], row[4], row[7] or '') in errors
                    table.writerow([*row, 'exception' if is_marked else ''])

    def counts(self, done: Done) -> str:
        return next(line for line in done.out.splitlines() if line.startswith('errors: '))

    def test_four_days(self) -> None:
        words = [word for rule in RULES for word in ('--rule', *rule)]
        done = self.night(1, '--grid', '0.01', '--id', 'id', '--subtype', 'parcels', 'use', *words)
        first = MENDED | LATER | AT_GAP | {SLIVER} | perimeter()
        self.assertEqual((done.status, self.listed('new')), (1, first), done.told)
        self.assertEqual(self.rows('town/current/errors.gpkg', 'SELECT count(*) AS n FROM gaps'), [{'n': 1}])
        self.mark(perimeter() | {SLIVER})
        with open(self.path('town/current/project'), encoding='utf-8') as project:
            kept = {line for line in project if line.startswith('feature ')}

        done = self.night(2, '--marks', 'marked.csv', '--column', 'decision')
        halves = perimeter('P005/003a', 'P005/003b') - perimeter()
        gone = perimeter() - perimeter('P005/003a', 'P005/003b')
        self.assertEqual((done.status, self.listed('new'), self.listed('gone')), (1, NEW | halves, MENDED | gone), done.told)
        self.assertEqual(self.counts(done), 'errors: %d; exceptions: %d' % (len(NEW | LATER | AT_GAP | halves), len(perimeter() - gone) + 1))
        self.mark(halves)

        done = self.night(3, '--marks', 'marked.csv', '--column', 'decision')
        self.assertIn('the same, 0 changed, 0 added, 0 deleted', done.told)
        self.assertEqual((done.status, [self.listed(sort) for sort in ('new', 'changed', 'lapsed', 'gone')]), (1, [set()] * 4))
        self.assertEqual(self.counts(done), 'errors: %d; exceptions: %d' % (len(NEW | LATER | AT_GAP), len(perimeter('P005/003a', 'P005/003b')) + 1))

        done = self.night(4)
        self.assertEqual((done.status, self.listed('gone'), self.listed('new')), (0, NEW | LATER | AT_GAP, set()), done.told)
        with open(self.path('town/current/project'), encoding='utf-8') as project:
            still = kept & set(project)
        self.assertGreater(len(still), len(kept) - 20)


if __name__ == '__main__':
    unittest.main()
