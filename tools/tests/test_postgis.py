"""tools/postgis: its tests beside a server run by the system's Python, which has psycopg2; what needs no server runs here."""
import os
import random
import subprocess
import sys
import unittest
from fractions import Fraction

from lib.grid import Grid
from lib.postgis.blocks import Difference
from lib.postgis.judge import Edit, Judge, Rule
from lib.postgis.units import number_of, Units
from lib.rules import KINDS_OF
from lib.scripts import LeftOut
from postgres import has_extension
from working import PROGRAM

HERE = os.path.dirname(os.path.abspath(__file__))
PYTHON = '/usr/bin/python3'
LONG = 900


def missing() -> str:
    """What the tests beside a server need and this machine has not."""
    if not os.path.exists(PYTHON):
        return PYTHON
    asked = 'import sys; sys.path.insert(0, %r); import postgres; print(", ".join(postgres.missing()))' % HERE
    return subprocess.run([PYTHON, '-c', asked], capture_output=True, text=True).stdout.strip()


def missing_parts() -> list[tuple[str, str]]:
    """The parts that are skipped here, and what is missing for them."""
    if missing():
        return [('test_postgis', missing())]
    return [] if has_extension('plpython3u') else [('the refusal of commits in test_postgis', 'plpython3u (package postgresql-plpython3-15)')]


class Beside(unittest.TestCase):
    def test_beside_a_server(self) -> None:
        if missing():
            self.skipTest('without %s' % missing())
        done = subprocess.run([PYTHON, os.path.join(HERE, 'postgis_cases.py')], stdout=subprocess.PIPE, stderr=subprocess.STDOUT, text=True,
                              timeout=LONG, env=dict(os.environ, TOPO='\n'.join(PROGRAM)))
        self.assertEqual(done.returncode, 0, done.stdout)


CLASSES = {'lots': 'polygon', 'lakes': 'polygon', 'roads': 'line', 'paths': 'line', 'wells': 'point', 'posts': 'point'}
OF_KIND = {'polygon': ('lots', 'lakes'), 'line': ('roads', 'paths'), 'point': ('wells', 'posts')}


def every_rule() -> list[Rule]:
    """Each rule, of a class and of another one."""
    found = []
    for number, (word, (kind, other)) in enumerate(KINDS_OF.items(), 1):
        found.append(Rule(number, word, OF_KIND[kind][0], OF_KIND[other][1] if other else ''))
    return found


def random_shape(lot: random.Random, kind: str) -> str:
    """A shape on a grid of 20 by 20, of 6 by 6 at most."""
    x, y = lot.randint(0, 14), lot.randint(0, 14)
    place = lambda: '%d %d' % (x + lot.randint(0, 6), y + lot.randint(0, 6))
    if kind == 'point':
        return 'POINT(%s)' % place()
    if kind == 'line':
        return 'LINESTRING(%s)' % ','.join(place() for _ in range(lot.randint(2, 4)))
    if lot.random() < 0.5:
        u, v = x + lot.randint(1, 6), y + lot.randint(1, 6)
        return 'POLYGON((%d %d,%d %d,%d %d,%d %d,%d %d))' % (x, y, u, y, u, v, x, v, x, y)
    first = place()
    return 'POLYGON((%s))' % ','.join([first, place(), place(), first])


class Lens(unittest.TestCase):
    """What is seen near the changes is what the whole listing has, of each rule; a trial foresees it and changes nothing."""

    def edits(self, lot: random.Random, judge: Judge) -> list[Edit]:
        found = {}
        for _ in range(lot.choice((1, 1, 2, 5))):
            of_class = lot.choice(list(CLASSES))
            place = (of_class, str(lot.randint(1, 12)))
            found[place] = Edit(place, lot.random() < 0.2, random_shape(lot, CLASSES[of_class]))
        return list(found.values())

    def test_random_edits(self) -> None:
        lot, foreseen = random.Random(11), 0
        judge = Judge(PROGRAM, Grid(Fraction(1), Fraction(0), Fraction(0)), CLASSES, every_rule())
        self.addCleanup(judge.close)
        judge.session('ann', [Edit((name, str(number)), False, random_shape(lot, kind)) for name, kind in CLASSES.items() for number in range(1, 10)])
        judge.mirror.settle()
        judge.validate()
        judge.whole()
        for turn in range(100):
            edits = self.edits(lot, judge)
            before = set(judge.errors.by_key)
            said = judge.trial(edits)
            self.assertEqual(set(judge.errors.by_key), before)
            outcome = judge.session('ann', edits)
            judge.validate()
            found = judge.near()
            self.assertEqual((judge.missed, judge.whole()), (0, Difference([], [], [])))
            if not outcome.refused:
                self.assertEqual(len(said), len({block.key for block in found.come} - before), turn)
                foreseen += len(said)
        self.assertGreater(len({block.key[0] for block in judge.errors.by_key.values()}), 15)
        self.assertGreater(foreseen, 50)


class Numbers(unittest.TestCase):
    def test_units_are_those_of_the_grid(self) -> None:
        lot = random.Random(5)
        for resolution, origin in (('0.001', '500000'), ('1', '-3'), ('0.25', '0.5'), ('0.1', '0.05'), ('0.0001', '12.5')):
            grid = Grid(Fraction(resolution), Fraction(origin), Fraction(origin))
            units = Units(grid)
            for _ in range(500):
                text = repr(round(lot.uniform(-9, 9), lot.randint(0, 6))).replace('.0', '') if lot.random() < 0.9 else '%de-%d' % (lot.randint(1, 9), lot.randint(5, 20))
                self.assertEqual(units.number(text, 0), grid.units(number_of(text), grid.x)[0], text)

    def test_texts(self) -> None:
        units = Units(Grid(Fraction(1, 10), Fraction(0), Fraction(0)))
        self.assertEqual(units.line('POLYGON((0 0,1.5 0,1.5 1.25,0 0),(0.1 0.1,0.2 0.1,0.2 0.2,0.1 0.1))', 'polygon'),
                         'POLYGON((0 0,15 0,15 13,0 0),(1 1,2 1,2 2,1 1))')
        self.assertEqual(units.line('MULTIPOINT((1 -2e-05))', 'point'), 'POINT(10 0)')
        for text, kind, why in (('MULTIPOINT((1 2),(3 4))', 'point', 'it has 2 points, and a row is one feature'), ('POINT EMPTY', 'point', 'it is empty'),
                                ('POINT(1 2)', 'polygon', 'POINT is no polygon'), ('CIRCULARSTRING(0 0,1 1,2 0)', 'line', 'CIRCULARSTRING may hold curves')):
            with self.assertRaisesRegex(LeftOut, why):
                units.line(text, kind)


if __name__ == '__main__':
    unittest.main()
