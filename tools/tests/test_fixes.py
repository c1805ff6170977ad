"""tools/fixes: what is listed is what comes of the lines, and nothing is done but what is asked for; the lines of fixes in scripts and replies."""
import csv
import io
import json
import os
import random
import shlex
import shutil
import unittest
from fractions import Fraction

from lib.bodies import Body
from lib.fixing import place_inside
from lib.forms import can_answer
from lib.grid_scripts import script as grid_script
from lib.nearest import Nearest, Spot, Stretch, nearest_on, squared
from lib.refusals import sentence_of
from lib.replies import Answer, Ending
from lib.scenes import Drawn
from lib.shapes import Shape, fault_of, kept, shape_text
from working import PROGRAM, Case, Done, by_lines

HEAD = ['class roads line', 'class lots polygon', 'class signs point', 'rule line_must_not_have_dangles roads', 'rule polygon_must_not_overlap lots',
        'rule polygon_contains_point lots signs', 'rule line_must_be_single_part roads', 'rule point_must_be_covered_by_line signs roads', 'begin ann']
ROAD, SHORT = 'LINESTRING (0 -5, 20 -5, 20 -15, 0 -15, 0 -5)', 'LINESTRING (8 -5, 8 -13)'
LOT, OVER = 'POLYGON ((0 0, 10 0, 10 10, 0 10, 0 0))', 'POLYGON ((9 0, 20 0, 20 10, 10 10, 9 0))'
TOWN = [*HEAD, 'by ann add roads ' + ROAD, 'by ann add roads ' + SHORT, 'by ann add lots ' + LOT, 'by ann add lots ' + OVER, 'by ann add signs POINT (10 -5)',
        'validate all', 'errors', 'dirty']
SNAP, MOVE, MADE = 'by fixes snap 1 2 1 8 -15', 'by fixes move 10 0 9 0', 'by fixes create 3 3 5 5'


class Lines(unittest.TestCase):
    def test_what_a_line_can_have(self) -> None:
        for line, reply in (('by ann explode 1', 'ok parts 2'), ('by ann snap 1 2 0 -5 5', 'ok'), ('by ann create 1 2 3 4', 'ok 7'), ('by ann move 1 2 3 -4', 'ok moved 2'),
                            ('by ann explode 1', 'refused E34'), ('by ann snap 1 2 0 5 5', 'refused E18 few 0'), ('by ann move 1 2 3 4', 'refused E20 bob'),
                            ('by ann move 1 2 3 4194305', 'refused E15 3'), ('by ann create 9 2 3 4', 'refused E09')):
            self.assertTrue(can_answer(line, [reply]), line)
        for line, reply in (('by ann explode 1', 'ok'), ('by ann explode 1 2', 'ok parts 2'), ('by ann snap 1 2 -1 5 5', 'ok'), ('by ann create 1 2 3 4', 'ok'),
                            ('by ann move 1 2 3', 'ok moved 1'), ('by ann create 1 2 3 4', 'refused E20 bob'), ('by ann explode 1', 'refused E18 few 0')):
            self.assertFalse(can_answer(line, [reply]), line)

    def test_where_features_come_from(self) -> None:
        """The parts of a line come from where the line comes from; a point that was made is of the class and the subtype that the rule names."""
        script = by_lines('class roads line', 'class signs point', 'rule line_endpoint_must_be_covered_by roads signs:4', 'begin ann', 'begin bob',
                          '# fid 5 id "A"', 'by ann add roads:2 MULTILINESTRING ((0 0, 1 0), (5 0, 6 0), (8 0, 9 0))', 'by ann explode 1', 'by ann create 1 1 0 0',
                          'by ann add signs POINT (7 7)', 'by ann move 7 7 8 8', 'end ann')
        replies = by_lines('ok 1', 'ok 2', 'ok 1', 'ok', 'ok', 'ok 1', 'ok parts 3', 'ok 4', 'ok 5', 'ok moved 1', 'ok')
        ending = Ending()
        ending.take_all(io.BytesIO(script.encode()), io.BytesIO(replies.encode()))
        self.assertEqual([(handle, origin.side, origin.id) for handle, origin in sorted(ending.origins.items())],
                         [(1, 'roads:2', 'A'), (2, 'roads:2', 'A'), (3, 'roads:2', 'A'), (4, 'signs:4', ''), (5, 'signs', '')])
        self.assertEqual((ending.next_handle, list(ending.sessions), ending.changes), (6, ['bob'], 11))

    def test_why_a_line_was_refused(self) -> None:
        for line, code, said in (('by ann explode 7', 'E34', 'feature 7 is no line of two or more parts'),
                                 ('by ann snap 1 2 0 5 -5', 'E34', 'by rule 1 end 0 of feature 2 is no dangle, or no other line of its class holds (5 -5)'),
                                 ('by ann create 3 2 5 -5', 'E34', 'rule 3 asks for no point of feature 2 at (5 -5)'),
                                 ('by ann move 1 2 3 4', 'E34', 'no feature has a vertex at (1 2), or it is to go where it is'),
                                 ('by ann snap 3 2 0 5 5', 'E09', 'no rule in force has the number 3'), ('by ann create 3 2 5 5', 'E19', 'there is no feature 2'),
                                 ('by ann snap 3 2 0 5 5', 'E20 bob', 'the feature 2 is held by bob'),
                                 ('by ann move 1 2 3 4', 'E20 bob', 'a feature that has the vertex is held by bob'),
                                 ('by ann move 1 2 3 4194305', 'E15 3', '`4194305` is beyond the reach, which goes from -4,194,304 to 4,194,304'),
                                 ('by ann snap 1 2 0 -4194305 0', 'E15 0', '`-4194305` is beyond the reach, which goes from -4,194,304 to 4,194,304'),
                                 ('by ann snap 1 2 0 5 5', 'E18 few 0', 'the line would have too few vertices in its part or ring 0'),
                                 ('by ann move 1 2 3 4', 'E18 cross 1 3', 'the segments 1 and 3 of a shape that has the vertex would cross')):
            self.assertEqual(sentence_of(Answer(1, line, ['refused ' + code]), Ending()), said)


class Places(unittest.TestCase):
    def test_what_is_nearest(self) -> None:
        lot = random.Random(3)
        at = lambda most: (lot.randrange(-most, most), lot.randrange(-most, most))
        for turn in range(100):
            firsts = [at(50) for _ in range(lot.randrange(60))]
            lasts = [(p[0] + lot.randrange(-4, 5), p[1] + lot.randrange(-4, 5)) if turn % 2 else lot.choice([p, at(50)]) for p in firsts]
            stretches = [Stretch(p, q, lot.randrange(1, 9)) for p, q in zip(firsts, lasts)]
            nearest = Nearest(stretches)
            for p, but, is_other in ((at(90), lot.randrange(9), lot.random() < .5) for _ in range(10)):
                spots = [Spot(squared(nearest_on(each, p), p), nearest_on(each, p), each.handle) for each in stretches if each.handle != but]
                self.assertEqual(nearest.to(p, but, is_other), min((spot for spot in spots if spot.square or not is_other), default=None))

    def test_the_nearest_place_of_a_segment(self) -> None:
        lot = random.Random(5)
        for _ in range(500):
            p, a, step = ((lot.randrange(-9, 9), lot.randrange(-9, 9)) for _ in range(3))
            count = lot.randrange(1, 6)
            on = [(a[0] + at * step[0], a[1] + at * step[1]) for at in range(count + 1)]
            found = nearest_on(Stretch(on[0], on[-1], 1), p)
            self.assertLessEqual(squared(found, p), min(squared(q, p) for q in on))
            self.assertTrue(found in (on[0], on[-1]) or (found[0] - a[0]) * step[1] == (found[1] - a[1]) * step[0])

    def test_a_place_inside(self) -> None:
        lot, count = random.Random(7), 0
        for _ in range(700):
            rings = [[(lot.randrange(10), lot.randrange(10)) for _ in range(lot.choice([3, 4, 5]))] for _ in range(lot.choice([1, 1, 2]))]
            shape = Shape('polygon', [[kept(ring, True) for ring in rings]])
            if fault_of(shape):
                continue
            body = Body(Drawn(1, 'lots', 'polygon', shape_text(shape)))
            inside = {(x, y) for x in range(10) for y in range(10) if body.is_inside((Fraction(x), Fraction(y)))}
            found = place_inside(body)
            self.assertTrue(found in inside if inside else found is None, shape_text(shape))
            count += 1
        self.assertGreater(count, 200)


class Fixes(Case):
    def write(self, *lines: str) -> None:
        self.replayed('s', by_lines(*lines))

    def fixes(self, *words: str, source: tuple[str, ...] = ('s.topo', 's.replies')) -> Done:
        return self.tool('fixes', *source, '--program', shlex.join(PROGRAM), *words)

    def text(self, name: str) -> str:
        with open(self.path(name), encoding='utf-8') as file:
            return file.read()

    def test_the_list(self) -> None:
        self.write(*TOWN)
        done = self.fixes('--within', '2', '--kind', 'snap,move,create')
        self.assertEqual((done.status, done.told), (0, '4 errors, 4 fixes, 0 of no use left out; 0 without a fix\n'))
        told = done.out.splitlines()
        self.assertEqual(told[:6], ['rule 1 line_must_not_have_dangles: 2', '  [1]    ' + SNAP, '         changes 2; by 2 at most; the error is gone; none is new',
                                    'rule 2 polygon_must_not_overlap: 3 with 4', '  [3]    ' + MOVE, '         changes 3; by 1 at most; the error is gone; none is new'])
        self.assertEqual(told[6:9], ['rule 3 polygon_contains_point: 3', '  [6]    ' + MADE, '         makes 1 feature; the error is gone; 1 error new: 5 new 0'])

    def test_deletions_and_lines_of_parts(self) -> None:
        self.write(*HEAD[:4], HEAD[6], 'begin ann', 'by ann add roads MULTILINESTRING ((0 0, 1 0), (5 5, 6 5))', 'validate all')
        done = self.fixes('--rule', 'line_must_be_single_part')
        self.assertEqual(done.out.splitlines()[1:], ['  [2]    by fixes explode 1', '         changes 1; makes 1 feature; the error is gone; 1 error passed to its parts; none is new',
                                                     '  [3]    by fixes delete 1', '         deletes 1; the error is gone; 1 error more gone; none is new'])

    def test_nothing_is_written_unasked(self) -> None:
        self.write(*TOWN)
        before = {name: self.text(name) for name in os.listdir(self.folder)}
        self.assertEqual(self.fixes().status, 0)
        done = self.fixes('--write', 'e.topo')
        self.assertEqual((done.status, done.told.splitlines()[-1]), (2, 'fixes: --write needs to know which fixes: --pick, --rule, --kind or --most says so'))
        self.assertEqual({name: self.text(name) for name in os.listdir(self.folder)}, before)

    def written(self, *words: str) -> list[str]:
        """The edits of a script, and whether the script and they leave as many errors as was said."""
        done = self.fixes('--quiet', '--write', 'e.topo', *words)
        self.assertIn(done.status, (0, 1), done.told)
        lines = self.text('e.topo').splitlines()
        said = self.replay(by_lines(*TOWN, 'end ann', *lines))
        self.assertFalse([reply for reply in said if reply.startswith('refused')])
        left = sum(reply.startswith('error ') for reply in said[said.index('total 5', len(TOWN)):] if reply)
        self.assertIn('%d after' % left, done.told)
        return [line for line in lines if line.startswith('by ')]

    def test_what_is_picked(self) -> None:
        self.write(*TOWN)
        self.assertEqual(self.written('--within', '2', '--kind', 'snap,move,create'), [SNAP, MOVE])
        self.assertEqual(self.written('--within', '2', '--most', '1'), [MOVE])
        self.assertEqual(self.written('--rule', '1'), [SNAP])
        self.assertEqual(self.written('--rule', 'line_must_not_have_dangles,2'), [SNAP])
        self.assertEqual(self.written('--rule', '2', '--kind', 'delete'), ['by fixes delete 3'])
        self.assertEqual(self.written('--within', '2', '--pick', '6,3'), [MOVE, MADE])
        self.assertEqual(self.written('--within', '2', '--pick', '4,7'), ['by fixes delete 3'])
        self.assertEqual(self.fixes('--quiet', '--within', '2', '--csv', 'f.csv').status, 0)
        head, *rows = self.text('f.csv').splitlines()
        with open(self.path('f.csv'), 'w', encoding='utf-8') as table:
            table.write(by_lines(head + ',why', *(row + ',' for row in rows if ',move 10 0 9 0,' in row or ',create 3 3 5 5,' in row)))
        self.assertEqual(self.written('--within', '2', '--pick', self.path('f.csv')), [MOVE, MADE])

    def listed(self, *words: str) -> list[str]:
        return [line[9:].strip() for line in self.fixes('--kind', 'snap,move,create', *words).out.splitlines() if ' by fixes ' in line]

    def test_a_corner_that_reaches_over(self) -> None:
        """Of a lot that another one reaches into, the vertex in that one goes to the vertex that it lacks; one near by, which a third lot shares, stays."""
        self.write(*HEAD[:2], 'rule polygon_must_not_overlap lots', 'begin ann', 'by ann add lots POLYGON ((0 0, 20 0, 20 20, 12 20, 8 20, 3 20, 1 18, 0 0))',
                   'by ann add lots POLYGON ((3 20, 8 17, 12 20, 20 20, 20 40, 3 40, 3 20))', 'by ann add lots POLYGON ((0 0, 1 18, 3 20, -9 20, 0 0))')
        self.assertEqual(self.listed('--within', '7'), ['by fixes move 8 20 8 17'])

    def test_points_that_move_inside(self) -> None:
        """A point goes just over the border that is nearest to it, as far as may be; what has a vertex there goes too, so that one stays outside."""
        self.write('class lots polygon', 'class wells point', 'rule point_must_be_properly_inside wells lots', 'begin ann',
                   'by ann add lots ' + LOT, *('by ann add wells POINT ' + place for place in ('(5 10)', '(13 4)', '(10 10)', '(2 2)')))
        self.assertEqual(self.listed(), ['by fixes move 5 10 5 9', 'by fixes move 13 4 9 4'])
        self.assertEqual(self.listed('--within', '2'), ['by fixes move 5 10 5 9'])

    def test_points_that_move_to_ends(self) -> None:
        self.write('class roads line', 'class signs point', 'rule line_endpoint_must_be_covered_by roads signs', 'begin ann',
                   'by ann add roads LINESTRING (0 0, 20 0)', 'by ann add signs POINT (1 1)', 'by ann add signs POINT (20 9)')
        made = ['by fixes create 1 1 0 0', 'by fixes create 1 1 20 0']
        self.assertEqual(self.listed(), made)
        self.assertEqual(self.listed('--within', '2'), ['by fixes move 1 1 0 0', *made])

    def test_dangles_that_meet_a_vertex(self) -> None:
        """The end of a line goes to a vertex of another one where that is not what the snap does already."""
        self.write('class roads line', HEAD[3], 'begin ann', 'by ann add roads LINESTRING (0 0, 10 0, 10 10, 0 10, 0 0)', 'by ann add roads LINESTRING (10 0, 30 0)',
                   'by ann add roads LINESTRING (30 0, 12 2)', 'by ann add roads LINESTRING (5 12, 5 15, -1 10)')
        snaps = self.listed('--kind', 'snap')
        self.assertEqual([line for line in self.listed('--within', '3') if line not in snaps], ['by fixes move 12 2 10 0'])

    def test_what_is_refused(self) -> None:
        self.write(*TOWN)
        for words, said in ((('--pick', '99', '--write', 'e.topo'), 'there is no fix 99'), (('--pick', 'a', '--write', 'e.topo'), '--pick takes numbers'),
                            (('--most', 'x'), "'x' is no number"), (('--within', '-1'), 'a distance is not below 0'), (('--editor', '2nd'), 'is no name'),
                            (('--kind', 'mend'), 'the kinds are explode'), (('--pick', '1'), '--pick says which'), (('--program', 'none'), 'there is no program none')):
            done = self.fixes(*words)
            self.assertEqual(done.status, 2, words)
            self.assertIn(said, done.told)
        self.replayed('t', by_lines(*TOWN).replace(OVER, LOT))
        done = self.fixes(source=('s.topo', 't.replies'))
        self.assertEqual((done.status, 'has another reply now' in done.told), (2, True), done.told)
        done = self.fixes(source=('none.project',))
        self.assertEqual(done.status, 2)

    def test_a_saved_project_gives_the_same(self) -> None:
        self.write(*TOWN)
        self.run_words([*PROGRAM, 'replay', '-', 'town.project'], by_lines(*TOWN).encode())
        kept = self.text('town.project')
        self.assertEqual(self.fixes('--within', '2', source=('town.project',)).out, self.fixes('--within', '2').out)
        self.assertEqual(self.text('town.project'), kept)

    def test_open_sessions_do_not_stand_in_the_way(self) -> None:
        self.write(*TOWN, 'begin fixes', 'by fixes change 2 ' + SHORT)
        self.assertIn(SNAP.replace('fixes', 'fixes_2') + '\n         changes 2', self.fixes('--rule', '1').out)

    def test_exceptions_have_no_fixes(self) -> None:
        self.write(*TOWN, 'mark 1 2 0')
        self.assertNotIn('line_must_not_have_dangles', self.fixes().out)

    def test_distances_and_ids_of_the_source(self) -> None:
        grid = ['# grid resolution 0.01', '# grid origin 100 200']
        named = [line for each in TOWN for line in (['# fid 9 id "A road"', each] if each.endswith(SHORT) else [each])]
        self.write(*grid, *named)
        done = self.fixes('--within', '0.02', '--kind', 'snap')
        self.assertEqual(done.out.splitlines()[:3], ['rule 1 line_must_not_have_dangles: 2 (A road)', '  [1]    ' + SNAP,
                                                     '         changes 2; by 0.02 at most; the error is gone; none is new'])
        self.assertNotIn(SNAP, self.fixes('--within', '0.019').out)
        self.assertNotIn(SNAP, self.fixes('--most', '0.019').out)

    def test_a_table_a_layer_and_a_page(self) -> None:
        self.write(*TOWN)
        self.assertEqual(self.fixes('--quiet', '--within', '2', '--csv', 'f.csv', '--layers', 'out').out, '')
        with open(self.path('f.csv'), encoding='utf-8', newline='') as table:
            rows = list(csv.DictReader(table))
        self.assertEqual([(row['fix'], row['how'], row['lines'], row['distance'], row['ways']) for row in rows][:3],
                         [('1', 'snap', 'snap 1 2 1 8 -15', '2.0', '8 -13 8 -15'), ('2', 'delete', 'delete 2', '0.0', ''), ('3', 'move', 'move 10 0 9 0', '1.0', '10 0 9 0')])
        found = json.loads(self.text('out/fixes.geojson'))['features']
        self.assertEqual([(each['geometry']['type'], each['properties']['how']) for each in found][:3],
                         [('MultiLineString', 'snap'), ('MultiLineString', 'delete'), ('MultiLineString', 'move')])
        done = self.tool('draw', '--html', '--fixes', 'f.csv', shlex.join(PROGRAM), 's.topo', 's.html')
        self.assertEqual((done.status, done.told), (0, ''))
        page = self.text('s.html')
        self.assertIn('"title":"Fixes: snap"', page)
        self.assertIn('"[1] snap 1 2 1 8 -15: mends the error, 1 gone, 0 new"', page)
        for words in (('--html', '--fixes', 's.topo'), ('--map', '--fixes', 'f.csv')):
            self.assertEqual(self.tool('draw', *words, shlex.join(PROGRAM), 's.topo', 't.html').status, 2)

    @unittest.skipUnless(shutil.which('ogr2ogr'), 'ogr2ogr is not installed (package gdal-bin)')
    def test_a_geopackage(self) -> None:
        self.write(*TOWN)
        self.assertEqual(self.fixes('--quiet', '--layers', 'f.gpkg').status, 0)
        rows = self.rows('f.gpkg', 'SELECT fix, how, ST_Length(geom) AS length FROM fixes ORDER BY fix')
        self.assertEqual((rows[0]['fix'], rows[0]['how'], rows[0]['length']), (1, 'snap', 2.0))

    def errors_after(self, script: str, *lines: str) -> set[tuple]:
        """The keys of the errors that a validation finds after these lines, which come behind a script that ended its sessions."""
        said = self.replay(script + by_lines('begin trial', *('by trial ' + line for line in lines), 'validate all', 'errors'))
        count = int(said[-1].split()[1])
        return {tuple(map(int, line.split()[1:4])) for line in said[len(said) - 1 - count:-1]}

    def test_what_is_listed_is_what_comes(self) -> None:
        """Of random maps under all rules: each row of the table says how many errors the lines take away and bring."""
        count = 0
        for seed in range(1, 9):
            text = grid_script(seed, ['ann']) + 'end ann\n'
            self.replayed('s', text)
            done = self.fixes('--quiet', '--within', '2', '--csv', 'f.csv')
            self.assertIn(done.status, (0, 1), done.told)
            before = self.errors_after(text)
            with open(self.path('f.csv'), encoding='utf-8', newline='') as table:
                rows = list(csv.DictReader(table))
            for row in random.Random(seed).sample(rows, min(8, len(rows))):
                after = self.errors_after(text, *row['lines'].split('; '))
                self.assertEqual(len(before - after), int(row['gone']), row)
                if row['how'] != 'explode':
                    self.assertEqual(len(after - before), int(row['new']), row)
                count += 1
        self.assertGreater(count, 30)

    def test_the_last_end_in_a_line(self) -> None:
        said = self.replay(by_lines(*TOWN[:-3], *('by ann snap 1 2 %d 8 -15' % end for end in (4294967295, 4294967296, 1))))
        self.assertEqual(said[-3:], ['refused E34', 'refused E01', 'ok'])

    def test_the_reach_of_a_fix(self) -> None:
        ways = '10 -5 4194305 0', '10 -5 0 -4194305', '10 -5 4194304 -4194304', '4194304 -4194304 -4194304 4194304', '-4194304 4194304 10 -5'
        said = self.replay(by_lines(*TOWN[:-3], *('by ann move ' + way for way in ways)))
        self.assertEqual(said[-5:], ['refused E15 2', 'refused E15 3', 'ok moved 1', 'ok moved 1', 'ok moved 1'])


if __name__ == '__main__':
    unittest.main()
