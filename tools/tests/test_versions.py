"""Versions in scripts and replies: what a line can have, what was refused and why, and what the tools say of a script with drafts."""
import io
import json
import os
import shlex
import unittest

from lib.forms import can_answer
from lib.replies import Ending, answers_of
from lib.serve.ledger import Ledger
from working import PROGRAM, TOOLS, Case, by_lines

ROOT = os.path.dirname(TOOLS)
LOT, HALF, NEAR = ('POLYGON ((0 0, %d 0, %d 10, 0 10, 0 0))' % (wide, wide) for wide in (10, 5, 8))
BESIDE, WIDER = ('POLYGON ((%d 0, 20 0, 20 10, %d 10, %d 0))' % (x, x, x) for x in (10, 8))
HEAD = ['class lots polygon', 'rule polygon_must_not_overlap lots', 'begin ann', 'by ann add lots:1 ' + LOT, 'by ann add lots ' + BESIDE, 'end ann',
        'version plan']
DRAFT = ['in plan', 'begin ann', 'by ann change 1 ' + HALF, 'by ann retype 1 7', 'by ann add lots POLYGON ((5 0, 10 0, 10 10, 5 10, 5 0))', 'end ann']
OTHERS = ['in default', 'begin bob', 'by bob change 1 ' + NEAR, 'by bob change 2 ' + WIDER, 'by bob retype 2 4', 'end bob']
MERGED = ['post plan', 'reconcile plan', 'in plan', 'validate all', 'cells', 'dirty']

REFUSED = {
    'version plan': 'there is a version `plan` already',
    'version default': 'there is a version `default` already',
    'in pla': 'there is no version `pla`; did you mean `plan`?',
    'in none': 'there is no version `none`',
    'reconcile default': '`default` itself is not reconciled and not posted: the other versions are',
    'post plan': '`default` has feature 1 otherwise than `plan` took it over: a line `reconcile plan` first',
    'class wells point': 'versions stand beside `default`, and while they do classes and rules stay as they are',
    'droprule 1': 'versions stand beside `default`, and while they do classes and rules stay as they are',
    'version': 'NAME is missing (the form is `version NAME`)',
    'in my plan': '`plan` is too much (the form is `in NAME`)',
    'reconcile 2nd': '`2nd` is no name: a name begins with a letter (the form is `reconcile NAME`)',
}


class Forms(unittest.TestCase):
    def test_what_a_line_can_have(self) -> None:
        for line, *reply in (('version plan', 'ok'), ('in plan', 'ok'), ('reconcile plan', 'ok taken 0 conflicts 0'), ('post plan', 'ok posted 3'),
                             ('reconcile plan', 'conflict 1', 'conflict 12', 'ok taken 2 conflicts 2'), ('post plan', 'refused E31 4'),
                             ('version plan', 'refused E28'), ('in plan', 'refused E30'), ('droprule 1', 'refused E32')):
            self.assertTrue(can_answer(line, reply), line)
        for line, *reply in (('version plan', 'ok 1'), ('in plan', 'conflict 1', 'ok'), ('reconcile plan', 'ok'), ('post plan', 'ok taken 0 conflicts 0'),
                             ('reconcile plan', 'conflict 1', 'ok taken 2 conflicts 2'), ('reconcile plan', 'conflict 2', 'conflict 1', 'ok taken 0 conflicts 2'),
                             ('post plan', 'refused E31'), ('in plan', 'refused E27'), ('begin ann', 'refused E30'), ('reconcile plan', 'total 0'),
                             ('reconcile plan', 'conflict x', 'ok taken 0 conflicts 1')):
            self.assertFalse(can_answer(line, reply), line)


class Endings(Case):
    def ending(self, *lines: str) -> Ending:
        script, ending = by_lines(*lines), Ending()
        for answer in answers_of(io.BytesIO(script.encode()), io.BytesIO(by_lines(*self.replay(script)).encode())):
            ending.take(answer)
        return ending

    def subtypes(self, *lines: str) -> dict[int, int]:
        """The subtypes of features, which must be those that the program lists."""
        ending = self.ending(*lines)
        listed = [line.split()[1:3] for line in self.replay(by_lines(*lines, 'features')) if line.startswith('feature ')]
        found = {handle: origin.subtype for handle, origin in ending.origins.items() if str(handle) in dict(listed)}
        self.assertEqual(found, {int(handle): int(side.partition(':')[2] or 0) for handle, side in listed})
        return found

    def test_subtypes_are_those_of_the_version(self) -> None:
        self.assertEqual(self.subtypes(*HEAD, *DRAFT), {1: 7, 2: 0, 3: 0})
        self.assertEqual(self.subtypes(*HEAD, *DRAFT, *OTHERS), {1: 1, 2: 4})
        self.assertEqual(self.subtypes(*HEAD, *DRAFT, *OTHERS, *MERGED), {1: 7, 2: 4, 3: 0})
        self.assertEqual(self.subtypes(*HEAD, *DRAFT, *OTHERS, *MERGED, 'post plan', 'in default'), {1: 7, 2: 4, 3: 0})

    def test_what_is_disputed(self) -> None:
        for more, current, disputed in ((MERGED[:1], 'default', [1]), (MERGED[:2], 'default', []), (MERGED[:3], 'plan', [1]),
                                        (MERGED + ['post plan'], 'plan', [])):
            ending = self.ending(*HEAD, *DRAFT, *OTHERS, *more)
            self.assertEqual((ending.versions.current, ending.versions.now.disputed), (current, disputed), more)

    def test_a_listing_is_of_its_version(self) -> None:
        errors = self.ending(*HEAD, *DRAFT, *OTHERS, *MERGED, 'in default').errors()
        self.assertEqual((errors.version, errors.lines[0]), ('plan', 'error 1 2 3 cells 8 0 10 10'))
        self.assertEqual(self.ending(*HEAD, 'errors', *DRAFT).errors().version, 'default')

    def test_what_changes_what_is_listed(self) -> None:
        changes = lambda *more: self.ending(*HEAD, *DRAFT, *OTHERS, *more).changes
        for more, count in (('version other', 0), ('in default', 0), ('in plan', 1), ('reconcile plan', 0), ('post plan', 0)):
            self.assertEqual(changes(more), changes() + count, more)
        self.assertEqual(changes('reconcile plan', 'post plan'), changes() + 1)

    def test_eight_versions(self) -> None:
        lines = ['version v%d' % number for number in range(9)]
        self.assertEqual(self.replay(by_lines(*lines)), ['ok'] * 8 + ['refused E28'])


class Tools(Case):
    def written(self, *lines: str) -> tuple[str, str]:
        return self.replayed('s', by_lines(*lines))

    def test_why_a_line_was_refused(self) -> None:
        done = self.tool('answers', *self.written(*HEAD, *DRAFT, *OTHERS, *REFUSED, 'begin eve', 'in plan'), '--refused')
        told = done.out.splitlines()
        self.assertEqual([line.strip() for line in told[2::3]],
                         [*REFUSED.values(), 'a session is open, of `eve`, and the line wants that none is: `end` or `discard` it first'])

    def test_conflicts_are_told(self) -> None:
        done = self.tool('answers', *self.written(*HEAD, *DRAFT, *OTHERS, 'reconcile plan'))
        self.assertEqual(done.out.splitlines()[-3:], ['20: reconcile plan', '    conflict 1', '    ok taken 1 conflicts 1'])

    def test_many_conflicts_are_cut(self) -> None:
        points = ['by ann add wells POINT (%d 0)' % number for number in range(20)]
        moved = lambda editor, y: ['begin ' + editor, *('by %s change %d POINT (%d %d)' % (editor, number + 1, number, y) for number in range(20)), 'end ' + editor]
        script = ['class wells point', 'begin ann', *points, 'end ann', 'version plan', *moved('bob', 1), 'in plan', *moved('ann', 2), 'reconcile plan']
        for words, count in ((), 13), (('--whole',), 22):
            done = self.tool('answers', *self.written(*script), *words)
            self.assertEqual(len(done.out[done.out.index('reconcile plan'):].splitlines()), count)

    def test_a_figure_has_what_is_disputed_in_purple(self) -> None:
        for more, count in ((MERGED[:1], 1), (MERGED[:2], 0), (MERGED, 1)):
            self.written(*HEAD, *DRAFT, *OTHERS, *more)
            done = self.tool('draw', shlex.join(PROGRAM), 's.topo', 's.svg')
            self.assertEqual(done.status, 0, done.told)
            with open(self.path('s.svg'), encoding='utf-8') as svg:
                self.assertEqual(svg.read().count('stroke="#7b2d8b"'), count)

    def test_each_says_of_which_version_the_listing_is(self) -> None:
        of_plan, of_default = (*HEAD, *DRAFT, *OTHERS, *MERGED), (*HEAD, *DRAFT, 'in default', 'validate all', 'cells', 'dirty')
        for lines, is_said in (of_plan, True), (of_default, False):
            self.written(*lines)
            for tool, *words in (('report', 's.topo', 's.replies'), ('to-gis', 's.topo', 's.replies', 'out'), ('draw', '--map', shlex.join(PROGRAM), 's.topo', 's.svg')):
                done = self.tool(tool, *words)
                self.assertEqual('of the version `plan`' in done.told, is_said, done.told)

    def test_layers_have_the_subtypes_of_the_version(self) -> None:
        self.written(*HEAD, *DRAFT, 'begin ann', 'by ann change 3 POLYGON ((4 0, 10 0, 10 10, 4 10, 4 0))', 'validate all', 'cells', 'dirty')
        self.assertEqual(self.tool('to-gis', 's.topo', 's.replies', 'out').status, 0)
        with open(self.path('out/error_polygons.geojson'), encoding='utf-8') as file:
            self.assertEqual([each['properties']['class'] for each in json.load(file)['features']], ['lots:7'])

    def test_changes_come_into_default_while_drafts_live_on(self) -> None:
        texts = {'a.project': by_lines('topology 2', 'next 3', 'class lots polygon', 'feature 1 lots ' + LOT, 'end'),
                 'a.csv': by_lines('layer,fid,id,class,handle,moved,note', 'lots,1,A,lots,1,,'),
                 'new.topo': by_lines('class lots polygon', 'begin import', '# fid 1 id "A"', 'by import add lots ' + NEAR)}
        for name, text in texts.items():
            with open(self.path(name), 'w', encoding='utf-8') as out:
                out.write(text)
        done = self.tool('changes', 'a.project', 'a.csv', 'new.topo', 'next.csv', '--drafts', 'plan', 'north')
        self.assertEqual(done.out.splitlines(), ['in default', 'begin import', 'by import change 1 ' + NEAR, 'validate all', 'rules', 'cells', 'dirty',
                                                 'end import', 'reconcile plan', 'reconcile north'])
        self.assertEqual(self.tool('changes', 'a.project', 'a.csv', 'new.topo', 'next.csv', '--drafts', 'my plan').status, 2)


class Service(unittest.TestCase):
    def test_no_project_is_saved_while_a_draft_is_there(self) -> None:
        ledger = Ledger(0, {})
        for line, reply, is_quiet in ((b'begin ann', b'ok\n', False), (b'version plan', b'refused E30\n', False), (b'end ann', b'ok\n', True),
                                      (b'version plan', b'ok\n', False), (b'post plan', b'ok posted 0\n', False)):
            ledger.take('ann', line, reply)
            self.assertEqual(ledger.is_quiet(), is_quiet, line)
        self.assertEqual(ledger.drafts, [b'plan'])


if __name__ == '__main__':
    unittest.main()
