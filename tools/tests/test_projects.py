"""Saved projects: what `check` says of damaged ones, texts that are none, and what the words write and keep."""
from __future__ import annotations

import os
import re
import shlex
import unittest
from typing import Iterator, NamedTuple

from working import PROGRAM, Case, Done, by_lines

PROJECTS = os.path.join(os.path.dirname(os.path.abspath(__file__)), 'projects')
NAMES = 'lots', 'moved', 'wells', 'roads'

# Texts that are no project, with an LF for each `/`, and what is said of them.
REFUSED = {
    '': 'line 1 short',
    'topology 1/next 1/': 'line 3 short',
    'topology 1/next 0/end/': 'line 2 range',
    'topology 1/next 1/end/x': 'line 4 form',
    'topology 1/next 2/class wells point/feature 1 wells POINT (3  4)/end/': 'line 4 form',
    'topology 1/next 2/class lots polygon/feature 1 lots POLYGON ((0 0, 10 10, 10 0, 0 10, 0 0))/end/': 'line 4 shape',
    'topology 1/next 2/class wells point/feature 2 wells POINT (0 0)/end/': 'line 4 range',
    'topology 1/next 2/class wells point/feature 1 roads POINT (0 0)/end/': 'line 4 unknown',
    'topology 1/next 1/dirty 0 0 9 9/dirty 1 1 2 2/end/': 'line 4 order',
    'topology 9/': 'line 1 form',
    'topology 1/next 4294967296/end/': 'line 2 range',
    'topology 1/next 01/end/': 'line 2 form',
    'topology 1/next 1/class lots polygon/rule 257 polygon_must_not_overlap lots/end/': 'line 4 range',
    'topology 1/next 1/class lots point/rule 1 polygon_must_not_overlap lots/end/': 'line 4 unknown',
    'topology 1/next 2/class a line/rule 1 line_must_be_single_part a/error 1 1 0 cells 0 0 0 0/end/': 'line 6 form',
    'topology 1/next 2/class a line/rule 1 line_must_be_single_part a/error 1 1 0 whole 0 0 0 0/cell 1 0 0 =/end/': 'line 6 form',
    'topology 1/next 2/class a line/rule 1 line_must_be_single_part a/error 1 1 0 cells 0 0 0 0/cell 0 0 1 =/end/': 'line 6 range',
    'topology 1/next 1/end/cell 1 0 0 =/': 'line 4 form',
    'topology 1/next 1/class a line/class b line/rule 1 line_must_be_single_part a b/end/': 'line 5 unknown',
    'topology 1/next 1/class a line/rule 1 line_must_not_overlap_with a/end/': 'line 4 unknown',
    'topology 1/next -1/end/': 'line 2 range',
    'topology 1/next -0/end/': 'line 2 form',
    'topology 1/next 2/class a line/rule 1 line_must_be_single_part a/error 1 -1 0 whole 0 0 0 0/end/': 'line 5 range',
    'topology 1/next 2/class a line/rule 1 line_must_be_single_part a/error -1 1 0 whole 0 0 0 0/end/': 'line 5 unknown',
    'topology 1/next 2/class a line/rule 1 line_must_be_single_part a/error 1 1 0 cells 0 0 0 0/': 'line 6 short',
    'topology 1/next 2/feature 9 a POINT (1  0)/end/': 'line 3 form',
    'topology 1/next 2/feature 9 a POINT (.5 0)/end/': 'line 3 shape',
    'topology 1/next 2/feature 9 a POINT (1 0)/end/': 'line 3 range',
    'topology 1/next 10/feature 9 a POINT (1 0)/end/': 'line 3 unknown',
}

# The lines of a project in format 2 behind its first two and the class line, with subtypes, and what is said of them.
FEATURE = 'feature 1 a:%s POINT (0 0)'
SIDES = 'rule 1 point_must_coincide_with %s %s'
TYPED = {
    FEATURE % '1': 'sound',
    FEATURE % '255': 'sound',
    FEATURE % '256': 'line 4 range',
    FEATURE % '99999999999999999999': 'line 4 range',
    FEATURE % '-5': 'line 4 range',
    FEATURE % '0': 'line 4 form',
    FEATURE % '-0': 'line 4 form',
    FEATURE % '007': 'line 4 form',
    FEATURE % '+1': 'line 4 form',
    FEATURE % '': 'line 4 form',
    FEATURE % '1:2': 'line 4 form',
    FEATURE % '0x1': 'line 4 form',
    'feature 1 :1 POINT (0 0)': 'line 4 form',
    'feature 1 b:1 POINT (0 0)': 'line 4 unknown',
    'feature 1 b:256 POINT (0 0)': 'line 4 range',
    'feature 2 a:1 POINT (0 0)': 'line 4 range',
    'feature 1 a:1 LINESTRING (0 0, 1 1)': 'line 4 unknown',
    'feature 1 a:256 POINT (.5 0)': 'line 4 shape',
    SIDES % ('a:1', 'a:2'): 'sound',
    SIDES % ('a:0', 'a:2'): 'sound',
    SIDES % ('a:0', 'a:255'): 'sound',
    SIDES % ('a:0', 'a:256'): 'line 4 range',
    SIDES % ('a:-1', 'b:2'): 'line 4 range',
    SIDES % ('a:00', 'a:2'): 'line 4 form',
    SIDES % ('a:1', 'a:'): 'line 4 form',
    SIDES % ('a:1', 'b:2'): 'line 4 unknown',
    SIDES % ('a', 'a:2'): 'line 4 unknown',
    SIDES % ('a:2', 'a'): 'line 4 unknown',
    SIDES % ('a:2', 'a:2'): 'line 4 unknown',
    'rule 1 point_must_be_disjoint a:1 a:2': 'line 4 unknown',
    'rule 1 point_must_be_disjoint a:1/rule 2 point_must_be_disjoint a': 'sound',
    'rule 1 point_must_be_disjoint a:1/rule 2 point_must_be_disjoint a:1': 'line 5 order',
    'class b:1 point': 'line 4 form',
}

# The lines between the first and the last, at a limit and beyond it. Where a cell is accepted, its error is not sound.
RULED = 'next 2/class a line/rule %d line_must_not_overlap a'
CELL = RULED % 1 + '/error 1 1 0 cells 0 0 0 0/cell %s >'
FRAMED = RULED % 1 + '/error 1 1 0 cells %s/cell 1 0 0 >'
CLASSES = '/'.join('class c%d line' % number for number in range(1, 65))
LIMITS = {
    'next 1': 'sound',
    'next 0': 'line 2 range',
    'next 4294967295': 'sound',
    'next 4294967296': 'line 2 range',
    'next 1/' + CLASSES: 'sound',
    'next 1/' + CLASSES + '/class c65 line': 'line 67 range',
    RULED % 1: 'sound',
    RULED % 0: 'line 4 range',
    RULED % 256: 'sound',
    RULED % 257: 'line 4 range',
    'next 1/dirty -4194304 -4194304 4194304 4194304': 'sound',
    'next 1/dirty -4194305 0 0 0': 'line 3 range',
    'next 1/dirty 0 -4194305 0 0': 'line 3 range',
    'next 1/dirty 0 0 4194305 0': 'line 3 range',
    'next 1/dirty 0 0 0 4194305': 'line 3 range',
    FRAMED % '-4194304 -4194304 4194304 4194304': 'unsound 1 1',
    FRAMED % '-4194305 0 0 0': 'line 5 range',
    FRAMED % '0 -4194305 0 0': 'line 5 range',
    FRAMED % '0 0 4194305 0': 'line 5 range',
    FRAMED % '0 0 0 4194305': 'line 5 range',
    CELL % '8388608 -8388608 0': 'unsound 1 1',
    CELL % '8388609 0 0': 'line 6 range',
    CELL % '0 -8388609 0': 'line 6 range',
    CELL % '1 0 -70368744177664': 'unsound 1 1',
    CELL % '1 0 70368744177664': 'unsound 1 1',
    CELL % '1 0 70368744177665': 'line 6 range',
    CELL % '1 0 -70368744177665': 'line 6 range',
    CELL % '0 0 1': 'line 6 range',
}

LOTS = by_lines('class lots polygon', 'rule polygon_must_not_overlap lots', 'begin ann',
                'by ann add lots POLYGON ((0 0, 10 0, 10 10, 0 10, 0 0))',
                'by ann add lots POLYGON ((5 5, 15 5, 15 15, 5 15, 5 5))', 'validate all')
SAVED = by_lines('topology 2', 'next 3', 'class lots polygon', 'rule 1 polygon_must_not_overlap lots',
                 'feature 1 lots POLYGON ((0 0, 10 0, 10 10, 0 10, 0 0))', 'feature 2 lots POLYGON ((5 5, 15 5, 15 15, 5 15, 5 5))',
                 'error 1 1 2 cells 5 5 10 10',
                 'cell 1 0 0 >, -1 0 10 >, 0 10 0 >, 0 -10 100 >, 1 0 -5 >, -1 0 15 >, 0 10 -50 >, 0 -10 150 >', 'end')
REPORT = by_lines('rule,kind,subject,other,extent,mark,x0,y0,x1,y1', '1,polygon_must_not_overlap,1,2,cells,error,5,5,10,10')
THIRD = 'by bob add lots POLYGON ((8 8, 12 8, 12 12, 8 12, 8 8))'


class Damage(NamedTuple):
    """A change of a project, and what is said of it then."""

    project: str
    title: str
    block: list[str]
    said: str


def text_of(project: str) -> str:
    with open(os.path.join(PROJECTS, project + '.project'), encoding='utf-8') as text:
        return text.read()


def damages() -> Iterator[Damage]:
    """The cases of the file, in order."""
    with open(os.path.join(PROJECTS, 'damages.cases'), encoding='utf-8') as cases:
        lines = cases.read().splitlines()
    project = title = ''
    block: list[str] = []
    for line in lines:
        if line.startswith('# project '):
            project = line[len('# project '):].split(':')[0]
        elif line.startswith('# case '):
            title, block = line[len('# case '):], []
        elif line.startswith('#> '):
            yield Damage(project, title, block, line[len('#> '):])
        elif line and not line.startswith('#'):
            block.append(line)


def pattern_of(line: str) -> str:
    """A pattern for a line, of which `..` at the end is any rest; the whole of it is a group."""
    whole = re.escape(line[:-2]) + '[^\n]*' if line.endswith('..') else re.escape(line)
    return '(%s\n)' % whole


def damaged(damage: Damage) -> str:
    """The text of the project with the change; an error where what goes or stays is not there just once."""
    old = [line[2:] for line in damage.block if line[0] != '+']
    found = list(re.finditer('^' + ''.join(map(pattern_of, old)), text_of(damage.project), re.M))
    if len(found) != 1:
        raise ValueError('%s, %s: what is changed is there %d times' % (damage.project, damage.title, len(found)))
    there, lines = iter(found[0].groups()), []
    for line in damage.block:
        stood = line[2:] + '\n' if line[0] == '+' else next(there)
        lines += [] if line[0] == '-' else [stood]
    text = text_of(damage.project)
    return text[:found[0].start()] + ''.join(lines) + text[found[0].end():]


class Kept(Case):
    """A test with projects as files."""

    def keep(self, name: str, text: str) -> str:
        with open(self.path(name), 'w', encoding='utf-8', newline='') as out:
            out.write(text)
        return name

    def kept(self, name: str) -> str:
        with open(self.path(name), encoding='utf-8', newline='') as text:
            return text.read()

    def topo(self, *words: str, script: str = '') -> Done:
        return self.run_words(PROGRAM + list(words), script.encode())


class Checks(Kept):
    def test_damages_by_hand(self) -> None:
        self.assertEqual({damage.project for damage in damages()}, set(NAMES))
        for damage in damages():
            with self.subTest(project=damage.project, title=damage.title):
                name = self.keep('a.project', damaged(damage))
                status = 0 if damage.said == 'sound' else 9
                self.assertEqual(self.topo('check', name), (status, damage.said + '\n', ''))

    def test_the_projects_are_sound_and_open_as_they_are(self) -> None:
        for project in NAMES:
            with self.subTest(project=project):
                name = self.keep('a.project', text_of(project))
                self.assertEqual(self.topo('check', name), (0, 'sound\n', ''))
                self.assertEqual(self.topo('replay', name, 'b.project'), (0, '', ''))
                self.assertEqual(self.kept('b.project'), text_of(project))

    def test_what_is_validated_again_is_sound(self) -> None:
        """The rectangle of the whole grid in place of the dirt, and one validation, make each damaged project sound."""
        whole = 'dirty -4194304 -4194304 4194304 4194304\n'
        for damage in damages():
            with self.subTest(project=damage.project, title=damage.title):
                text = re.sub('^dirty [^\n]*\n', '', damaged(damage), flags=re.M)
                name = self.keep('a.project', re.sub('^(?=error|exception|end)', whole, text, count=1, flags=re.M))
                self.assertEqual(self.topo('replay', name, 'b.project', script='validate all\n').status, 0)
                self.assertEqual(self.topo('check', 'b.project'), (0, 'sound\n', ''))


class Refused(Kept):
    def test_texts_that_are_no_project(self) -> None:
        for text, said in REFUSED.items():
            name = self.keep('a.project', text.replace('/', '\n'))
            for words in (('check', name), ('report', name), ('replay', name), ('replay', name, 'b.project')):
                with self.subTest(text=text, words=words):
                    self.assertEqual(self.topo(*words, script=LOTS), (6, 'project refused %s\n' % said, ''))
        self.assertEqual(os.listdir(self.folder), ['a.project'])

    def checked(self, title: str, lines: str, said: str) -> None:
        with self.subTest(title=title, lines=lines):
            name = self.keep('a.project', by_lines(title, *lines.split('/'), 'end'))
            self.assertIn(self.topo('check', name).out, (said + '\n', 'project refused %s\n' % said))

    def test_limits_of_a_text(self) -> None:
        for text, said in LIMITS.items():
            self.checked('topology 1', text, said)
            self.checked('topology 2', text, said)

    def test_subtypes_of_a_text(self) -> None:
        for text, said in TYPED.items():
            lines = 'next 2/class a point/' + text
            self.checked('topology 2', lines, said)
            self.checked('topology 1', lines, 'line 4 form')

    def test_format_1_is_opened_and_saved_in_format_2(self) -> None:
        older = SAVED.replace('topology 2', 'topology 1')
        name = self.keep('old', older)
        self.assertEqual(self.topo('check', name), (0, 'sound\n', ''))
        self.assertEqual(self.topo('report', name), (0, REPORT, ''))
        self.assertEqual(self.topo('replay', name, 'new', script=''), (0, '', ''))
        self.assertEqual(self.kept('new'), SAVED)
        self.assertEqual(self.kept('old'), older)

    def test_subtypes_are_saved_and_opened(self) -> None:
        script = LOTS + by_lines('rule polygon_must_not_overlap_with lots:0 lots:7', 'by ann retype 2 7', 'validate all')
        self.assertEqual(self.topo('replay', '-', 'town', script=script).status, 0)
        text = self.kept('town')
        self.assertIn('\nrule 2 polygon_must_not_overlap_with lots:0 lots:7\nfeature 1 lots POLYGON', text)
        self.assertIn('\nfeature 2 lots:7 POLYGON', text)
        self.assertEqual(self.topo('check', 'town'), (0, 'sound\n', ''))
        self.assertEqual(self.topo('replay', 'town', 'again', script='rules\n').out,
                         by_lines('rule 1 polygon_must_not_overlap lots', 'rule 2 polygon_must_not_overlap_with lots:0 lots:7', 'total 2'))
        self.assertEqual(self.kept('again'), text)
        name = self.keep('old', text.replace('topology 2', 'topology 1'))
        self.assertEqual(self.topo('check', name), (6, 'project refused line 5 form\n', ''))

    def test_each_part_that_stops_early_is_short(self) -> None:
        for project, text in [('saved', SAVED)] + [(project, text_of(project)) for project in NAMES]:
            for end in range(len(text)):
                name = self.keep('a.project', text[:end])
                said = 'project refused line %d short\n' % (text.count('\n', 0, end) + 1)
                self.assertEqual(self.topo('check', name), (6, said, ''), (project, end))


class Words(Kept):
    def test_a_saved_cell_without_a_point_is_read(self) -> None:
        name = self.keep('town', re.sub('^cell .*$', 'cell 1 0 0 >, -1 0 0 >', SAVED, flags=re.M))
        self.assertEqual(self.topo('check', name), (9, 'unsound 1 1\n', ''))
        self.assertEqual(self.topo('replay', name, script='cells\n').out.splitlines()[1], 'cell 1 0 0 >, -1 0 0 >')

    def test_save_check_report_and_reopen(self) -> None:
        self.assertEqual(self.topo('replay', '-', 'town', script=LOTS).status, 0)
        self.assertEqual(self.kept('town'), SAVED)
        self.assertEqual(self.topo('check', 'town'), (0, 'sound\n', ''))
        self.assertEqual(self.topo('report', 'town'), (0, REPORT, ''))
        opened = self.topo('replay', 'town', script=by_lines('begin bob', THIRD, 'validate all', 'cells')).out
        self.assertEqual(opened.splitlines()[:3], ['ok', 'ok 3', 'ok judged 3 errors 3 dirty 0'])
        at_once = self.topo('replay', script=LOTS.replace('validate', THIRD.replace('bob', 'ann') + '\nvalidate') + 'cells\n').out
        self.assertEqual(opened.split('dirty 0\n')[1], at_once.split('dirty 0\n')[1])
        self.assertEqual(self.kept('town'), SAVED)

    def test_what_is_kept_beside_the_features(self) -> None:
        """Handles, dirt and marks are kept; sessions are not."""
        script = LOTS + by_lines('mark 1 1 2', 'by ann add lots POLYGON ((90 0, 91 0, 91 1, 90 0))', 'by ann delete 3')
        self.assertEqual(self.topo('replay', '-', 'town', script=script).status, 0)
        again = by_lines('errors', 'dirty', 'by ann undo', 'begin ann', 'by ann undo', 'by ann add lots POLYGON ((0 90, 1 90, 0 91, 0 90))')
        replies = ['exception 1 1 2 cells 5 5 10 10', 'total 1', 'dirty 90 0 91 1', 'total 1', 'refused E12', 'ok', 'refused E22', 'ok 4']
        done = self.topo('replay', 'town', 'next', script=again)
        self.assertEqual((done.status, done.out.splitlines()), (1, replies))
        self.assertIn('next 5\n', self.kept('next'))

    def test_the_last_handle(self) -> None:
        name = self.keep('town', by_lines('topology 1', 'next 4294967294', 'class wells point', 'end'))
        add = 'by ann add wells POINT (0 0)'
        done = self.topo('replay', name, script=by_lines('begin ann', add, add, 'by ann undo', add))
        self.assertEqual((done.status, done.out.splitlines()), (1, ['ok', 'ok 4294967294', 'refused E21', 'ok', 'refused E21']))

    def test_dash_is_the_empty_project_of_replay_alone(self) -> None:
        self.assertEqual(self.topo('replay', '-', '-', script=LOTS).status, 0)
        self.assertEqual(self.kept('-'), SAVED)
        self.assertEqual(self.topo('check', '-'), (0, 'sound\n', ''))
        self.assertEqual(self.topo('report', '-'), (0, REPORT, ''))
        self.assertEqual(self.topo('replay', '-', script='errors\n'), (0, 'total 0\n', ''))
        self.assertEqual(self.topo('replay', './-', script='features\n').out.splitlines()[-1], 'total 2')

    def test_statuses_of_names(self) -> None:
        os.mkdir(self.path('folder'))
        for word in 'replay', 'check', 'report':
            self.assertEqual(self.topo(word, 'none', script=LOTS), (11, '', ''), word)
            self.assertEqual(self.topo(word, 'folder', script=LOTS), (7, '', ''), word)
        replies = self.topo('replay', script=LOTS).out
        for target in 'folder', 'none/town':
            self.assertEqual(self.topo('replay', '-', target, script=LOTS), (8, replies, ''), target)

    def test_without_a_target_and_with_faults_nothing_is_saved(self) -> None:
        self.keep('town', SAVED)
        self.assertEqual(self.topo('replay', 'town', script='droprule 1\n').status, 0)
        self.assertEqual(self.topo('replay', 'none', 'town', script='droprule 1\n').status, 11)
        done = self.run_words(['sh', '-c', '"$@" replay town town < . ; echo $?', 'sh', *PROGRAM])
        self.assertEqual(done.out, '3\n')
        done = self.run_words(['sh', '-c', 'echo droprule 1 | "$@" replay town town > /dev/full; echo $?', 'sh', *PROGRAM])
        self.assertEqual(done.out, '4\n')
        self.assertEqual(self.kept('town'), SAVED)

    def test_the_arguments_of_no_form(self) -> None:
        for words in 'replay ', 'replay - ', 'replay a b c', 'check', 'check a b', 'report', 'report a b':
            done = self.topo(*words.split(' '), script=LOTS)
            self.assertEqual((done.status, done.out[:12]), (2, 'usage: topo '), words)


class Tools(Kept):
    """The tools on scripts that begin with a saved project, of which they know what the script lists."""

    def begun(self, *lines: str) -> tuple[str, str]:
        """A script on the project of wells, and its replies, as files."""
        self.keep('wells.project', text_of('wells'))
        script = self.keep('s.topo', by_lines(*lines))
        return script, self.keep('s.replies', self.topo('replay', 'wells.project', script=by_lines(*lines)).out)

    def test_the_table_of_errors_is_that_of_the_program(self) -> None:
        table = self.tool('report', *self.begun('rules', 'errors'))
        self.assertEqual((table.status, table.told), (0, ''))
        self.assertEqual(table.out, self.topo('report', 'wells.project').out)

    def told(self, *lines: str) -> list[str]:
        """The sentences on the refused lines of such a script."""
        told = self.tool('answers', *self.begun(*lines), '--refused').out.splitlines()
        return [line.strip() for line in told[2::3]]

    def test_refusals_told_with_and_without_a_listing(self) -> None:
        add, change, rule = 'by ann add lots POINT (0 0)', 'by ann change 1 POINT (0 0)', 'rule point_must_be_disjoint lots'
        shape, fit = 'the shape is a point, and ', 'the rule takes a class of points, and '
        self.assertEqual(self.told('begin ann', add, change, rule),
                         [shape + 'the class `lots` is of another kind', shape + 'feature 1 is of another kind', fit + '`lots` is of another kind'])
        self.assertEqual(self.told('features', 'begin ann', add, change, rule),
                         [shape + 'the class `lots` is of polygons', shape + 'the class `lots` is of polygons', fit + '`lots` is of polygons'])

    def test_a_page_of_a_project(self) -> None:
        program = shlex.join(['sh', '-c', shlex.join(PROGRAM) + ' replay wells.project'])
        done = self.tool('draw', '--html', program, self.begun('rules')[0], 'wells.html')
        self.assertEqual((done.status, done.told), (0, ''))
        self.assertIn('2 point_must_be_disjoint', self.kept('wells.html'))


if __name__ == '__main__':
    unittest.main()
