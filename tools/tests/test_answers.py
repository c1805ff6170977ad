"""tools/answers: each line with its reply, and of each refusal a sentence that fits it."""
from __future__ import annotations

import os
import random
import unittest
from importlib.machinery import SourceFileLoader
from importlib.util import module_from_spec, spec_from_loader
from types import ModuleType

from lib.refusals import form_fault, sentence_of
from lib.replies import Answer, Ending
from lib.rules import KINDS_OF
from working import TOOLS, Case, by_lines

HEAD = ['class lots polygon', 'class wells point', 'begin ann', 'by ann add wells POINT (1 2)']
SAID = {
    '\ufeffclass lots polygon': 'a byte order mark stands before `class`; save the script without one',
    'undo': 'an editor is missing before `undo` (the form is `by EDITOR undo`)',
    'clas lots polygon': 'no line begins with `clas`; did you mean `class`?',
    'class lots-2 polygon': '`lots-2` is no name, since no name has `-`: a name has only the letters A to Z and a to z, digits and `_` (the form is `class NAME KIND`)',
    'class 2nd polygon': '`2nd` is no name: a name begins with a letter (the form is `class NAME KIND`)',
    'class more Polygon': '`Polygon` is no kind; did you mean `polygon`? (the form is `class NAME KIND`)',
    'rule polygon_must_not_overlaps lots': '`polygon_must_not_overlaps` is no word of a rule; did you mean `polygon_must_not_overlap`? (the form is `rule WORD ORIGIN`)',
    'rule must_not_overlap lots': '`must_not_overlap` is no word of a rule; did you mean `polygon_must_not_overlap` or `line_must_not_overlap`? (the form is `rule WORD ORIGIN`)',
    'rule polygon_must_not_overlap_with lots': 'DEST is missing (the form is `rule WORD ORIGIN DEST`)',
    'rule polygon_must_not_overlap wells': 'the rule takes a class of polygons, and `wells` is of points',
    'rule line_must_not_overlap lots': 'the rule takes a class of lines, and `lots` is of polygons; did you mean `polygon_must_not_overlap`?',
    'rule polygon_must_not_overlap lakes': 'there is no class `lakes`',
    'rule polygon_must_not_overlap lot': 'there is no class `lot`; did you mean `lots`?',
    'by ann ad lots POLYGON ((0 0, 1 0, 0 1, 0 0))': '`ad` is no word after an editor; did you mean `add`?',
    'by ann add lots POLYGON ((0 0, 1 0, 0 1, 0 0)': 'the text of the shape ends where `,` or `)` is expected; there are 2 `(` and 1 `)` (the form is `by EDITOR add CLASS WKT`)',
    'by ann add lots POLYGON (0 0, 1 0, 0 1, 0 0)': 'at byte 9 of the text of the shape `0` stands where `(` is expected (the form is `by EDITOR add CLASS WKT`)',
    'by ann add lots POLYGON ((0 0, 1 0, 0 1.5, 0 0))': 'the coordinate `1.5` has a fraction, and coordinates are whole numbers of grid units; tools/from-ogr puts data onto a grid',
    'by ann add lots POLYGON ((0 0, 9999999 0, 0 1, 0 0))': '`9999999` is beyond the reach, which goes from -4,194,304 to 4,194,304',
    'by ann add lots POLYGON ((0 0, 9 0, 0 9))': 'ring 0 ends at (0 9) and not at (0 0), where it begins',
    'by ann add lots POLYGON ((0 0, 9 9, 9 0, 0 9, 0 0))': 'its segments 0 from (0 0) to (9 9) and 2 from (9 0) to (0 9) cross',
    'by ann add lots MULTIPOINT ((1 2))': '`MULTIPOINT` is no shape here; there are POINT, LINESTRING, MULTILINESTRING, POLYGON, MULTIPOLYGON',
    'by ann add lots POINT (1 2)': 'the shape is a point, and the class `lots` is of polygons',
    'by ann change 1 LINESTRING (1 2, 3 4)': 'the shape is a line, and the class `wells` is of points',
    'by bob delete 1': 'no session of `bob` is open; a line `begin bob` opens it',
    'by ann delete 7': 'there is no feature 7',
    'mark 1 2 3': 'no error is listed of rule 1 with subject 2 and partner 3; `errors` lists them all',
    'validate': '`all` or a window is missing (the forms are `validate all` and `validate X0 Y0 X1 Y1`)',
    'validate 0 0 1': 'Y1 is missing (the form is `validate X0 Y0 X1 Y1`)',
    'validate 0 0 9 4194305': '`4194305` is beyond the reach, which goes from -4,194,304 to 4,194,304',
    'droprule 65536': 'the number 65536 is not from 1 to 65,535 (the form is `droprule R`)',
}
UNBUILT = ('mark ', 'unmark ', 'rules', 'rule ')


def check_docs() -> ModuleType:
    """The tool as a module."""
    loader = SourceFileLoader('check_docs', os.path.join(TOOLS, 'check_docs'))
    module = module_from_spec(spec_from_loader('check_docs', loader))
    loader.exec_module(module)
    return module


class Sentences(Case):
    def test_what_was_wrong_and_what_was_meant(self) -> None:
        script, replies = self.replayed('s', by_lines(*HEAD, *SAID))
        done = self.tool('answers', script, replies, '--refused')
        told = done.out.splitlines()
        self.assertEqual(done.status, 1, done.told)
        self.assertEqual(told[0::3], ['%d: %s' % line for line in enumerate(SAID, len(HEAD) + 1)])
        self.assertEqual([line.strip() for line in told[2::3]], list(SAID.values()))

    def test_all_lines_with_their_replies(self) -> None:
        script, replies = self.replayed('s', '# two\n\nclass wells point\r\nrule point_must_be_disjoint wells\nerrors\n')
        done = self.tool('answers', script, replies)
        self.assertEqual((done.status, done.out), (0, '3: class wells point\n    ok 1\n4: rule point_must_be_disjoint wells\n    ok 1\n5: errors\n    total 0\n'))

    def test_each_refusal_of_the_page_has_its_sentence(self) -> None:
        docs, count = check_docs(), 0
        with open(os.path.join(os.path.dirname(TOOLS), 'docs', 'refusals.md'), encoding='utf-8') as page:
            pages = [script for script, _ in docs.listings(page.read())]
        for lines in pages:
            ending = Ending()
            for line, reply in zip(lines, self.replay('\n'.join(lines))):
                answer = Answer(0, line, [reply])
                if reply.startswith('refused'):
                    self.assertTrue(sentence_of(answer, ending), line)
                    count += 1
                ending.take(answer)
        self.assertGreater(count, 50)


class Mutations(Case):
    def mutated(self, lot: random.Random, line: str) -> str:
        at = lot.randrange(len(line) + 1)
        return lot.choice([line[:at] + line[at + 1:], line[:at] + lot.choice('aA1 -.,()_x') + line[at:], line[:at], line[:at] + lot.choice('zZ09(), ') + line[at + 1:]])

    def test_a_line_has_its_form_where_the_program_says_so(self) -> None:
        """Of mutated lines: what keeps one from having a form is found exactly where the program says E01."""
        lot, lines = random.Random(5), []
        seeds = [line for line in SAID if 'MULTIPOINT' not in line] + ['validate all', 'dirty', 'by ann change 1 POINT (3 4)', 'droprule 3']
        seeds += ['version plan', 'in plan', 'reconcile plan', 'post plan']
        for _ in range(4000):
            line = self.mutated(lot, lot.choice(seeds))
            lines.append(self.mutated(lot, line) if lot.random() < .4 else line)
        lines = [line for line in lines if line.strip() and not line.strip().startswith('#') and line.split()[0] not in ('errors', 'cells', 'dirty', 'features')]
        said = self.replay(by_lines(*lines))
        self.assertEqual(len(said), len(lines))
        for line, reply in zip(lines, said):
            words = line.split()
            fault = form_fault(line, words)
            if reply != 'refused E01':
                wanted = not fault or reply.startswith(('refused E16', 'refused E14', 'refused E15'))
                self.assertTrue(wanted, '%r: %s, and not: %s' % (line, reply, fault))
            elif not fault:
                self.assertTrue(line.strip().startswith(UNBUILT), line)


class Words(unittest.TestCase):
    def test_the_words_of_the_rules(self) -> None:
        with open(os.path.join(os.path.dirname(TOOLS), 'crates', 'rule_words', 'specs', 'Table.antt'), encoding='utf-8') as table:
            text = table.read()
        self.assertEqual(text.count('= codes "'), len(KINDS_OF))
        for word in KINDS_OF:
            self.assertIn('codes "%s"' % word, text)


if __name__ == '__main__':
    unittest.main()
