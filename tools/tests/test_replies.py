"""Replies that are not those of the script: each tool says so in a line and ends with status 2, and none fails otherwise."""
import glob
import io
import os
import unittest
from typing import Iterator

from lib.forms import can_answer
from lib.listings import listings, pages
from lib.refusals import sentence_of
from lib.replies import Ending, ReplyError, answers_of, errors_of
from working import TOOLS, Case, by_lines

ROOT = os.path.dirname(TOOLS)
LOTS = by_lines('class lots polygon', 'begin ann', 'by ann add lots POLYGON ((0 0, 9 0, 0 9, 0 0))', 'errors')
WELLS = by_lines('class wells point', 'rule point_must_be_disjoint wells', 'begin ann', 'cells')


def scripts() -> Iterator[str]:
    """The examples, and the listings of the documents."""
    for path in sorted(glob.glob(os.path.join(ROOT, 'examples', '*.topo'))):
        with open(path, encoding='utf-8') as script:
            yield script.read()
    for _, page in pages(ROOT):
        yield from ('\n'.join(lines) + '\n' for lines, _ in listings(page))


def read(script: bytes, replies: bytes) -> str:
    """Reads replies as the tools do, to their end, each sentence and each error among them; what is said of them."""
    ending = Ending()
    try:
        for answer in answers_of(io.BytesIO(script), io.BytesIO(replies)):
            if answer.reply:
                sentence_of(answer, ending)
            ending.take(answer)
        listing = ending.errors()
        errors_of(listing.lines if listing else [])
    except ReplyError as fault:
        return str(fault)
    return ''


class Tools(Case):
    def test_each_says_so_in_a_line(self) -> None:
        self.replayed('lots', LOTS)
        self.replayed('wells', WELLS)
        said = 'line 2 cannot have the reply `ok 1`: the replies are not those of this script\n'
        calls: list[tuple[str, list[str]]] = [('report', []), ('answers', ['--refused']), ('to-gis', ['out'])]
        for tool, words in calls:
            done = self.tool(tool, 'lots.topo', 'wells.replies', *words)
            self.assertEqual((done.status, done.out, done.told), (2, '', '%s: %s' % (tool, said)))
        self.assertFalse(os.path.exists(self.path('out')))

    def test_a_refusal_at_a_place_that_the_line_does_not_have(self) -> None:
        for name, text in (('s.topo', LOTS), ('s.replies', by_lines('ok 1', 'ok', 'refused E18 cross 4 7', 'total 0'))):
            with open(self.path(name), 'w', encoding='utf-8') as out:
                out.write(text)
        done = self.tool('answers', 's.topo', 's.replies', '--refused')
        self.assertEqual((done.status, done.told), (2, 'answers: line 3 cannot have the reply `refused E18 cross 4 7`: '
                                                       'the replies are not those of this script\n'))

    def test_all_replies_with_all_scripts(self) -> None:
        """Each script is read to the end with its own replies; with those of another, nothing but a ReplyError comes, nearly always."""
        texts = [script.encode() for script in scripts() if len(script) < 100000]
        said = [('\n'.join(self.replay(text.decode())) + '\n').encode() for text in texts]
        self.assertGreater(len(texts), 40)
        told = [[read(text, replies) for replies in said] for text in texts]
        self.assertEqual([told[at][at] for at in range(len(texts))], [''] * len(texts))
        self.assertGreater(sum(map(bool, sum(told, []))), 0.95 * len(texts) ** 2)


class Subtypes(unittest.TestCase):
    SCRIPT = by_lines('class lots polygon', 'rule polygon_must_not_overlap_with lots:2 lots:03', 'begin ann', '# fid 5 id "A"',
                      'by ann add lots:2 POLYGON ((0 0, 9 0, 0 9, 0 0))', 'by ann add lots POLYGON ((0 0, 9 0, 0 9, 0 0))', 'by ann retype 2 3',
                      'validate all', 'features', 'rules', 'errors')
    REPLIES = by_lines('ok 1', 'ok 1', 'ok', 'ok 1', 'ok 2', 'ok', 'ok judged 1 errors 1 dirty 0', 'feature 1 lots:2 POLYGON ((0 0, 9 0, 0 9, 0 0))',
                       'feature 2 lots:3 POLYGON ((0 0, 9 0, 0 9, 0 0))', 'total 2', 'rule 1 polygon_must_not_overlap_with lots:2 lots:3', 'total 1',
                       'error 1 1 2 cells 0 0 9 9', 'total 1')

    def test_features_and_sides(self) -> None:
        ending = Ending()
        for answer in answers_of(io.BytesIO(self.SCRIPT.encode()), io.BytesIO(self.REPLIES.encode())):
            ending.take(answer)
        self.assertEqual([origin.side for origin in ending.origins.values()], ['lots:2', 'lots:3'])
        self.assertEqual((ending.origins[1].id, ending.rules[1].classes, ending.classes), ('A', {'lots'}, {'lots': 'polygon'}))

    def test_what_a_line_can_have(self) -> None:
        for line, reply, is_fit in (('by ann retype 2 255', 'ok', True), ('by ann retype 2 256', 'ok', False), ('by ann add lots:300 POINT (0 0)', 'ok 1', False),
                                    ('by ann retype 2', 'ok', False), ('class lots:2 polygon', 'ok 1', False), ('by ann retype 9 1', 'refused E19', True)):
            self.assertEqual(can_answer(line, [reply]), is_fit, line)


class Forms(unittest.TestCase):
    def test_what_a_line_can_have(self) -> None:
        error, cell = 'error 1 2 0 cells 0 0 1 1', 'cell 1 0 -3 =, 0 1 -4 >='
        for line, reply in ((' by\tann  delete 3 ', ['ok']), ('errors', [error, 'total 1']), ('cells', [error, cell, cell, 'total 1']),
                            ('by ann add wells POINT (1)', ['refused E01']), ('validate 5 0 4 0', ['refused E24']),
                            ('by bob delete 3', ['refused E20 ann']), ('rules', ['rule 3 point_must_coincide_with a b', 'total 1'])):
            self.assertTrue(can_answer(line, reply), line)
        for line, reply in (('by ann delete 3', ['ok 3']), ('errors', [error, cell, 'total 1']), ('errors', [error, 'total 2']),
                            ('cells', [cell, error, 'total 1']), ('errors', ['dirty 0 0 1 1', 'total 1']), ('errors', ['ok']),
                            ('droprule', ['ok']), ('rule no_such_word lots', ['ok 1']), ('mark 1 2', ['refused E25']),
                            ('frobnicate', ['ok']), ('by', ['ok']), ('class a point', ['refused E09']), ('dirty', ['refused E12'])):
            self.assertFalse(can_answer(line, reply), line)

    def test_remarks_of_your_own(self) -> None:
        script = b'# subject of the talk\n# fid of all\n# fid 1 id lots\n# neighbour\nclass a point\n'
        self.assertEqual(read(script, b'ok 1\n'), '')


if __name__ == '__main__':
    unittest.main()
