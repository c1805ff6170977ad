"""tools/lapsed: which exceptions are errors again, which are gone, the lines that mark them again; and what is refused."""
import unittest

from working import PROGRAM, Case, by_lines

HEADER = 'rule,kind,subject,other,extent,mark,x0,y0,x1,y1'
LOTS = by_lines('class lots polygon', 'rule polygon_must_not_overlap lots', 'begin ann', 'by ann add lots POLYGON ((0 0, 9 0, 9 9, 0 9, 0 0))',
                'by ann add lots POLYGON ((8 0, 19 0, 19 9, 8 9, 8 0))', 'by ann add lots POLYGON ((18 0, 29 0, 29 9, 18 9, 18 0))',
                'by ann add lots POLYGON ((28 0, 39 0, 39 9, 28 9, 28 0))', 'validate all', 'mark 1 1 2', 'mark 1 2 3', 'mark 1 3 4')

# Lots 1 and 2 share less now, lots 2 and 3 nothing; lots 3 and 4 are as they were.
EDITS = by_lines('begin ann', 'by ann change 2 POLYGON ((8 0, 18 0, 18 8, 8 8, 8 0))', 'validate all')


class Lapsed(Case):
    def reports(self) -> None:
        """The reports of a project before the edits and after them."""
        self.run_words(PROGRAM + ['replay', '-', 'a.project'], LOTS.encode())
        self.run_words(PROGRAM + ['replay', 'a.project', 'b.project'], EDITS.encode())
        for name in 'ab':
            self.keep(name, self.run_words(PROGRAM + ['report', name + '.project']).out)

    def keep(self, name: str, text: str) -> None:
        with open(self.path(name + '.csv'), 'w', encoding='utf-8') as out:
            out.write(text)

    def test_what_lapses(self) -> None:
        self.reports()
        expected = by_lines(HEADER + ',why', '1,polygon_must_not_overlap,1,2,cells,error,8,0,9,8,its frame was 8 0 9 9',
                            '1,polygon_must_not_overlap,2,3,cells,gone,18,0,19,9,there is no such error any more')
        self.assertEqual(tuple(self.tool('lapsed', 'a.csv', 'b.csv')), (0, expected, ''))
        self.assertEqual(tuple(self.tool('lapsed', 'a.csv', 'b.csv', '--marks')), (0, 'mark 1 1 2\n', ''))

    def test_the_marks_are_taken(self) -> None:
        self.reports()
        lines = self.tool('lapsed', 'a.csv', 'b.csv', '--marks').out
        self.run_words(PROGRAM + ['replay', 'b.project', 'c.project'], lines.encode())
        self.keep('c', self.run_words(PROGRAM + ['report', 'c.project']).out)
        self.assertNotIn('error,', self.tool('lapsed', 'a.csv', 'c.csv').out)

    def test_nothing_lapses(self) -> None:
        self.reports()
        self.assertEqual(tuple(self.tool('lapsed', 'a.csv', 'a.csv')), (0, HEADER + ',why\n', ''))

    def test_why(self) -> None:
        was = '1,polygon_must_not_overlap,%d,%d,cells,exception,0,0,1,1'
        self.keep('a', by_lines(HEADER, was % (1, 2), was % (3, 4), was % (5, 6), was % (7, 8)))
        now = was.replace('exception', 'error')
        self.keep('b', by_lines(HEADER, now % (1, 2), now.replace('cells', 'whole') % (3, 4), now.replace('1,1', '2,1') % (5, 6)))
        with open(self.path('edits'), 'w', encoding='utf-8') as edits:
            edits.write(by_lines('begin import', 'by import change 1 POINT (0 0)', 'by import retype 4 2', 'by import delete 7', 'by import delete 8'))
        rows = self.tool('lapsed', 'a.csv', 'b.csv', '--edits', 'edits').out.splitlines()[1:]
        self.assertEqual([row.split(',', 10)[10].strip('"') for row in rows],
                         ['its frame is the same, and its cells are others; its subject was changed',
                          'it was of extent cells; its partner got another subtype',
                          'its frame was 0 0 1 1; features beside it were edited, or a rule',
                          'there is no such error any more; its subject was deleted, its partner was deleted'])

    def test_what_is_refused(self) -> None:
        record = '1,polygon_must_not_overlap,1,2,cells,exception,0,0,1,1'
        self.keep('a', by_lines(HEADER, record))
        self.keep('b', by_lines(HEADER, record.replace('overlap', 'have_gaps')))
        self.keep('c', 'rule,kind\n')
        for later, said in (('b.csv', 'rule 1 was polygon_must_not_overlap and is polygon_must_not_have_gaps: the reports are not of one project'),
                            ('c.csv', 'c.csv has not the columns ' + HEADER), ('d.csv', "[Errno 2] No such file or directory: 'd.csv'")):
            self.assertEqual(tuple(self.tool('lapsed', 'a.csv', later)), (2, '', 'lapsed: %s\n' % said))


if __name__ == '__main__':
    unittest.main()
