"""tools/report: tables typed by hand, for an example and for a script with exceptions and numbers given twice; and where there is none."""
import os
import unittest

from working import PROGRAM, TOOLS, Case, by_lines

ROOT = os.path.dirname(TOOLS)
HEADER = 'rule,kind,subject,other,extent,mark,x0,y0,x1,y1\n'

# Of examples/roads.topo: the first listing, with two of its errors marked; then the last one.
ROADS = HEADER + """\
1,line_must_not_have_dangles,2,0,cells,error,6,8,6,8
1,line_must_not_have_dangles,4,0,cells,error,16,4,20,4
1,line_must_not_have_dangles,5,0,cells,error,11,12,11,12
2,line_must_not_have_pseudo_nodes,1,0,cells,exception,0,0,0,0
3,line_must_not_intersect,1,5,cells,error,8,9,11,9
3,line_must_not_intersect,2,3,cells,error,6,6,6,7
4,line_must_not_overlap,1,5,cells,error,8,9,11,9
5,line_must_not_self_intersect,5,0,cells,error,12,10,13,11
6,line_must_be_single_part,4,0,whole,exception,12,4,20,4
7,line_endpoint_must_be_covered_by,2,0,cells,error,6,0,6,0
7,line_endpoint_must_be_covered_by,3,0,cells,error,0,5,12,8
7,line_endpoint_must_be_covered_by,4,0,cells,error,12,4,20,4
7,line_endpoint_must_be_covered_by,5,0,cells,error,8,9,11,12
8,point_must_be_covered_by_line,8,0,cells,error,7,7,7,7
"""
MENDED = HEADER + """\
1,line_must_not_have_dangles,4,0,cells,error,20,4,20,4
1,line_must_not_have_dangles,5,0,cells,error,14,13,14,13
2,line_must_not_have_pseudo_nodes,1,0,cells,error,0,0,0,0
3,line_must_not_intersect,2,3,cells,error,6,6,6,7
7,line_endpoint_must_be_covered_by,2,0,cells,error,6,0,6,9
7,line_endpoint_must_be_covered_by,3,0,cells,error,0,5,12,8
7,line_endpoint_must_be_covered_by,4,0,cells,error,12,4,20,4
7,line_endpoint_must_be_covered_by,5,0,cells,error,12,9,14,13
8,point_must_be_covered_by_line,8,0,cells,error,7,7,7,7
"""

# A quarter of the grid, twice; two wells at one place; then rule 1 is another rule.
LOT = 'by ann add lots POLYGON ((-4194304 -4194304, 0 -4194304, 0 0, -4194304 0, -4194304 -4194304))'
LOTS = ['class lots polygon', 'class wells point', 'rule polygon_must_not_overlap lots', 'rule point_must_be_disjoint wells', 'begin ann',
        LOT, LOT, 'by ann add wells POINT (-3 4)', 'by ann add wells POINT (-3 4)', 'validate all', 'mark 2 3 4', 'errors']
ANEW = ['droprule 1', 'rule polygon_contains_point lots wells', 'validate all', 'rules', 'cells', 'dirty']
OVERLAP = HEADER + """\
1,polygon_must_not_overlap,1,2,cells,error,-4194304,-4194304,0,0
2,point_must_be_disjoint,3,4,cells,exception,-3,4,-3,4
"""
WITHOUT = HEADER + """\
1,polygon_contains_point,1,0,whole,error,-4194304,-4194304,0,0
1,polygon_contains_point,2,0,whole,error,-4194304,-4194304,0,0
2,point_must_be_disjoint,3,4,cells,exception,-3,4,-3,4
"""


def roads() -> str:
    with open(os.path.join(ROOT, 'examples', 'roads.topo'), encoding='utf-8') as script:
        return script.read()


class Tables(Case):
    def report(self, script: str, said: str = '') -> str:
        """What the tool writes of a script and its replies."""
        done = self.tool('report', *self.replayed('s', script))
        self.assertEqual((done.status, done.told), (0, said))
        return done.out

    def test_an_example(self) -> None:
        first = roads().split('\nerrors\n')[0]
        self.assertEqual(self.report(first + '\nmark 2 1 0\nmark 6 4 0\nerrors\n'), ROADS)
        self.assertEqual(self.report(roads()), MENDED)

    def test_exceptions_far_places_and_numbers_given_twice(self) -> None:
        self.assertEqual(self.report(by_lines(*LOTS)), OVERLAP)
        self.assertEqual(self.report(by_lines(*LOTS, *ANEW)), WITHOUT)

    def test_a_kind_is_that_of_the_listing(self) -> None:
        said = 'report: the errors are those of line 12; lines after it may have changed them\n'
        self.assertEqual(self.report(by_lines(*LOTS, *ANEW[:2]), said), OVERLAP)

    def test_no_errors(self) -> None:
        self.assertEqual(self.report('class lots polygon\nerrors\n'), HEADER)

    def test_replies_from_standard_input(self) -> None:
        script, _ = self.replayed('s', by_lines(*LOTS))
        replies = self.run_words(PROGRAM + ['replay'], by_lines(*LOTS).encode()).out
        self.assertEqual(self.run_words([os.path.join(TOOLS, 'report'), script, '-'], replies.encode()).out, OVERLAP)


TOWN = ['# grid resolution 0.5', '# grid origin 100 200', *LOTS[:2], 'rule polygon_must_not_overlap lots', 'begin ann', '# fid 7 id "A"',
        'by ann add lots POLYGON ((0 0, 9 0, 9 9, 0 9, 0 0))', 'by ann add lots POLYGON ((7 0, 12 0, 12 4, 7 4, 7 0))', 'validate all', 'cells']
WIDE = HEADER[:-1] + ',class,other_class,subject_fid,subject_id,other_fid,other_id,west,south,east,north,area,length'
OF_CELLS = '1,polygon_must_not_overlap,1,2,cells,error,7,0,9,4,lots,lots,'


class Wide(Case):
    def report(self, *words: str, table: str = '') -> tuple[int, list[str], str]:
        """The table of two lots that overlap, with these words for the tool."""
        with open(self.path('names.csv'), 'w', encoding='utf-8') as out:
            out.write(table)
        done = self.tool('report', *self.replayed('s', by_lines(*TOWN)), *words)
        return done.status, done.out.splitlines(), done.told

    def test_ids_places_and_sizes(self) -> None:
        self.assertEqual(self.report('--wide'), (0, [WIDE, OF_CELLS + '7,A,,,103.5,200,104.5,202,2,'], ''))

    def test_a_table_of_from_ogr_and_one_of_your_own(self) -> None:
        table = 'layer,fid,id,class,handle,moved,note\nlots,8,B,lots,2,,\nlots,9,C,lots,,,it is empty\n'
        self.assertEqual(self.report('--table', 'names.csv', table=table), (0, [WIDE, OF_CELLS + '7,A,8,B,103.5,200,104.5,202,2,'], ''))
        head, row = self.report('--table', 'names.csv', '--semicolon', table='handle;owner\n2;"Dorn; Abt"\n')[1]
        self.assertEqual((head.split(';')[-2:], row[-14:]), (['subject_owner', 'other_owner'], ';2;;;"Dorn; Abt"'[-14:]))

    def test_cells_that_a_spreadsheet_takes_for_formulas(self) -> None:
        said = "report: fields that a spreadsheet may take for formulas, since they begin with =, +, - or @: 1; --safe puts a ' before them\n"
        table = 'handle,id,height\n2,=cmd(),-1.5\n'
        for words, id, told in ((['--table', 'names.csv'], '=cmd()', said), (['--table', 'names.csv', '--safe'], "'=cmd()", '')):
            self.assertEqual(self.report(*words, table=table), (0, [WIDE + ',subject_height,other_height',
                             OF_CELLS + '7,A,,%s,103.5,200,104.5,202,2,,,-1.5' % id], told))

    def test_tables_that_are_none(self) -> None:
        for table, said in (('a,b\n1,2\n', 'names.csv has no column `handle`: it is not the table of from-ogr --table'),
                            ('handle,id\n1,A\n1,B\n', 'names.csv: the handle 1 is there twice'), ('handle,id\nx,A\n', 'names.csv: x is no handle'),
                            ('handle,id\n1\n', 'names.csv: row 1 has not as many cells as there are columns')):
            self.assertEqual(self.report('--table', 'names.csv', table=table), (2, [], 'report: %s\n' % said))

    def test_refused_lines_are_told(self) -> None:
        script, replies = self.replayed('s', by_lines(*TOWN[:-2], 'by ann add lots POLYGON ((0 0, 9 9, 9 0, 0 9, 0 0))', 'validate all', 'cells', 'dirty'))
        done = self.tool('report', script, replies)
        self.assertEqual((done.status, len(done.out.splitlines()), done.told), (1, 2, 'report: %s: refused lines: 1\n' % script))
        done = self.tool('to-gis', script, replies, 'out')
        self.assertEqual((done.status, done.told.splitlines()[0]), (1, '%s: refused lines: 1; tools/answers says which' % script))


class Replies(Case):
    def report(self, script: str, replies: str) -> tuple[int, str, str]:
        for name, text in (('s.topo', script), ('s.replies', replies)):
            with open(self.path(name), 'w', encoding='utf-8') as out:
                out.write(text)
        done = self.tool('report', 's.topo', 's.replies')
        return done.status, done.out, done.told

    def test_words_from_a_listing_of_rules(self) -> None:
        replies = 'rule 3 line_must_be_single_part roads\ntotal 1\nerror 3 4 0 whole 12 4 20 4\ntotal 1\n'
        self.assertEqual(self.report('rules\nerrors\n', replies), (0, HEADER + '3,line_must_be_single_part,4,0,whole,error,12,4,20,4\n', ''))
        said = 'report: line 1 lists an error of rule 3, and no line before it says the word of that rule\n'
        self.assertEqual(self.report('errors\n', ''.join(replies.splitlines(True)[2:])), (2, '', said))

    def test_no_listing_and_other_replies(self) -> None:
        self.assertEqual(self.report('class a point\n', 'ok 1\n'), (2, '', 'report: the script lists no errors: end it with the line `errors`\n'))
        self.assertEqual(self.report('class a point\nerrors\n', 'ok 1\n'), (2, '', 'report: line 2 has no reply: the replay ended before it\n'))
        self.assertEqual(self.report('errors\n', 'total 0\nok 1\n'), (2, '', 'report: there are more replies than lines\n'))

    def test_replies_that_break_off(self) -> None:
        said = 'report: the reply to line 2 is not whole: the replay ended within it\n'
        self.assertEqual(self.report('class a point\nerrors\n', 'ok 1\nerror 1 2 0 cells 0 0 1 1\n'), (2, '', said))
        said = 'report: line 1 has no reply: the replay ended before it\n'
        self.assertEqual(self.report('errors\n', 'total 0'), (2, '', said))

    def test_a_project_that_was_refused(self) -> None:
        said = 'report: the project was not opened, so no line has a reply: project refused line 7 form\n'
        self.assertEqual(self.report('errors\n', 'project refused line 7 form\n'), (2, '', said))


class Definition(unittest.TestCase):
    def test_the_header_is_that_of_the_definition(self) -> None:
        with open(os.path.join(ROOT, 'crates', 'script_terms', 'specs', 'Report.antt'), encoding='utf-8') as definition:
            self.assertIn('report_header = codes "%s" ++ 10 ∷ []\n' % HEADER.strip(), definition.read())


if __name__ == '__main__':
    unittest.main()
