"""Sources that mean harm: none writes a line of a script, a row of a table or to a terminal, none is read but the one that is named, and what
cannot be done ends with status 2 and one sentence."""
import contextlib
import csv
import io
import os
import shutil
import unittest
from typing import Iterator
from unittest import mock

import hostile
from lib.frame import printable
from lib.interpreter import READER
from lib.lines import LineError, ScriptWriter, feature_remark, name_of, number_of, told
from lib.replies import source_of
from working import TOOLS, Case, Done

GDAL = unittest.skipUnless(shutil.which('ogr2ogr'), 'ogr2ogr is not installed (package gdal-bin)')
COUNT = int(os.environ.get('HOSTILE_VALUES', 1000))
RULE = ['--rule', 'polygon_must_not_overlap', 'lots']


# Through GDAL's bindings where they are, and through its programs.
WAYS = 'bindings', 'programs'


class HostileCase(Case):
    @contextlib.contextmanager
    def way(self, name: str) -> Iterator[None]:
        """Within it the tools read sources this way."""
        with self.subTest(way=name), mock.patch.dict(os.environ, {READER: name}):
            yield

    def read(self, source: str, *words: str) -> Done:
        return self.tool('from-ogr', source, '--grid', '1', '--origin', '0', '0', '--degrees', *words)

    def could_not(self, done: Done, said: str) -> None:
        """It ended with status 2 and one line that says this."""
        self.assertEqual((done.status, done.told.count('\n')), (2, 1), done.told)
        self.assertIn(said, done.told)
        self.assertNotIn('Traceback', done.told)

    def geopackage(self, name: str, rows: list[dict], *words: str) -> str:
        hostile.write_lots(self.path('made.geojson'), rows)
        self.run_words(['ogr2ogr', '-f', 'GPKG', '-a_srs', 'EPSG:31467', '-nln', 'lots', *words, name, 'made.geojson'])
        return name


def without_progress(told: str) -> list[str]:
    """What was told, without how many features had been read every few seconds, and which cells look like formulas."""
    return [line for line in told.split('\n') if not line.endswith(' features') and not line.startswith('cells of the table that')]


def lines_without_remarks(script: str) -> list[str]:
    return [line for line in script.split('\n') if not line.startswith('#')]


@GDAL
class Values(HostileCase):
    def test_ids_write_no_line_and_no_row(self) -> None:
        """The lines are those of the same lots with plain ids, and each id is read back from its remark and from the table."""
        ids = hostile.values(COUNT)
        hostile.write_lots(self.path('evil.geojson'), [{'nr': each} for each in ids])
        hostile.write_lots(self.path('plain.geojson'), [{'nr': 'N'} for _ in ids])
        for way in WAYS:
            with self.way(way):
                evil = self.read('evil.geojson', '--id', 'nr', '--field', 'nr', '--table', 'evil.csv', '--layer', 'evil')
                plain = self.read('plain.geojson', '--id', 'nr', '--layer', 'plain')
                self.assertEqual((evil.status, without_progress(evil.told)), (0, without_progress(plain.told)))
                self.assertEqual(lines_without_remarks(evil.out), lines_without_remarks(plain.out.replace('plain', 'evil')))
                remarks = [source_of(line) for line in evil.out.split('\n') if line.startswith('# fid')]
                self.assertEqual(remarks, [(str(i), each) for i, each in enumerate(ids)])
                with open(self.path('evil.csv'), encoding='utf-8', newline='') as table:
                    rows = [(row['id'], row['nr'], row['handle']) for row in csv.DictReader(table)]
                self.assertEqual(rows, [(each, each, str(i)) for i, each in enumerate(ids, 1)])

    def test_cells_that_are_no_formulas(self) -> None:
        ids = ['=1+1', '+x', '-y', '@z', '-7', 'plain']
        hostile.write_lots(self.path('sums.geojson'), [{'nr': each} for each in ids])
        tables: list[tuple[list[str], list[str]]] = [([], ids), (['--safe'], ["'=1+1", "'+x", "'-y", "'@z", '-7', 'plain'])]
        for words, wanted in tables:
            done = self.read('sums.geojson', '--id', 'nr', '--table', 'table.csv', *words)
            self.assertEqual('may take for formulas, since they begin with =, +, - or @: 4' in done.told, not words)
            with open(self.path('table.csv'), encoding='utf-8', newline='') as table:
                self.assertEqual([row['id'] for row in csv.DictReader(table)], wanted)

    def test_answers_control_no_terminal(self) -> None:
        script, replies = self.replayed('evil', '\x1b[2Jclass lots polygon\nclass lots\x9b polygon\n')
        done = self.tool('answers', script, replies, '--whole')
        self.assertEqual((done.status, done.told), (1, ''))
        self.assertIn('1: \\x1b[2Jclass lots polygon\n', done.out)
        self.assertEqual(done.out, ''.join(printable(line) + '\n' for line in done.out.split('\n')[:-1]))

    def test_what_is_told_controls_no_terminal(self) -> None:
        ids = hostile.values(200, 2)
        hostile.write_lots(self.path('evil.geojson'), [{'nr': each} for each in ids])
        for way in WAYS:
            with self.way(way):
                done = self.tool('from-ogr', 'evil.geojson', '--grid', '1', '--origin', '99999999', '0', '--degrees', '--id', 'nr')
                self.assertEqual((done.status, done.told.count('\n')), (1, len(ids) + 2))
                self.assertEqual(done.told, ''.join(printable(line) + '\n' for line in done.told.split('\n')[:-1]))

    def test_a_text_named_fid_is_no_number(self) -> None:
        source = self.geopackage('evil.gpkg', [{'evil': '2\ndroprule 1\n#', 'nr': 'A'}, {'evil': 'x', 'nr': 'B'}], '-lco', 'FID=number')
        hostile.name_column(self.path(source), 'evil', 'FID')
        for way in WAYS:
            with self.way(way):
                done = self.read(source, '--id', 'nr', *RULE)
                self.assertEqual([line for line in done.out.split('\n') if line.startswith('# fid')], ['# fid 1 id "A"', '# fid 2 id "B"'])
                self.assertNotIn('droprule', done.out)
                self.assertIn('# fid 1 id "2\\ndroprule 1\\n#"', self.read(source, '--id', 'FID').out)
                split = self.tool('tiles', 'split', source, '--grid', '1', '--degrees', '--tiles', '1', '--into', 'tiles', *RULE)
                self.assertEqual(split.status, 0, split.told)
                with open(self.path('tiles/001.topo'), encoding='utf-8') as script:
                    self.assertNotIn('droprule', script.read())
                shutil.rmtree(self.path('tiles'))

    def test_names_of_files_layers_and_fields(self) -> None:
        """A name is in a remark as it is or in quotes, and never a line of its own."""
        rows = [{'Feature Count': '7', 'Extent': '(nan, 1)', 'nr': 'A'}]
        hostile.write_lots(self.path('plain.geojson'), rows, 'lots')
        for way in WAYS:
            with self.way(way):
                plain = lines_without_remarks(self.read('plain.geojson').out)
                for name in ['x\nclass evil point\n', 'a\rb', '-al', '\x1b[2J', 'ä"b', b'\xff'.decode('utf-8', 'surrogateescape')]:
                    path = self.path(name + '.geojson')
                    shutil.copy(self.path('plain.geojson'), path)
                    done = self.read(path)
                    self.assertEqual((done.status, lines_without_remarks(done.out)), (0, plain), done.told)
        for way in WAYS:
            with self.way(way):
                for name in ['-al', 'a b', 'x"y', "x'y", 'x\\y', 'x\nclass evil point\n', '\x1b[2J', 'SELECT']:
                    hostile.write_lots(self.path('layer.geojson'), rows, name)
                    done = self.read('layer.geojson')
                    if way == 'programs' and '\n' in name:
                        self.could_not(done, 'from-ogr: layer x: ')
                    else:
                        self.assertEqual((done.status, len(lines_without_remarks(done.out))), (0, 4), done.told)

    def test_marks(self) -> None:
        head = 'rule,kind,subject,other,extent,mark,x0,y0,x1,y1\n'
        for number, value in enumerate(hostile.values(20)):
            for name, mark in (('before.csv', 'exception'), ('after.csv', 'error')):
                with open(self.path(name), 'w', encoding='utf-8', newline='') as out:
                    out.write(head)
                    csv.writer(out, quoting=csv.QUOTE_ALL).writerow([[1, 'a', value, 2], [1, 'a', 1, value], [value, 'a', 1, 2]][number % 3] + ['cells', mark] + [0] * 4)
            done = self.tool('lapsed', 'before.csv', 'after.csv', '--marks')
            if value != '0':
                self.could_not(done, 'lapsed: ')
                self.assertEqual(done.out, '')


@GDAL
class Files(HostileCase):
    def test_a_source_is_the_file_that_it_says(self) -> None:
        self.geopackage('lots.gpkg', [{'nr': 'A'}])
        with open(self.path('vrt.gpkg'), 'w', encoding='utf-8') as out:
            out.write('<OGRVRTDataSource><OGRVRTLayer name="lots"><SrcDataSource>%s</SrcDataSource></OGRVRTLayer></OGRVRTDataSource>' % self.path('lots.gpkg'))
        with open(self.path('wfs.gpkg'), 'w', encoding='utf-8') as out:
            out.write('<OGRWFSDataSource><URL>http://127.0.0.1:9/wfs</URL></OGRWFSDataSource>')
        for end in ('', '.xml', '.json', '.csv'):
            shutil.copy(self.path('vrt.gpkg'), self.path('vrt%s' % end))
        for way in WAYS:
            with self.way(way):
                for name in ('vrt.gpkg', 'wfs.gpkg', 'vrt', 'vrt.xml', 'vrt.json'):
                    self.could_not(self.read(name), 'from-ogr: GDAL cannot open this source')
                self.assertNotIn('add', self.read('vrt.csv').out)
                for name in ('/vsicurl/http://127.0.0.1:9/x.gpkg', '/vsizip//vsicurl/http://127.0.0.1:9/x.zip', '/vsizip/{/vsicurl/http://127.0.0.1:9/x}',
                             'http://127.0.0.1:9/x.geojson', 'WFS:http://127.0.0.1:9', 'MYSQL:x', '<OGRVRTDataSource/>', '{"type": "Point"}', 'VRT:x'):
                    self.could_not(self.read(name), 'from-ogr: ')

    def test_tables_that_are_other_files(self) -> None:
        """Tables and views of the file itself are read. A view over a virtual table that is another file is not, and no trigger runs."""
        self.geopackage('lots.gpkg', [{'nr': 'A'}, {'nr': 'B'}])
        hostile.add_plain_view(self.path('lots.gpkg'))
        with open(self.path('other.csv'), 'w', encoding='utf-8') as out:
            out.write('nr,x\nSECRET,1\n')
        hostile.add_virtual_tables(self.path('lots.gpkg'), self.path('other.csv'))
        with open(self.path('lots.gpkg'), 'rb') as file:
            before = file.read()
        for way in WAYS:
            with self.way(way):
                for layer in ('view_by_ogr', 'view_by_text'):
                    done = self.read('lots.gpkg', '--layer', layer, '--id', 'nr')
                    self.assertEqual((done.status, 'Traceback' in done.told, 'by import add' in done.out), (2, False, False), done.told)
                for layer in ('lots', 'seen'):
                    done = self.read('lots.gpkg', '--layer', layer, '--id', 'nr')
                    self.assertEqual((done.status, done.out.count('by import add ' + layer)), (0, 2), done.told)
        with open(self.path('lots.gpkg'), 'rb') as file:
            self.assertEqual(file.read(), before)
        self.assertEqual(sorted(name for name in os.listdir(self.folder) if name.startswith('lots')), ['lots.gpkg'])

    def test_a_view_that_never_ends(self) -> None:
        hostile.add_endless_view(self.path(self.geopackage('lots.gpkg', [{'nr': 'A'}])))
        for way in WAYS:
            with self.way(way):
                self.could_not(self.read('lots.gpkg', '--timeout', '2', '--layer', 'endless'), 'from-ogr: the source gave nothing for 2 seconds (--timeout)')

    def test_an_extent_without_end(self) -> None:
        hostile.write_infinite_extent(self.path(self.geopackage('lots.gpkg', [{'nr': 'A'}])))
        for way in WAYS:
            with self.way(way):
                self.assertEqual(self.read('lots.gpkg').status, 0)
                done = self.tool('from-ogr', 'lots.gpkg', '--grid', '1')
                self.assertEqual(done.status, 2)
                self.assertIn('from-ogr: layer lots: its extent is no number, so say --origin', done.told)

    def test_numbers_of_a_million_digits(self) -> None:
        self.geopackage('lots.gpkg', [{'nr': 'A'}])
        for grid in ('1e1000000', '1e-1000000', '1e999999999999', '9' * 100000, 'nan', 'inf', '-1', '0', ''):
            self.could_not(self.tool('from-ogr', 'lots.gpkg', '--grid=' + grid), 'from-ogr: ')

    def test_numbers_of_a_source(self) -> None:
        """What is no number or far away is left out, with its text."""
        with open(self.path('far.csv'), 'w', encoding='utf-8') as out:
            out.write('nr,WKT\n1,"POLYGON ((0 0, 1e308 0, 4 4, 0 0))"\n2,"POLYGON ((0 0, 9 0, 9 9, 0 0))"\n3,"POLYGON ((0 0, nan 0, 4 4, 0 0))"\n'
                      '4,"POLYGON ((0 0, 5e-324 0, 1e-300 4, 0 0))"\n')
        for way in WAYS:
            with self.way(way):
                for words in (['from-ogr'], ['tiles', 'split', '--tiles', '1', '--into', 'tiles']):
                    done = self.tool(*words, 'far.csv', '--grid', '1', '--origin', '0', '0')
                    self.assertEqual((done.status, 'Traceback' in done.told), (1, False), done.told)
                    self.assertIn('far 1: left out: its vertex', done.told)
                    self.assertIn('1 added', done.told)
                shutil.rmtree(self.path('tiles'))

    def test_a_failure_leaves_what_was_there(self) -> None:
        self.geopackage('lots.gpkg', [{'nr': 'A'}])
        with open(self.path('table.csv'), 'w', encoding='utf-8') as out:
            out.write('kept\n')
        for words in (['--rule', 'no_rule', 'lots'], ['--grid', 'nan'], ['--layer', 'none']):
            self.assertEqual(self.read('lots.gpkg', '--table', 'table.csv', *words).status, 2)
        os.symlink('table.csv', self.path('link.csv'))
        self.assertEqual(self.read('lots.gpkg', '--table', 'link.csv').status, 0)
        with open(self.path('table.csv'), encoding='utf-8') as table:
            self.assertEqual(table.read(), 'kept\n')
        self.assertFalse(os.path.islink(self.path('link.csv')))
        self.assertEqual([name for name in os.listdir(self.folder) if name.startswith('.')], [])
        self.assertEqual(self.read('lots.gpkg', '--table', '/dev/null').status, 0)
        self.assertTrue(os.path.exists('/dev/null') and not os.path.isfile('/dev/null'))


@GDAL
class Frames(HostileCase):
    def test_standard_output_that_takes_nothing(self) -> None:
        self.geopackage('lots.gpkg', [{'nr': 'A'}])
        words = ' '.join([os.path.join(TOOLS, 'from-ogr'), 'lots.gpkg', '--grid', '1', '--origin', '0', '0', '--table', 'table.csv'])
        for where, said in (('> /dev/full', 'No space left'), ('>&-', 'standard output is closed')):
            done = self.run_words(['sh', '-c', words + ' ' + where])
            self.assertEqual((done.status, 'Traceback' in done.told, said in done.told), (2, False, True), done.told)
            self.assertFalse(os.path.exists(self.path('table.csv')))
        done = self.read('lots.gpkg', '--table', 'none/table.csv')
        self.assertEqual(done.status, 2)
        self.assertTrue(done.told.endswith("from-ogr: [Errno 2] No such file or directory: 'none/table.csv'\n"), done.told)

    def test_what_is_not_there(self) -> None:
        """Status 2 and one sentence, whichever tool; 1 means something else."""
        for words in (['answers', 'no', 'no'], ['report', 'no', 'no'], ['to-gis', 'no', 'no', 'out'], ['changes', 'no', 'no', 'no', 'new'], ['lapsed', 'no', 'no'],
                      ['fixes', '--program', 'true', 'no', 'no'], ['marks', 'no', 'no', 'no'], ['draw', 'true', 'no', 'out'],
                      ['draw', '--map', 'true', 'no', 'out'], ['tiles', 'merge', 'no'], ['towns', 'no', '--', 'no']):
            self.could_not(self.tool(*words), words[0] + ': ')
        self.assertEqual(self.tool('towns').status, 2)

    def test_help(self) -> None:
        for words in (['from-ogr'], ['tiles'], ['tiles', 'split'], ['tiles', 'merge'], ['changes'], ['lapsed'], ['fixes'], ['marks'], ['night'], ['report'],
                      ['to-gis'], ['draw'], ['answers'], ['towns']):
            done = self.tool(*words, '--help')
            self.assertEqual((done.status, done.told), (0, ''))
            self.assertGreater(len(done.out), 60)


class Lines(unittest.TestCase):
    def test_a_part_is_one_line(self) -> None:
        with open(os.devnull, 'wb') as out:
            for part in ('a\nb', 'a\r', '\udcff'):
                with self.assertRaises(LineError):
                    ScriptWriter(out).write('good', part)
            with self.assertRaises(LineError):
                ScriptWriter(out, 9).write('0123456789')

    def test_a_name_is_one_line_of_a_remark(self) -> None:
        """Names of files, layers, fields and drivers go into remarks in this way."""
        names = hostile.values(COUNT, 5)
        out = io.BytesIO()
        ScriptWriter(out).write_all('# source %s' % told(name) for name in names)
        lines = out.getvalue().decode().split('\n')
        self.assertEqual((len(lines), lines[-1]), (len(names) + 1, ''))
        self.assertTrue(all(line.startswith('# source ') for line in lines[:-1]))

    def test_what_is_more_than_a_line_is_never_written(self) -> None:
        """Whatever a tool hands over, it is written as one line or refused, and nothing of it stands then."""
        for value in hostile.values(COUNT, 7):
            out = io.BytesIO()
            with contextlib.suppress(LineError):
                ScriptWriter(out).write(value)
                self.assertEqual(out.getvalue(), value.encode() + b'\n')
            self.assertIn(out.getvalue().count(b'\n'), (0, 1))

    def test_numbers_and_names(self) -> None:
        """Marks, handles and rules of tables go into lines as numbers, and classes as names."""
        for text in hostile.values(max(COUNT, 2000)) + ['', '1 ', ' 1', '+1', '1_0', '٣', '01', '1' * 40]:
            if text not in ('0', '00'):
                for check in (number_of, name_of):
                    if check is number_of or not text.replace('_', 'a').isalnum() or not text.isascii():
                        with self.assertRaises(LineError):
                            check(text)
        self.assertEqual((number_of('-17'), number_of('0'), name_of('a_1')), (-17, 0, 'a_1'))

    def test_remarks_are_read_back(self) -> None:
        for number, value in enumerate(hostile.values(COUNT, 3)):
            remark = feature_remark(number, value)
            self.assertNotRegex(remark, '[\n\r]')
            self.assertEqual(source_of(remark), (str(number), value))


class Changes(Case):
    def test_a_table_as_both_names_is_kept(self) -> None:
        with open(self.path('a.project'), 'w', encoding='utf-8') as out:
            out.write('topology 1\nnext 2\nclass lots polygon\nfeature 1 lots POLYGON ((0 0, 9 0, 0 9, 0 0))\nend\n')
        before = 'layer,fid,id,class,handle,moved,note\nlots,1,A,lots,1,,\n'
        with open(self.path('a.csv'), 'w', encoding='utf-8') as out:
            out.write(before)
        with open(self.path('new.topo'), 'w', encoding='utf-8') as out:
            out.write('class lots polygon\nbegin import\n')
        os.link(self.path('a.csv'), self.path('b.csv'))
        for name in ('a.csv', 'b.csv', 'a.project', 'new.topo'):
            done = self.tool('changes', 'a.project', 'a.csv', 'new.topo', name)
            self.assertEqual(tuple(done), (2, '', 'changes: %s is one of the files that are read: name another for the new table\n' % name))
        with open(self.path('a.csv'), encoding='utf-8') as table:
            self.assertEqual(table.read(), before)

    def test_texts_that_are_none(self) -> None:
        good = {'a.project': b'topology 1\nnext 1\nend\n', 'a.csv': b'layer,fid,id,class,handle,moved,note\n', 'new.topo': b'class lots polygon\n'}
        for name, text in (('a.project', b'topology 1\nnext x\n'), ('a.project', b'topology 1\nnext\n'), ('a.project', b'topology 1\nclass a\xff polygon\n'),
                           ('a.project', b'topology 1\nfeature\n'), ('a.csv', good['a.csv'] + b'a,b\n'), ('a.csv', good['a.csv'] + b'l,1,\xff,c,1,,\n'),
                           ('a.csv', good['a.csv'] + b'l,1,a\rb,c,1,,\n'), ('a.csv', good['a.csv'] + b'l,1,a,c,1e9,,\n'),
                           ('a.csv', good['a.csv'] + b'l,1,"' + b'a' * 200000 + b'",c,1,,\n'), ('new.topo', b'# fid 1 id "\xff"\nby import add lots POINT (1 2)\n'),
                           ('new.topo', b'# fid 1 id "\\ud800"\nby import add lots POINT (1 2\r3)\n')):
            for of, data in {**good, name: text}.items():
                with open(self.path(of), 'wb') as out:
                    out.write(data)
            done = self.tool('changes', 'a.project', 'a.csv', 'new.topo', 'next.csv')
            self.assertEqual((done.status, done.out, done.told.count('\n'), 'fault of the tool' in done.told), (2, '', 1, False), (text, done.told))
            self.assertFalse(os.path.exists(self.path('next.csv')))


if __name__ == '__main__':
    unittest.main()
