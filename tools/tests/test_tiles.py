"""tools/tiles: the merged errors of 16 tiles of a town are those of one run over all, under all rules."""
from __future__ import annotations

import os
import shlex
import shutil
import subprocess
import unittest
from concurrent.futures import ThreadPoolExecutor

import town_source
from lib.replies import errors_of
from lib.rules import KINDS_OF
from working import PROGRAM, TOOLS, Case, Done, by_lines, rectangle

CLASSES = {'polygon': ('parcels', 'easements'), 'line': ('streets', 'kerbs'), 'point': ('wells', 'taps')}
TILES = 16


class Tiles(Case):
    def built_rules(self) -> list[str]:
        """Words for each rule that the program takes, over the classes of the town."""
        rules = []
        for word, (origin, dest) in KINDS_OF.items():
            first = CLASSES[origin][0]
            rules.append(' '.join([word, first] + ([CLASSES[dest][dest == origin]] if dest else [])))
        classes = ['class %s %s' % (name, kind) for kind, names in CLASSES.items() for name in names]
        said = self.replay(by_lines(*classes, *('rule ' + rule for rule in rules)))[len(classes):]
        return [rule for rule, reply in zip(rules, said) if reply.startswith('ok')]

    def run_tile(self, number: int) -> int:
        path = self.path('tiles/%03d.' % number)
        with open(path + 'topo', 'rb') as script, open(path + 'replies', 'wb') as replies:
            return subprocess.run(PROGRAM + ['replay'], stdin=script, stdout=replies).returncode

    def test_a_town_in_tiles_and_whole(self) -> None:
        rules = self.built_rules()
        self.assertGreaterEqual(len(rules), 3)
        rows = int(os.environ.get('TOWN_ROWS', 60))
        town_source.write_town(rows, self.path('town.gpkg'))
        words = ['town.gpkg', '--grid', '0.01', '--origin', *town_source.ORIGIN, '--id', 'nr']
        for rule in rules:
            words += ['--rule', *rule.split()]
        made = self.tool('tiles', 'split', *words, '--tiles', str(TILES), '--into', 'tiles')
        self.assertEqual(made.status, 0, made.told)
        with ThreadPoolExecutor(4) as pool:
            self.assertEqual(set(pool.map(self.run_tile, range(1, TILES + 1))), {0})
        merged = self.tool('tiles', 'merge', 'tiles')
        self.assertEqual((merged.status, merged.told), (0, ''))
        script = self.tool('from-ogr', *words).out
        whole = self.replay(script)
        at = next(i for i, line in enumerate(whole) if line.startswith('ok judged'))
        listing = whole[at + 1:whole.index(next(line for line in whole[at:] if line.startswith('total'))) + 1]
        self.assertGreater(len(errors_of(listing[:-1])), 4000 * rows ** 2 // 40000)
        self.assertEqual(merged.out.splitlines(), listing)
        for end, text in (('topo', script), ('replies', by_lines(*whole))):
            with open(self.path('whole.' + end), 'w', encoding='utf-8') as out:
                out.write(text)
        tables = [self.tool('report', *words) for words in (['tiles'], ['whole.topo', 'whole.replies'])]
        self.assertEqual([(table.status, table.told) for table in tables], [(0, '')] * 2)
        self.assertEqual(tables[0].out, tables[1].out)


class Ends(Case):
    def test_beyond_the_reach(self) -> None:
        """Lots 20 km apart at a millimetre, two of which overlap at each end."""
        lots = [rectangle(x, 0, x + 10, 10) for x in (0, 5, 20000, 20009)]
        self.source('far.gpkg', lots)
        self.assertEqual(self.tool('from-ogr', 'far.gpkg', '--grid', '0.001').status, 2)
        words = ['far.gpkg', '--grid', '0.001', '--rule', 'polygon_must_not_overlap', 'lots', '--into', 'tiles', '--tiles']
        one = self.tool('tiles', 'split', *words, '1')
        self.assertEqual(one.status, 2)
        self.assertIn('take more tiles', one.told)
        self.assertEqual(self.tool('tiles', 'split', *words, '2').status, 0)
        for name in os.listdir(self.path('tiles')):
            with open(self.path('tiles/' + name), encoding='utf-8') as script:
                self.replayed('tiles/' + name[:3], script.read())
        merged = self.tool('tiles', 'merge', 'tiles').out.splitlines()
        self.assertEqual([line.split('cells')[0] for line in merged if not line.startswith('cell')], ['error 1 1 2 ', 'error 1 3 4 ', 'total 2'])
        self.assertEqual(int(merged[2].split()[5]) - int(merged[0].split()[5]), 20004000)
        self.assertEqual(self.tool('to-gis', 'tiles', 'far-errors.gpkg').status, 0)
        rows = self.rows('far-errors.gpkg', 'SELECT subject, other, ST_MinX(geom) AS x0, ST_MaxX(geom) AS x1 FROM error_polygons ORDER BY subject')
        self.assertEqual([tuple(row.values()) for row in rows], [(1, 2, 5, 10), (3, 4, 20009, 20010)])

    @unittest.skipUnless(shutil.which('snakemake'), 'snakemake is not installed')
    def test_the_snakefile(self) -> None:
        crossed = {'type': 'Polygon', 'coordinates': [[[90, 0], [99, 9], [99, 0], [90, 9], [90, 0]]]}
        self.source('four lots.gpkg', [rectangle(x, 0, x + 11, 10) for x in range(0, 40, 10)] + [crossed], layer='my lots')
        root = os.path.dirname(TOOLS)
        with open(self.path('topo'), 'w', encoding='utf-8') as out:
            out.write('#!/bin/sh\nexec %s "$@"\n' % shlex.join(PROGRAM))
        os.chmod(self.path('topo'), 0o755)
        done = self.run_words(['snakemake', '-s', os.path.join(root, 'examples', 'Snakefile'), '--cores', '2', '--config', 'source=four lots.gpkg',
                               'grid=1', 'tiles=2', 'tools=' + TOOLS, 'layers=my lots=lots', 'rules=polygon_must_not_overlap lots'])
        self.assertEqual(done.status, 0, done.told)
        with open(self.path('tiles/errors.txt'), encoding='utf-8') as errors:
            self.assertEqual([line.split(' cells')[0] for line in errors if not line.startswith('cell')],
                             ['error 1 1 2', 'error 1 2 3', 'error 1 3 4', 'total 3\n'])
        self.assertEqual(self.rows('tiles/errors.gpkg', 'SELECT count(*) AS n FROM error_polygons'), [{'n': 3}])
        with open(self.path('tiles/split.log'), encoding='utf-8') as log:
            self.assertIn('my lots 5: left out: ', log.read())



class Belonging(Case):
    """Tiles and replies that belong together, and others."""

    def split(self, *words: str) -> Done:
        return self.tool('tiles', 'split', 'row.gpkg', '--grid', '1', '--rule', 'polygon_must_not_overlap', 'lots', '--into', 'tiles', *words)

    def setUp(self) -> None:
        """A row of lots, each of which overlaps the next one, in four tiles with their replies."""
        super().setUp()
        self.source('row.gpkg', [rectangle(x, 0, x + 11, 10) for x in range(0, 120, 10)])
        self.assertEqual(self.split('--tiles', '4').status, 0)

    def replay_all(self, *names: str) -> None:
        for name in names:
            with open(self.path('tiles/%s.topo' % name), encoding='utf-8') as script:
                self.replayed('tiles/' + name, script.read())

    def refused(self, said: str) -> None:
        """Each tool that takes tiles says this in one line, and writes nothing."""
        for tool, words in (('tiles', ['merge', 'tiles']), ('report', ['tiles'])):
            done = self.tool(tool, *words)
            self.assertEqual((done.status, done.out, done.told), (2, '', '%s: %s\n' % (tool, said)))

    def test_a_folder_that_has_tiles_is_refused(self) -> None:
        before = sorted(os.listdir(self.path('tiles')))
        said = 'tiles: tiles has tiles or replies already, such as tiles/001.topo: remove them, or name another folder\n'
        self.assertEqual(tuple(self.split('--tiles', '2')), (2, '', said))
        self.assertEqual(sorted(os.listdir(self.path('tiles'))), before)
        for name in before:
            os.rename(self.path('tiles/' + name), self.path('tiles/%s.replies' % name[:3]))
        self.assertEqual(tuple(self.split('--tiles', '2')), (2, '', said.replace('.topo', '.replies')))

    def test_a_split_that_fails_leaves_no_tile(self) -> None:
        self.source('far.gpkg', [rectangle(x, 0, x + 10, 10) for x in (0, 20, 40, 10000000)])
        done = self.tool('tiles', 'split', 'far.gpkg', '--grid', '1', '--tiles', '2', '--into', 'others')
        self.assertEqual(done.status, 2)
        self.assertIn('others/001.topo: 2 subjects', done.told)
        self.assertEqual(os.listdir(self.path('others')), [])

    def test_all_tiles_of_one_split(self) -> None:
        self.replay_all('001', '002', '003', '004')
        merged, table = self.tool('tiles', 'merge', 'tiles'), self.tool('report', 'tiles')
        self.assertEqual((merged.status, merged.out.splitlines()[-1]), (0, 'total 11'))
        self.assertEqual(table.out.splitlines()[1].split(',')[:6], ['1', 'polygon_must_not_overlap', '1', '2', 'cells', 'error'])
        self.assertEqual(table.out.count('\n'), 12)
        os.remove(self.path('tiles/004.topo'))
        self.refused('tiles/001.topo is tile 1 of 4, and not 1 of 3: these are not all tiles of one split, or more')
        self.assertEqual(self.tool('to-gis', 'tiles', 'out').status, 2)

    def test_ids_of_a_table(self) -> None:
        """The table of the whole names the features of each tile, whichever handles they have there."""
        shutil.rmtree(self.path('tiles'))
        self.assertEqual(self.split('--tiles', '4', '--id', 'nr', '--table', 'table.csv').status, 0)
        self.replay_all('001', '002', '003', '004')
        done = self.tool('tiles', 'merge', 'tiles', '--table', 'table.csv')
        lines = done.out.splitlines()
        self.assertEqual((done.status, lines[0], lines[1].split(' cells')[0]), (0, '# lots "N1", lots "N2"', 'error 1 1 2'))
        self.assertEqual(sum(line.startswith('# ') for line in lines), 11)
        with open(self.path('table.csv'), encoding='utf-8') as table:
            named = table.read().replace(',N', ',lot ')
        with open(self.path('named.csv'), 'w', encoding='utf-8') as out:
            out.write(named)
        self.assertEqual(self.tool('to-gis', 'tiles', 'errors.gpkg', '--table', 'named.csv').status, 0)
        rows = self.rows('errors.gpkg', 'SELECT subject_id, other_id FROM error_polygons ORDER BY subject')
        self.assertEqual([tuple(row.values()) for row in rows], [('lot %d' % n, 'lot %d' % (n + 1)) for n in range(1, 12)])

    def test_a_tile_twice(self) -> None:
        self.replay_all('001', '002', '003', '004')
        with open(self.path('tiles/003.topo'), encoding='utf-8') as script:
            text = script.read().replace('# neighbour', '# subject')
        self.replayed('tiles/003', text)
        self.refused('two tiles in tiles have the error 1 6 7: a feature is the subject of one alone')

    def test_replies_of_another_tile(self) -> None:
        self.replay_all('001', '002', '003', '004')
        shutil.copy(self.path('tiles/002.replies'), self.path('tiles/001.replies'))
        self.refused('tiles/001.topo: line 22 cannot have the reply `ok 5`: the replies are not those of this script')
        os.rename(self.path('tiles/001.replies'), self.path('tiles/004.replies'))
        self.replay_all('001')
        self.assertEqual(self.tool('to-gis', 'tiles', 'out').status, 2)
        self.assertFalse(os.path.exists(self.path('out')))
        self.replay_all('004')
        with open(self.path('tiles/002.replies'), encoding='utf-8') as replies:
            text = replies.read()
        for old, new in ((' 1 2 cells', ' 1 9 cells'), ('error 1', 'error 2')):
            with open(self.path('tiles/002.replies'), 'w', encoding='utf-8') as out:
                out.write(text.replace(old, new))
            self.replay_all('001')
            self.assertIn('cannot be one of this script', self.tool('report', 'tiles').told)

    def test_without_replies_and_without_tiles(self) -> None:
        self.refused('tiles/001.topo has no replies: there is no file tiles/001.replies')
        shutil.rmtree(self.path('tiles'))
        os.mkdir(self.path('tiles'))
        self.refused('no tiles in tiles')
        self.replayed('tiles/001', 'class lots polygon\ncells\n')
        self.refused('tiles/001.topo is no tile of tools/tiles')

    def test_a_refused_line(self) -> None:
        with open(self.path('tiles/001.topo'), 'a', encoding='utf-8') as script:
            script.write('frobnicate\n')
        self.replay_all('001', '002', '003', '004')
        for tool, words in (('tiles', ['merge', 'tiles']), ('report', ['tiles'])):
            done = self.tool(tool, *words)
            self.assertEqual((done.status, done.told), (1, '%stiles/001.topo: refused lines: 1\n' % ('report: ' * (tool == 'report'))))


if __name__ == '__main__':
    unittest.main()
