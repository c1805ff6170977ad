"""The corners of cells that the program lists, in place of those computed in fractions: the same layers, figures, maps and pages."""
import glob
import json
import os
import re
import shlex
from fractions import Fraction

from lib.asked import asked_closures, ring_of, with_closures
from lib.cells import Cover, closures_of, cover_of_error
from lib.outlines import Outline
from lib.replies import Error, ReplyError, each_error
from lib.scenes import bytes_of, ending_after, replies_to
from working import PROGRAM, TOOLS, Case

ROADS = ['class roads line', 'rule line_must_not_intersect roads', 'begin a', 'by a add roads LINESTRING (0 0, 10 10)',
         'by a add roads LINESTRING (0 5, 2 1)', 'validate all']
FIGURES = os.path.join(os.path.dirname(TOOLS), 'docs', 'figures', '*.script')
RING = re.compile(r'd="M([^"MZ]*) Z"')


def from_least(ring: list) -> list:
    """A ring from its least point on."""
    at = ring.index(min(ring))
    return ring[at:] + ring[:at]


def cover_from_least(error: Error) -> Cover:
    """What the cells of an error cover, each ring from its least point on."""
    cover = cover_of_error(error)
    return cover._replace(polygons=[Outline(from_least(shell), list(map(from_least, holes))) for shell, holes in cover.polygons])


def layer_in(path: str) -> list[dict]:
    """The features of a layer, each ring from its least point on."""
    with open(path, encoding='utf-8') as layer:
        features = json.load(layer)['features']
    for feature in features:
        if feature['geometry']['type'] == 'MultiPolygon':
            feature['geometry']['coordinates'] = [[from_least(ring[:-1]) for ring in part] for part in feature['geometry']['coordinates']]
    return features


def drawn_in(path: str) -> list[str]:
    """The lines of a drawing in an order of their own, each ring from its least point on."""
    with open(path, encoding='utf-8') as drawing:
        return sorted(RING.sub(lambda ring: 'd="M%s Z"' % ' L'.join(from_least(ring[1].split(' L'))), line) for line in drawing)


class Asked(Case):
    def script(self, *lines: str) -> str:
        with open(self.path('s.topo'), 'w', encoding='utf-8') as out:
            out.write('\n'.join(lines) + '\n')
        return 's.topo'

    def drawn(self, script: str, *words: str) -> list[str]:
        done = self.tool('draw', *words, shlex.join(PROGRAM), script, 'out.svg')
        self.assertEqual((done.status, re.sub('draw: refused lines: .*\n', '', done.told)), (0, ''))
        return drawn_in(self.path('out.svg'))

    def test_rings(self) -> None:
        self.assertEqual(ring_of([(0, 0), (0, 2), (1, -1), (1, 3), (2, 0), (2, 2)]), [(0, 0), (1, -1), (2, 0), (2, 2), (1, 3), (0, 2)])
        self.assertEqual(ring_of([(0, 0), (0, 2), (2, 2)]), [(0, 0), (2, 2), (0, 2)])
        self.assertEqual(ring_of([(0, 0), (3, 1)]), [(0, 0), (3, 1)])

    def test_figures(self) -> None:
        """Of each figure what the cells of each error cover, cell by cell and all together."""
        for path in sorted(glob.glob(FIGURES)):
            with replies_to(PROGRAM, path) as replies:
                errors = list(each_error(ending_after(path, replies).listings['cells'].lines))
            if any(error.cells for error in errors):
                with self.subTest(os.path.basename(path)):
                    for own, asked in zip(errors, with_closures(PROGRAM, bytes_of(path), errors)):
                        self.assertEqual([from_least(corners) for corners in closures_of(asked)], [from_least(corners) for corners in closures_of(own)])
                        self.assertEqual(cover_from_least(asked), cover_from_least(own))

    def test_drawings(self) -> None:
        script = FIGURES.replace('*', 'report')
        self.assertEqual(self.drawn(script, '--ask'), self.drawn(script))
        for kind in ('--map', '--html'):
            self.assertEqual(len(self.drawn(script, kind, '--ask')), len(self.drawn(script, kind)))

    def test_layers(self) -> None:
        with open(FIGURES.replace('*', 'report'), encoding='utf-8') as lines:
            asked, replies = self.replayed('s', lines.read().rstrip('\n') + '\nrules\ncells\ndirty\n')
        for words in (), ('--cells',):
            self.assertEqual(self.layers(asked, replies, *words, '--ask', shlex.join(PROGRAM)), self.layers(asked, replies, *words))

    def layers(self, script: str, replies: str, *words: str) -> dict:
        self.assertEqual(self.tool('to-gis', script, replies, 'out', *words).status, 0)
        return {os.path.basename(path): layer_in(path) for path in sorted(glob.glob(self.path('out/*.geojson')))}

    def test_where_the_listing_stands(self) -> None:
        """The corners are those of the errors that are listed, though the script goes on."""
        script, replies = self.replayed('s', '\n'.join([*ROADS, 'cells', 'dirty', 'by a delete 2', 'validate all']) + '\n')
        done = self.tool('to-gis', script, replies, 'out', '--ask', shlex.join(PROGRAM))
        self.assertEqual((done.status, '1 error in 0 polygons, 0 lines, 1 point' in done.told), (0, True))

    def test_another_program(self) -> None:
        """A program that lists no corners, or those of other cells, is told."""
        script = '\n'.join(ROADS).encode()
        self.assertEqual(asked_closures(PROGRAM, script, {(1, 1, 2): 1}), {(1, 1, 2): [[(Fraction(5, 3), Fraction(5, 3))]]})
        with self.assertRaises(ReplyError):
            asked_closures(PROGRAM, script, {(1, 2, 1): 1})
        with self.assertRaises(ReplyError):
            asked_closures(PROGRAM, script, {(1, 1, 2): 0})
