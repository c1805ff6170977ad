"""Gaps as areas: of a coverage of squares each gap is found, with its size, and told apart from the ground round the map."""
import random
import unittest
from fractions import Fraction

from lib.gaps import Ground, ground_of
from lib.outlines import Point
from lib.spans import Segment, merged
from working import Case, by_lines

Square = tuple[int, int]


def border_of(covered: dict[Square, int]) -> tuple[dict[Segment, set[int]], set[Point]]:
    """The sides between covered squares and open ground, each as long as it is on one line for one lot, with the lots that have them; and the
    corners."""
    spans: dict[tuple, list[Square]] = {}
    for (x, y), lot in covered.items():
        for dx, dy, line in ((0, -1, (0, y)), (0, 1, (0, y + 1)), (-1, 0, (1, x)), (1, 0, (1, x + 1))):
            if (x + dx, y + dy) not in covered:
                at = y if line[0] else x
                spans.setdefault((lot, *line), []).append((at, at + 1))
    sides: dict[Segment, set[int]] = {}
    for (lot, is_upright, at), of in spans.items():
        for low, high in merged(of):
            ends = [(Fraction(at), Fraction(u)) if is_upright else (Fraction(u), Fraction(at)) for u in (low, high)]
            sides.setdefault((ends[0], ends[1]), set()).add(lot)
    return sides, {(Fraction(x + dx), Fraction(y + dy)) for x, y in covered for dx in (0, 1) for dy in (0, 1)}


def gaps_of(covered: dict[Square, int], size: int) -> list[int]:
    """The sizes of the open pieces that do not reach beyond the map, by flooding; two that touch at a corner are two."""
    open_ground = {(x, y) for x in range(-1, size + 1) for y in range(-1, size + 1)} - set(covered)
    sizes = []
    while open_ground:
        piece = [open_ground.pop()]
        for x, y in piece:
            near = {(x + 1, y), (x - 1, y), (x, y + 1), (x, y - 1)} & open_ground
            open_ground -= near
            piece += near
        sizes += [len(piece)] if (-1, -1) not in piece else []
    return sorted(sizes)


class Grounds(unittest.TestCase):
    def ground(self, covered: dict[Square, int]) -> Ground:
        return ground_of(*border_of(covered))

    def test_by_flooding(self) -> None:
        """Lots of squares by lot, which touch each other's corners and have islands in their gaps."""
        lot, count = random.Random(3), 0
        for _ in range(150):
            size = lot.randint(2, 9)
            covered = {(x, y): x // 3 + 10 * (y // 2) for x in range(size) for y in range(size) if lot.random() < 0.7}
            ground = self.ground(covered)
            self.assertEqual(sorted(gap.area for gap in ground.gaps), gaps_of(covered, size))
            self.assertEqual(ground.unclosed, 0)
            count += len(ground.gaps)
        self.assertGreater(count, 200)

    def test_an_island_in_a_gap_and_who_is_beside(self) -> None:
        covered = {(x, y): 1 if y < 2 else 2 for x in range(7) for y in range(7) if not (1 <= x <= 5 and 1 <= y <= 5)}
        covered[3, 3] = 3
        ground = self.ground(covered)
        self.assertEqual([(gap.area, len(gap.outline.holes), gap.beside) for gap in ground.gaps], [(24, 1, {1, 2, 3})])
        self.assertEqual([(len(ring), beside) for ring, beside in ground.perimeters], [(4, {1, 2})])

    def test_two_maps_and_a_border_that_is_not_closed(self) -> None:
        sides, points = border_of({(0, 0): 1, (5, 5): 2})
        self.assertEqual(len(ground_of(sides, points).perimeters), 2)
        sides.pop(next(iter(sides)))
        ground = ground_of(sides, points)
        self.assertEqual((len(ground.perimeters), ground.unclosed, ground.gaps), (1, 1, []))
        self.assertEqual(ground_of({}, set()), Ground([], [], set(), 0))


class Layers(Case):
    LOTS = ['0 0, 30 0, 30 10, 0 10, 0 0', '0 10, 10 10, 10 20, 0 20, 0 10', '20 10, 30 10, 30 20, 20 20, 20 10', '0 20, 30 20, 30 30, 0 30, 0 20']
    HEAD = ['# grid resolution 0.5', '# grid origin 100 200', 'class lots polygon', 'rule polygon_must_not_have_gaps lots', 'begin a']

    def test_a_gap_and_the_perimeter(self) -> None:
        lots = [line for number, ring in enumerate(self.LOTS) for line in ('# fid %d id "L%d"' % (number, number), 'by a add lots POLYGON ((%s))' % ring)]
        done = self.tool('to-gis', *self.replayed('s', by_lines(*self.HEAD, *lots, 'validate all', 'mark 1 1 0', 'cells', 'dirty')), 'out.gpkg')
        self.assertEqual(done.told, '4 errors in 0 polygons, 4 lines, 0 points; 0 dirty areas\n1 gap beside the perimeter of 1 ring\n')
        self.assertEqual(self.rows('out.gpkg', 'SELECT rule, class, number, area, features, ids, ST_Area(geom) AS a FROM gaps'),
                         [{'rule': 1, 'class': 'lots', 'number': 1, 'area': 25, 'features': 4, 'ids': 'L0, L1, L2, L3', 'a': 25}])
        self.assertEqual(self.rows('out.gpkg', 'SELECT length, features FROM perimeter'), [{'length': 60, 'features': 4}])

    def test_tiles_have_the_gaps_of_the_whole(self) -> None:
        self.source('town.gpkg', [{'type': 'Polygon', 'coordinates': [[[*map(float, place.split())] for place in ring.split(', ')]]} for ring in self.LOTS])
        words = ['town.gpkg', '--grid', '0.5', '--rule', 'polygon_must_not_have_gaps', 'lots']
        self.assertEqual(self.tool('tiles', 'split', *words, '--tiles', '2', '--into', 'tiles').status, 0)
        for name in ('001', '002'):
            with open(self.path('tiles/%s.topo' % name), encoding='utf-8') as script:
                self.replayed('tiles/' + name, script.read())
        done = self.tool('to-gis', 'tiles', 'out.gpkg')
        self.assertEqual((done.status, done.told.splitlines()[-1]), (0, '1 gap beside the perimeter of 1 ring'))
        self.assertEqual(self.rows('out.gpkg', 'SELECT area, ST_MinX(geom) AS x FROM gaps'), [{'area': 100, 'x': 10}])


if __name__ == '__main__':
    unittest.main()
