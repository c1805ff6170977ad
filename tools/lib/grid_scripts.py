"""Random scripts over points, lines and polygons of a small grid, under all 27 rules.

The vertices lie in a grid of 8 by 8 units, and half of them at few places of it, so that all the time polygons touch, share edges and
corners, fill holes of one another but for a slit, and overlap; lines run along sides, along each other and back over themselves, close,
have parts, and meet at ends; and points are at vertices, on sides and at one place. A script has two classes of each kind, some of the
rules, features that are added, changed and deleted, rules that are dropped and put in force again, validations of the whole grid and of
windows, and every listing.
"""
from __future__ import annotations

import random
from typing import Iterator, Sequence

from .rules import KINDS_OF

Place = tuple[int, int]
Ring = list[Place]
Rings = list[Ring]

SIDE = 8
NODES = [0, 2, 4, 8]
NAMES = ['ann', 'bob', 'Zed', 'cat', 'dan', 'eve', 'fay', 'gus']


def ring(places: Ring) -> str:
    return '(%s)' % ', '.join('%d %d' % p for p in places + places[:1])


def box(rng: random.Random) -> tuple[int, int, int, int]:
    x0, x1 = sorted(rng.sample(range(SIDE + 1), 2))
    y0, y1 = sorted(rng.sample(range(SIDE + 1), 2))
    return x0, y0, x1, y1


def corners(x0: int, y0: int, x1: int, y1: int) -> Ring:
    return [(x0, y0), (x1, y0), (x1, y1), (x0, y1)]


def rectangle(rng: random.Random) -> Rings:
    return [corners(*box(rng))]


def triangle(rng: random.Random) -> Rings:
    return [[(rng.randint(0, SIDE), rng.randint(0, SIDE)) for _ in range(3)]]


def bent(rng: random.Random) -> Rings:
    """An L: a rectangle without a corner."""
    x0, y0, x1, y1 = box(rng)
    x, y = rng.randint(x0, x1), rng.randint(y0, y1)
    return [[(x0, y0), (x1, y0), (x1, y), (x, y), (x, y1), (x0, y1)]]


def holed(rng: random.Random) -> Rings:
    """A rectangle with a hole, which may touch its boundary at a place."""
    x0, y0, x1, y1 = 0, 0, rng.randint(3, SIDE), rng.randint(3, SIDE)
    hole = [(rng.randint(x0, x1), rng.randint(y0, y1)) for _ in range(rng.choice([3, 4]))]
    return [corners(x0, y0, x1, y1), hole]


def filled(rng: random.Random) -> Rings:
    """What is in the middle of a large rectangle with a hole, or that rectangle: a hole that is filled but for a slit, or all of it."""
    x0, y0 = rng.randint(1, 3), rng.randint(1, 3)
    x1, y1 = rng.randint(5, 7), rng.randint(5, 7)
    if rng.random() < 0.5:
        return [corners(0, 0, SIDE, SIDE), corners(x0, y0, x1, y1)]
    return [corners(x0, y0, x1 - rng.choice([0, 0, 1]), y1)]


def any_ring(rng: random.Random) -> Rings:
    return [[(rng.randint(0, SIDE), rng.randint(0, SIDE)) for _ in range(rng.randint(3, 6))]]


def polygon(rng: random.Random) -> str:
    rings = rng.choice([rectangle, rectangle, rectangle, triangle, bent, holed, filled, filled, any_ring])(rng)
    if rng.random() < 0.3:
        rings = [ring[::-1] for ring in rings]
    return '(%s)' % ', '.join(ring(places) for places in rings)


def area(rng: random.Random) -> str:
    if rng.random() < 0.15:
        return 'MULTIPOLYGON (%s, %s)' % (polygon(rng), polygon(rng))
    return 'POLYGON ' + polygon(rng)


def place(rng: random.Random) -> Place:
    """A place of the grid; every other one is one of a few, where ends meet."""
    if rng.random() < 0.5:
        return rng.choice(NODES), rng.choice(NODES)
    return rng.randint(0, SIDE), rng.randint(0, SIDE)


def along(rng: random.Random) -> Ring:
    """A way along some sides of a rectangle, in either direction; it may begin and end within a side."""
    x0, y0, x1, y1 = box(rng)
    places = [(rng.randint(x0, x1), y0)] + corners(x0, y0, x1, y1)[1:] + [(x0, rng.randint(y0, y1))]
    places = places[:rng.randint(2, 5)]
    return places if rng.random() < 0.5 else places[::-1]


def loop(rng: random.Random) -> Ring:
    """A way that ends where it begins."""
    places = rng.choice([corners(*box(rng)), [place(rng) for _ in range(3)]])
    return places + places[:1]


def back(rng: random.Random) -> Ring:
    """A way that goes back over its last segment, and perhaps farther."""
    places = [place(rng) for _ in range(rng.randint(2, 3))]
    (x0, y0), (x1, y1) = places[-2:]
    return places + [rng.choice([(x0, y0), ((x0 + x1) // 2, (y0 + y1) // 2), place(rng), (x1, y0)])]


def link(rng: random.Random) -> Ring:
    return [place(rng) for _ in range(2)]


def winding(rng: random.Random) -> Ring:
    return [place(rng) for _ in range(rng.randint(3, 5))]


def way(rng: random.Random) -> Ring:
    return rng.choice([along, along, along, link, link, loop, back, winding])(rng)


def path(places: Ring) -> str:
    return '(%s)' % ', '.join('%d %d' % p for p in places)


def course(rng: random.Random) -> str:
    if rng.random() < 0.25:
        parts = [way(rng) for _ in range(rng.choice([1, 2, 2, 3]))]
        if len(parts) > 1 and rng.random() < 0.5:
            parts[1][0] = parts[0][-1]
        return 'MULTILINESTRING (%s)' % ', '.join(path(part) for part in parts)
    return 'LINESTRING ' + path(way(rng))


def spot(rng: random.Random) -> str:
    """A point; every other one at one of four places."""
    return 'POINT (%d %d)' % ((rng.choice(NODES[::2]), rng.choice(NODES[::2])) if rng.random() < 0.5 else place(rng))


def session_line(rng: random.Random, editors: Sequence[str]) -> str:
    """A line that begins a session, ends it, or undoes or redoes steps of it."""
    return rng.choice(['begin %s', 'by %s undo', 'by %s undo', 'by %s undo', 'by %s redo', 'by %s redo', 'end %s', 'discard %s']) % rng.choice(editors)


FIXES = ('explode', 'snap', 'create', 'move')


def fix_line(rng: random.Random, count: int, editors: Sequence[str]) -> str:
    """A line that fixes an error or moves shared vertices, or undoes or redoes a step; its handle mostly is one of the first."""
    editor, handle, rule = rng.choice(editors), rng.randint(1, count // 4 + 12), rng.randint(1, len(FIXABLE))
    kind = rng.random()
    if kind < 0.3:
        return 'by %s %s' % (editor, rng.choice(['undo', 'undo', 'redo']))
    if kind < 0.45:
        return 'by %s explode %d' % (editor, handle)
    if kind < 0.68:
        return 'by %s snap %d %d %d %d %d' % (editor, rng.choice([1, 1, 1, rule]), handle, rng.choice([0, 1, 1, 2]), *place(rng))
    if kind < 0.85:
        return 'by %s create %d %d %d %d' % (editor, rng.choice([2, 3, rule]), handle, *place(rng))
    return 'by %s move %d %d %d %d' % (editor, *place(rng), *place(rng))


def line(rng: random.Random, count: int, editors: Sequence[str], fixes: bool = False) -> str:
    """One line of a script in which about so many features were added; with fixes every other one is a fix, or undoes or redoes."""
    if fixes and rng.random() < 0.5:
        return fix_line(rng, count, editors)
    if len(editors) > 1 and rng.random() < (0.1 if fixes else 0.5):
        return session_line(rng, editors)
    return edit(rng, count).replace('by ann', 'by ' + rng.choice(editors))


def edit(rng: random.Random, count: int) -> str:
    """A line that edits, validates, lists, or changes the rules."""
    handle = rng.randint(1, count + 1)
    kind = rng.random()
    if kind < 0.18:
        return 'by ann add %s %s' % (rng.choice(['lots', 'lots', 'zones']), area(rng))
    if kind < 0.35:
        return 'by ann add %s %s' % (rng.choice(['roads', 'roads', 'paths']), course(rng))
    if kind < 0.47:
        return 'by ann add %s %s' % (rng.choice(['wells', 'wells', 'pumps']), spot(rng))
    if kind < 0.61:
        return 'by ann change %d %s' % (handle, rng.choice([area, area, course, course, spot])(rng))
    if kind < 0.66:
        return 'by ann delete %d' % handle
    if kind < 0.76:
        return 'validate all'
    if kind < 0.90:
        return 'validate %d %d %d %d' % box(rng)
    if kind < 0.92:
        return 'droprule %d' % rng.randint(1, 6)
    if kind < 0.94:
        return 'rule ' + rng.choice(RULES)
    if kind < 0.96:
        return exception(rng, count)
    return rng.choice(['cells', 'cells', 'dirty', 'errors', 'features', 'rules'])


def exception(rng: random.Random, count: int) -> str:
    """A line that marks an error, or takes its mark away; mostly there is no such error."""
    subject, other = rng.randint(1, min(count, 4) + 1), rng.choice([0, 0, rng.randint(1, min(count, 4) + 1)])
    return '%s %d %d %d' % (rng.choice(['mark', 'mark', 'unmark']), rng.randint(1, 6), subject, other)


CLASSES = {'polygon': ('lots', 'zones'), 'line': ('roads', 'paths'), 'point': ('wells', 'pumps')}


def rules() -> Iterator[str]:
    """Each rule, over the classes most features are of, and the other way round."""
    for word, (first, second) in KINDS_OF.items():
        for turned in (False, True):
            names = [CLASSES[first][turned]]
            if second:
                names.append(CLASSES[second][(second == first) != turned])
            yield ' '.join([word] + names)


RULES = list(rules())
FIRST, SECOND = RULES[::2], RULES[1::2]
# The rules that a line fixes the errors of, by a snap, two points and parts
FIXABLE = ['line_must_not_have_dangles roads', 'polygon_contains_point lots wells', 'line_endpoint_must_be_covered_by roads wells',
           'line_must_be_single_part roads']


def ground(rng: random.Random, editors: Sequence[str]) -> Iterator[str]:
    """Lines that add features, which no undo takes back: every session ends behind them and begins anew."""
    for _ in range(rng.randint(8, 20)):
        name, shape = rng.choice([('roads', course), ('roads', course), ('roads', course), ('lots', area), ('wells', spot)])
        yield 'by %s add %s %s' % (rng.choice(editors), name, shape(rng))
    for name in editors:
        yield 'end ' + name
        yield 'begin ' + name


def script(seed: int, editors: Sequence[str], fixes: bool = False) -> str:
    rng = random.Random(seed)
    lines = ['class %s %s' % (name, kind) for kind, names in CLASSES.items() for name in names]
    lines += ['begin ' + name for name in editors]
    lines += ['rule ' + rule for rule in FIXABLE if fixes]
    lines += ['rule ' + rule for rule in rng.sample(FIRST, rng.randint(3, 9)) + rng.sample(SECOND, rng.randint(0, 3))]
    lines += ground(rng, editors) if fixes else []
    for n in range(rng.randint(15, 55 * min(2, len(editors)))):
        lines.append(line(rng, n, editors, fixes))
    return '\n'.join(lines + ['cells', 'dirty', 'validate all', 'cells', 'features']) + '\n'
