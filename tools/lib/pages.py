"""A scene as one self-contained page: pan, zoom, a list of errors by rule that leads to each place, gaps as areas, dirt shown or hidden."""
from __future__ import annotations

import json
import os
import re
from base64 import b64encode
from fractions import Fraction
from html import escape
from operator import sub
from typing import Iterable, Iterator, NamedTuple, Optional

from .gaps import Gap
from .grid import Grid
from .mapping import GREY, OF_CLASS, OF_RULE, colour, rule_text
from .outlines import Number, Point
from .replies import Frame
from .rules import title_of
from .scenes import Drawn, Marked, Scene, ShownFix, box_of
from .spans import Segment

TEMPLATE = os.path.join(os.path.dirname(os.path.abspath(__file__)), 'page.html')
DIGITS = 3
QUIET = '#7d8794'
OF_FIX = ['#1b7f3b', '#0f6f7f', '#5f7f0f', '#2f9f6f', '#7f5f1b']
UNIT = Grid(Fraction(1), Fraction(0), Fraction(0))
NO_TITLE = re.compile('[\x00-\x1f\x7f-\x9f\ud800-\udfff\ufffe\uffff]')
MOST_BESIDE = 4


class Group(NamedTuple):
    """What is ticked as one: the errors of a rule, its gaps, or its perimeter; with the number and the word of the rule."""

    title: str
    word: str
    sides: str
    colour: str
    kind: str


def rounded(number: Number) -> float:
    """A coordinate for the screen, to a thousandth of a unit; whole where it can be."""
    near = round(float(number), DIGITS)
    return int(near) if near == int(near) else near


def flat(points: Iterable[Point]) -> list[float]:
    return [rounded(number) for point in points for number in point]


# ---- features as few bytes

def bytes_of(number: int) -> bytes:
    """A whole number as bytes of seven bits each, the lowest first; its sign is the lowest bit of all."""
    rest = number * 2 if number >= 0 else -number * 2 - 1
    if 1 << 14 <= rest < 1 << 21:
        return bytes((rest & 127 | 128, rest >> 7 & 127 | 128, rest >> 14))
    out = bytearray()
    while rest > 127:
        out.append(rest & 127 | 128)
        rest >>= 7
    out.append(rest)
    return bytes(out)


class Known(dict[int, bytes]):
    """The bytes of numbers that are near 0, and of others when they are asked for."""

    def __missing__(self, number: int) -> bytes:
        return bytes_of(number)


NEAR = 1 << 14
BYTES = Known((number, bytes_of(number)) for number in range(-NEAR, NEAR))


def bytes_of_all(numbers: Iterable[int]) -> bytes:
    return b''.join(map(BYTES.__getitem__, numbers))


def packed(features: list[Drawn], names: list[str]) -> tuple[str, Optional[Frame]]:
    """The features in base64: of each the class, the number of its lists, and of each list the number of its places and the way from place to
    place; and the least rectangle that holds them all."""
    out: list[bytes] = []
    last = [0, 0]
    xs: list[int] = []
    ys: list[int] = []
    index = {name: number for number, name in enumerate(names)}
    for feature in features:
        lists = feature.numbers
        told = [index[feature.of_class], len(lists)]
        for numbers in lists:
            if feature.kind == 'polygon':
                del numbers[-2:]
            told.append(len(numbers) // 2)
            told += map(sub, numbers, last + numbers)
            last = numbers[-2:]
            across, up = numbers[::2], numbers[1::2]
            xs += min(across), max(across)
            ys += min(up), max(up)
        out.append(bytes_of_all(told))
    return b64encode(b''.join(out)).decode(), (min(xs), min(ys), max(xs), max(ys)) if xs else None


def runs_of(numbers: Iterable[int]) -> list[int]:
    """Numbers in ascending order as runs: the first of each, and how many follow one another from there."""
    out: list[int] = []
    for number in numbers:
        if out and number == out[-2] + out[-1]:
            out[-1] += 1
        else:
            out += [number, 1]
    return out


# ---- errors and gaps

class Pages:
    """Makes the data of a page."""

    def __init__(self, scene: Scene):
        self.scene = scene
        self.grid = scene.ending.grid or UNIT
        self.grounds = scene.grounds()
        self.rules = sorted({marked.error.rule for marked in scene.errors} | set(scene.ending.rules))
        self.groups = [self.group(rule, '', colour(self.rules, rule, OF_RULE), 'rule') for rule in self.rules]
        self.number: dict[tuple[int, str], int] = {(rule, 'rule'): at for at, rule in enumerate(self.rules)}
        for rule in self.grounds:
            for kind, of in (('gap', colour(self.rules, rule, OF_RULE)), ('perimeter', QUIET)):
                self.number[rule, kind] = len(self.groups)
                self.groups.append(self.group(rule, {'gap': 'Gaps', 'perimeter': 'Outer Perimeter'}[kind], of, kind))

        self.hows = sorted({fix.how for fix in scene.fixes})
        for how in self.hows:
            self.groups.append(Group('Fixes: ' + how, '', 'tried by tools/fixes', colour(self.hows, how, OF_FIX), 'fix'))

    def group(self, rule: int, title: str, of: str, kind: str) -> Group:
        known = self.scene.ending.rules.get(rule)
        sides = ', '.join(side for side in known[1:] if side) if known else ''
        return Group(title or (title_of(known.word) if known else 'Rule %d' % rule), rule_text(self.scene, rule), sides, of, kind)

    def size(self, area: Fraction, length: float) -> list:
        """The size in units of the source, and its dimension: an area where there is one, else a length, else nothing."""
        unit = self.grid.resolution
        return [float('%.6g' % float(area * unit * unit)), 2] if area else [float('%.6g' % (length * float(unit))), 1] if length else [0, 0]

    def is_outer(self, marked: Marked, segment: Segment) -> bool:
        ground = self.grounds.get(marked.error.rule)
        return ground is not None and segment in ground.outer

    def error(self, marked: Marked) -> list:
        """An error: its group, its frame, whether it is an exception, subject and other, its size, its areas, its segments, those of them
        that are drawn quietly, and its points."""
        error, cover = marked.error, marked.cover
        quiet = [segment for segment in cover.lines if self.is_outer(marked, segment)]
        loud = [segment for segment in cover.lines if not self.is_outer(marked, segment)] if quiet else cover.lines
        kind = 'perimeter' if quiet and not loud else 'rule'
        return [self.number[error.rule, kind], error.frame, int(error.mark != 'error'), error.subject, error.other,
                self.size(cover.area, cover.length) if error.cells else [0, 0], [flat(ring) for ring in marked.rings], list(map(flat, loud)), list(map(flat, quiet)),
                flat(cover.points)]

    def gap(self, rule: int, gap: Gap) -> list:
        """A gap as an error, with the names of features beside it in place of subject and other."""
        xs, ys = zip(*gap.outline.shell)
        handles = sorted(gap.beside)
        beside = [self.scene.name_of(handle) for handle in handles[:MOST_BESIDE]] + ['..'] * (len(handles) > MOST_BESIDE)
        return [self.number[rule, 'gap'], [*map(rounded, (min(xs), min(ys), max(xs), max(ys)))], 0, 'beside ' + ', '.join(beside), 0,
                self.size(gap.area, 0), [flat(ring) for ring in [gap.outline.shell] + gap.outline.holes], [], [], []]

    def fix(self, fix: ShownFix) -> list:
        """A fix as an error, with its lines and what it leaves in place of subject and other; its size is how far a vertex goes."""
        at = len(self.groups) - len(self.hows) + self.hows.index(fix.how)
        return [at, list(fix.frame), 0, '[%d] %s: %s' % (fix.number, fix.lines, fix.leaves), 0, [fix.distance, 1] if fix.distance else [0, 0], [],
                [way for way in fix.ways if len(way) == 4], [], [number for way in fix.ways if len(way) == 2 for number in way]]

    def items(self) -> Iterator[list]:
        """All errors in their order, behind them the gaps, and then the fixes."""
        yield from map(self.error, self.scene.errors)
        for rule, ground in self.grounds.items():
            yield from (self.gap(rule, gap) for gap in ground.gaps)
        yield from map(self.fix, self.scene.fixes)

    def data(self) -> dict:
        """All that the page draws."""
        scene, classes = self.scene, self.scene.ending.classes
        names = list(classes)
        features, frame = packed(scene.features, names)
        return {'classes': [{'name': name, 'kind': kind, 'colour': colour(names, name, OF_CLASS)} for name, kind in classes.items()],
                'groups': [group._asdict() for group in self.groups], 'grey': GREY,
                'handles': runs_of(feature.handle for feature in scene.features),
                'names': [scene.name_of(feature.handle) for feature in scene.features],
                'features': features, 'items': list(self.items()), 'errors': len(scene.errors), 'dirt': scene.dirt,
                'box': box_of(scene, [frame] if frame else []), 'grid': [float(self.grid.resolution), float(self.grid.x), float(self.grid.y)],
                'unit': 'm' if 'UNIT["met' in self.grid.crs else 'units', 'refused': scene.ending.refused, 'digits': max(0, len(str(self.grid.resolution.denominator)) - 1)}


def html_of(scene: Scene, title: str) -> Iterator[str]:
    """The page, in pieces; `<` in its data is written so that no text of theirs can end them."""
    with open(TEMPLATE, encoding='utf-8') as template:
        text = template.read()
    head, tail = text.replace('TITLE', escape(NO_TITLE.sub('\ufffd', title))).rsplit('DATA', 1)
    data = Pages(scene).data()
    scene.features.clear()
    yield head
    for number, (name, value) in enumerate(data.items()):
        told = json.dumps(value, ensure_ascii=False, separators=(',', ':')).replace('<', '\\u003c')
        yield from ('{"' if number == 0 else ',"', name, '":', told)
    yield '}' + tail
