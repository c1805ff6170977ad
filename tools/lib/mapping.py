"""A scene as one SVG for looking at many features: colours by class and by rule, a legend, labels where they have room."""
from __future__ import annotations

import re
from colorsys import hls_to_rgb
from typing import Optional
from xml.sax.saxutils import escape

from .grid import Place
from .outlines import Point
from .replies import Frame, meet
from .scenes import Drawn, Marked, Scene, box_of

WIDTH, LEGEND, MARGIN, LEAST, ROOM = 1000, 370, 14, 7, 1500
OF_CLASS = ['#2f5f9e', '#3c7a4b', '#8a5a2b', '#5b4a9e', '#2a8a8a', '#7a6a2a', '#6b6b6b', '#9e4a7a']
OF_RULE = ['#c8102e', '#e07000', '#b000b0', '#d0006f', '#a03000', '#7000c0', '#c04060', '#905000']
GREY, YELLOW = '#666666', '#a87900'
LETTER, LINE = 6.2, 12
GOLDEN = 0.61803398875
NO_XML = re.compile('[\x00-\x08\x0b\x0c\x0e-\x1f\ud800-\udfff\ufffe\uffff]')

Box = tuple[float, float, float, float]


class Sheet:
    """The map's text, where a place stands on it, and which parts of it have a label already."""

    def __init__(self, window: Frame) -> None:
        self.window = window
        x0, y0, x1, y1 = window
        self.scale = WIDTH / max(x1 - x0, y1 - y0, 1)
        self.width, self.height = (x1 - x0) * self.scale + 2 * MARGIN, (y1 - y0) * self.scale + 2 * MARGIN
        self.lines: list[str] = []
        self.taken: dict[Place, list[Box]] = {}

    def at(self, point: Point) -> tuple[float, float]:
        return (float(point[0]) - self.window[0]) * self.scale + MARGIN, (self.window[3] - float(point[1])) * self.scale + MARGIN

    def data(self, lists: list, closed: bool) -> str:
        return ' '.join('M' + ' '.join('%.1f,%.1f' % self.at(p) for p in points) + ('Z' if closed else '') for points in lists)

    def put(self, text: str) -> None:
        self.lines.append(text)

    def has_room(self, box: Box) -> bool:
        """Whether no label stands in this part; it is taken then."""
        squares = [(x, y) for x in range(int(box[0]) // 64, int(box[2]) // 64 + 1) for y in range(int(box[1]) // 64, int(box[3]) // 64 + 1)]
        if any(meet(box, other) for square in squares for other in self.taken.get(square, ())):
            return False
        for square in squares:
            self.taken.setdefault(square, []).append(box)
        return True


def colour(names: list, name: object, palette: list[str]) -> str:
    """A colour of its own for each name: those of the palette, and then others round the circle of hues."""
    if name not in names:
        return GREY
    at = names.index(name)
    if at < len(palette):
        return palette[at]
    return '#%02x%02x%02x' % tuple(round(255 * part) for part in hls_to_rgb(at * GOLDEN % 1, 0.36 + 0.1 * (at % 3), 0.7))


def xml_text(text: str) -> str:
    """A text as XML has it; what no XML may have is replaced."""
    return escape(NO_XML.sub('\ufffd', text))


def put_feature(sheet: Sheet, feature: Drawn) -> None:
    if feature.kind == 'point':
        sheet.put('<circle cx="%.1f" cy="%.1f" r="2.5"/>' % sheet.at(feature.lists[0][0]))
    else:
        sheet.put('<path d="%s"/>' % sheet.data(feature.lists, feature.kind == 'polygon'))


def put_class(sheet: Sheet, name: str, kind: str, features: list[Drawn], of: str) -> None:
    fill = 'fill="%s" fill-opacity="0.14" fill-rule="evenodd" stroke="%s"' % (of, of) if kind == 'polygon' else \
        'fill="none" stroke="%s"' % of if kind == 'line' else 'fill="%s"' % of
    sheet.put('<g id="class-%s" stroke-width="%s" %s>' % (xml_text(name), '0.7' if kind == 'polygon' else '1.2', fill))
    for feature in features:
        put_feature(sheet, feature)
    sheet.put('</g>')


def put_label(sheet: Sheet, feature: Drawn, text: str) -> None:
    """A label in the middle of a polygon that is large enough for it, or beside a point or the middle vertex of a line."""
    wide = len(text) * LETTER
    x0, y1 = sheet.at(feature.frame[:2])
    x1, y0 = sheet.at(feature.frame[2:])
    if feature.kind == 'polygon':
        x, y = (x0 + x1 - wide) / 2, (y0 + y1 + LINE) / 2 - 2
        if wide > x1 - x0 - 4 or LINE > y1 - y0:
            return
    else:
        x, y = sheet.at(feature.lists[0][len(feature.lists[0]) // 2])
        x, y = x + 5, y - 3
    if sheet.has_room((x, y - LINE, x + wide, y)):
        sheet.put('<text x="%.1f" y="%.1f">%s</text>' % (x, y, xml_text(text)))


def put_error(sheet: Sheet, marked: Marked, of: str, ring: int) -> None:
    """The cells of an error; where they are too small to be seen, a ring round them."""
    if marked.cover.polygons:
        style = 'fill="%s" fill-opacity="0.5" fill-rule="evenodd" stroke="%s" stroke-width="0.8"' % (of, of)
        sheet.put('<path d="%s" %s/>' % (sheet.data(marked.rings, True), style))
    if marked.cover.lines:
        sheet.put('<path d="%s" fill="none" stroke="%s" stroke-width="2.4"/>' % (sheet.data(marked.cover.lines, False), of))
    x0, y1 = sheet.at(marked.error.frame[:2])
    x1, y0 = sheet.at(marked.error.frame[2:])
    if max(x1 - x0, y1 - y0) < ring:
        at = (x0 + x1) / 2, (y0 + y1) / 2
        sheet.put('<circle cx="%.1f" cy="%.1f" r="%d" fill="none" stroke="%s" stroke-width="1.4"/>' % (at + (ring, of)))


def put_dirt(sheet: Sheet, frame: Frame) -> None:
    x0, y0 = max(frame[0], sheet.window[0]), max(frame[1], sheet.window[1])
    x1, y1 = min(frame[2], sheet.window[2]), min(frame[3], sheet.window[3])
    corners = [(x0, y0), (x1, y0), (x1, y1), (x0, y1)]
    sheet.put('<path d="%s" fill="url(#dirt)" stroke="%s" stroke-width="1.2"/>' % (sheet.data([corners], True), YELLOW))


def put_legend(sheet: Sheet, entries: list[tuple[str, str]]) -> None:
    """The colours with what they stand for, and the corners of the window."""
    x, y = sheet.width + 10, MARGIN + 10
    for of, text in entries:
        sheet.put('<rect x="%.1f" y="%.1f" width="12" height="12" fill="%s" fill-opacity="0.7"/><text x="%.1f" y="%.1f">%s</text>' %
                  (x, y, of, x + 18, y + 10, xml_text(text)))
        y += 19
    for text in ('from %d %d' % sheet.window[:2], 'to %d %d' % sheet.window[2:]):
        sheet.put('<text x="%.1f" y="%.1f" fill="%s">%s</text>' % (x, y + 14, GREY, text))
        y += 16


def rule_text(scene: Scene, number: int) -> str:
    rule = scene.ending.rules.get(number)
    return '%d %s' % (number, rule.word) if rule else 'rule %d' % number


def legend_of(scene: Scene, features: list[Drawn], errors: list[Marked], dirt: list[Frame]) -> list[tuple[str, str]]:
    names, rules = list(scene.ending.classes), sorted(scene.ending.rules)
    entries = [(colour(names, name, OF_CLASS), '%s, %s' % (name, format(sum(f.of_class == name for f in features), ','))) for name in names]
    for rule in rules:
        count = sum(m.error.rule == rule and m.error.mark == 'error' for m in errors)
        entries.append((colour(rules, rule, OF_RULE), '%s, %s' % (rule_text(scene, rule), format(count, ','))))
    marked = sum(m.error.mark != 'error' for m in errors)
    more = (GREY, 'exceptions', marked), (YELLOW, 'dirty', len(dirt))
    return entries + [(of, '%s, %s' % (text, format(count, ','))) for of, text, count in more if count]


def svg_of(scene: Scene, window: Optional[Frame]) -> str:
    """The map of a window, or of all."""
    sheet = Sheet(window or box_of(scene))
    features = [each for each in scene.features if meet(each.frame, sheet.window)]
    errors = [each for each in scene.errors if meet(each.error.frame, sheet.window)]
    dirt = [each for each in scene.dirt if meet(each, sheet.window)]
    names, rules = list(scene.ending.classes), sorted(scene.ending.rules)
    sheet.put('<g clip-path="url(#window)">')
    for frame in dirt:
        put_dirt(sheet, frame)
    for name, kind in sorted(scene.ending.classes.items(), key=lambda of: ('polygon', 'line', 'point').index(of[1])):
        put_class(sheet, name, kind, [feature for feature in features if feature.of_class == name], colour(names, name, OF_CLASS))
    ring = LEAST if len(errors) < 200 else LEAST // 2
    for marked in errors:
        put_error(sheet, marked, colour(rules, marked.error.rule, OF_RULE) if marked.error.mark == 'error' else GREY, ring)
    sheet.put('<g font-size="10" fill="#333333">')
    is_roomy = sheet.width * sheet.height >= ROOM * len(features)
    for feature in features:
        if is_roomy or feature.kind == 'polygon':
            put_label(sheet, feature, scene.name_of(feature.handle))
    sheet.put('</g></g>')
    put_legend(sheet, legend_of(scene, features, errors, dirt))
    return page_of(sheet)


def page_of(sheet: Sheet) -> str:
    wide, high = sheet.width + LEGEND, max(sheet.height, 220)
    size = 'width="%.0f" height="%.0f" viewBox="0 0 %.0f %.0f"' % (wide, high, wide, high)
    head = ['<svg xmlns="http://www.w3.org/2000/svg" %s font-family="sans-serif" font-size="11">' % size,
            '<defs><pattern id="dirt" width="6" height="6" patternUnits="userSpaceOnUse">',
            '<path d="M0 6 L6 0" stroke="%s" stroke-opacity="0.6"/></pattern>' % YELLOW,
            '<clipPath id="window"><rect width="%.0f" height="%.0f"/></clipPath></defs>' % (sheet.width, sheet.height),
            '<rect width="100%" height="100%" fill="#ffffff"/>']
    return '\n'.join(head + sheet.lines + ['</svg>', ''])
