"""The poster: all rules on one sheet, each with its name, its figure and its sentence."""
from __future__ import annotations

import re
import textwrap
from typing import Callable, Iterator, Mapping
from xml.sax.saxutils import escape

COLUMNS, WIDTH, FIGURE, CELL, GAP, EDGE = 6, 212, 136, 244, 18, 28
SHEET = EDGE * 2 + COLUMNS * WIDTH + (COLUMNS - 1) * GAP
NAME, LETTERS = 25, 37
INK, GREY, PALE = '#222222', '#666666', '#d8d8d8'
LEGEND = ('blue: features, each with its handle; red: where the rule is broken, a side that does not belong to it dashed; '
          'long dashes: the frame of a feature that breaks its rule as a whole')

Rule = Mapping[str, str]


def word(x: int, y: int, size: int, text: str, colour: str = INK, more: str = '') -> str:
    return '<text x="%d" y="%d" font-size="%d" fill="%s"%s>%s</text>' % (x, y, size, colour, more, escape(text))


def figure(drawn: str, x: int, y: int) -> Iterator[str]:
    """A figure that tools/draw has drawn, without its background and its scale, in the box of a cell."""
    lines = drawn.splitlines()
    found = re.match(r'<svg [^>]*viewBox="([^"]*)"', lines[0])
    if not found:
        raise ValueError('no figure of tools/draw')
    size = 'x="%d" y="%d" width="%d" height="%d" viewBox="%s"' % (x, y, WIDTH, FIGURE, found[1])
    yield '<svg %s>' % size
    yield from (line for line in lines[3:-1] if not re.match('<text .* fill="%s"' % GREY, line))
    yield '</svg>'


def cell(name: str, rule: Rule, drawn: str, x: int, y: int) -> Iterator[str]:
    second = rule['classes'].split(', ')[1]
    yield '<a href="%s.md">' % name
    yield '<rect x="%d" y="%d" width="%d" height="%d" fill="none" stroke="%s"/>' % (x, y, WIDTH, FIGURE, PALE)
    yield from figure(drawn, x, y)
    for k, part in enumerate(textwrap.wrap(rule['name'], NAME)):
        yield word(x, y + FIGURE + 18 + 14 * k, 13, part, more=' font-weight="bold"')
    y += FIGURE + 18 + 14 * len(textwrap.wrap(rule['name'], NAME))
    if second != 'none':
        yield word(x, y, 10, 'second class: %ss' % second, GREY)
        y += 14
    for k, part in enumerate(textwrap.wrap(rule['sentence'], LETTERS)):
        yield word(x, y + 13 * k, 11, part)
    yield '</a>'


def section(kind: str, rules: Mapping[str, Rule], figure_of: Callable[[str], str], y: int) -> tuple[list[str], int]:
    """The rules on classes of a kind, below their heading; and where the next section begins."""
    lines = [word(EDGE, y + 18, 18, 'Rules on %ss' % kind, more=' font-weight="bold"')]
    for number, (name, rule) in enumerate(rules.items()):
        row, column = divmod(number, COLUMNS)
        lines += cell(name, rule, figure_of(name), EDGE + column * (WIDTH + GAP), y + 32 + row * CELL)
    rows = -(-len(rules) // COLUMNS)
    return lines, y + 32 + rows * CELL + 10


def poster(rules: Mapping[str, Rule], figure_of: Callable[[str], str]) -> str:
    """The sheet as SVG. `figure_of` gives the drawing of a rule that is broken."""
    lines, y = [word(EDGE, 52, 30, 'The 27 rules of topo', more=' font-weight="bold"'), word(EDGE, 76, 12, LEGEND, GREY)], 96
    for kind in ('polygon', 'line', 'point'):
        some = {name: rule for name, rule in rules.items() if rule['classes'].split(', ')[0] == kind}
        more, y = section(kind, some, figure_of, y)
        lines += more
    head = '<svg xmlns="http://www.w3.org/2000/svg" width="%d" height="%d" viewBox="0 0 %d %d" font-family="sans-serif" font-size="11">'
    return '\n'.join([head % (SHEET, y, SHEET, y), '<rect width="100%" height="100%" fill="#ffffff"/>'] + lines + ['</svg>', ''])
