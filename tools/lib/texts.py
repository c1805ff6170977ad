"""Well-known text as topo reads it: its tokens, and the first that does not fit (docs/well-known-text.md)."""
from __future__ import annotations

import re
from typing import Callable, NamedTuple, Optional

DEPTHS = {'POINT': 1, 'LINESTRING': 1, 'MULTILINESTRING': 2, 'POLYGON': 2, 'MULTIPOLYGON': 3}
KINDS = {'POINT': 'point', 'LINESTRING': 'line', 'MULTILINESTRING': 'line', 'POLYGON': 'polygon', 'MULTIPOLYGON': 'polygon'}
NUMBER = re.compile(r'[+-]?(\d+\.?\d*|\.\d+)')


class Token(NamedTuple):
    place: int
    text: str


class Misfit(Exception):
    """The first token that does not fit, and what may stand there."""

    def __init__(self, token: Token, wanted: str) -> None:
        super().__init__(wanted)
        self.token = token
        self.wanted = wanted


def tokens_of(text: str) -> list[Token]:
    """The tokens, and an empty one behind them at the end of the text."""
    found = [Token(match.start(), match[0]) for match in re.finditer(r'[A-Za-z]+|[0-9.+-]+|[^ \t]', text)]
    return found + [Token(len(text), '')]


class Reader:
    """Reads a text by the grammar from the left, up to the first misfit."""

    def __init__(self, text: str) -> None:
        self.tokens = tokens_of(text)
        self.at = 0

    def take(self, wanted: str, fits: Callable[[str], object]) -> str:
        token = self.tokens[self.at]
        if not fits(token.text):
            raise Misfit(token, wanted)
        self.at += 1
        return token.text

    def position(self) -> None:
        for _ in range(2):
            self.take('a number', NUMBER.fullmatch)

    def brackets(self, depth: int, is_one: bool) -> None:
        """What stands between two brackets: one position, or a list of positions or of brackets."""
        self.take('`(`', '('.__eq__)
        between = ''
        while between != ')':
            if depth > 1:
                self.brackets(depth - 1, False)
            else:
                self.position()
            between = self.take('`)`', ')'.__eq__) if is_one else self.take('`,` or `)`', lambda text: text in (',', ')'))

    def text(self) -> None:
        word = self.take(', '.join(DEPTHS), lambda text: text.upper() in DEPTHS).upper()
        self.brackets(DEPTHS[word], word == 'POINT')
        self.take('the end', ''.__eq__)


def misfit_of(text: str) -> Optional[Misfit]:
    """The first token of a shape's text that does not fit its grammar; none where all fit."""
    try:
        Reader(text).text()
    except Misfit as misfit:
        return misfit
    return None


def lists_of(text: str) -> list[list[str]]:
    """The positions of a text whose tokens fit, list by list."""
    return [[' '.join(position.split()) for position in each.split(',')] for each in re.findall(r'[^()]*\d[^()]*', text)]


def sides_of(text: str) -> list[tuple[str, str]]:
    """The segments of a polygon's text as topo counts them, each as its two positions."""
    sides: list[tuple[str, str]] = []
    for positions in lists_of(text):
        kept = [p for i, p in enumerate(positions) if i == 0 or p != positions[i - 1]]
        while len(kept) > 1 and kept[-1] == kept[0]:
            kept.pop()
        sides += zip(kept, kept[1:] + kept[:1])
    return sides
