"""The forms of a script's lines, and which replies a line of each can have (docs/script.md, docs/refusals.md)."""
from __future__ import annotations

import re
from typing import NamedTuple

from .rules import KINDS_OF
from .texts import KINDS

FORMS = {'class': 'class NAME KIND', 'rule': 'rule WORD ORIGIN', 'droprule': 'droprule R', 'begin': 'begin EDITOR',
         'end': 'end EDITOR', 'discard': 'discard EDITOR', 'by': 'by EDITOR add CLASS WKT', 'validate': 'validate X0 Y0 X1 Y1',
         'dirty': 'dirty', 'errors': 'errors', 'cells': 'cells', 'features': 'features', 'rules': 'rules',
         'mark': 'mark R SUBJECT OTHER', 'unmark': 'unmark R SUBJECT OTHER', 'corners': 'corners R SUBJECT OTHER',
         'version': 'version NAME', 'in': 'in NAME', 'reconcile': 'reconcile NAME', 'post': 'post NAME'}
DEEDS = {'add': 'by EDITOR add CLASS WKT', 'change': 'by EDITOR change H WKT', 'delete': 'by EDITOR delete H',
         'retype': 'by EDITOR retype H S', 'undo': 'by EDITOR undo', 'redo': 'by EDITOR redo', 'explode': 'by EDITOR explode H',
         'snap': 'by EDITOR snap R H END X Y', 'create': 'by EDITOR create R H X Y', 'move': 'by EDITOR move X Y X2 Y2'}

# The codes of refusals by the word of the line, beside E01 and E02, which any line can have; and what stands behind a code.
OF_SHAPES = 'E14 E15 E16 E17 E18 '
CODES = {'class': 'E32 E03 E04', 'rule': 'E32 E05 E06 E07 E08', 'droprule': 'E32 E09', 'begin': 'E10 E11', 'end': 'E12', 'discard': 'E12',
         'add': OF_SHAPES + 'E12 E05 E13 E21', 'change': OF_SHAPES + 'E12 E19 E20 E13', 'delete': 'E12 E19 E20', 'retype': 'E12 E19 E20',
         'undo': 'E12 E22', 'redo': 'E12 E23', 'explode': 'E12 E19 E20 E34 E21', 'snap': 'E15 E12 E09 E19 E20 E34 E18',
         'create': 'E15 E12 E09 E19 E34 E21', 'move': 'E15 E12 E34 E20 E18', 'validate': 'E15 E24',
         'mark': 'E25 E26', 'unmark': 'E25 E26', 'corners': 'E25', 'version': 'E30 E27 E28', 'in': 'E30 E29', 'reconcile': 'E30 E29',
         'post': 'E30 E29 E31'}
DETAILS = {'E14': 'N', 'E15': 'N', 'E16': 'N', 'E17': 'N', 'E18': '(?:few N|many N|cross N N|along N N)', 'E20': 'NAME', 'E31': 'N'}

# The replies by the word of the line: where it has none here, `ok`. The lines of a listing, without its total.
DONE = {'class': 'ok N', 'rule': 'ok N', 'add': 'ok N', 'validate': 'ok judged N errors N dirty N', 'explode': 'ok parts N', 'create': 'ok N',
        'move': 'ok moved N', 'reconcile': 'ok taken N conflicts N', 'post': 'ok posted N'}
ERROR = '(?:error|exception) N N N (?:cells|whole) I I I I'
LISTED = {'dirty': 'dirty I I I I', 'errors': ERROR, 'cells': ERROR + '|cell HALF(?:, HALF)*', 'features': 'feature N CLASS SHAPE .+',
          'rules': 'rule N WORD ORIGIN(?: DEST)?', 'corners': 'corner N FRACTION FRACTION'}

NUMBER, INTEGER, NAME = '[0-9]+', '-?[0-9]+', '[A-Za-z][A-Za-z0-9_]*'
SUBTYPE = '0*(?:25[0-5]|2[0-4][0-9]|1[0-9][0-9]|[0-9][0-9]?)'
SIDE = '%s(?::%s)?' % (NAME, SUBTYPE)
PIECES = {'N': NUMBER, 'R': NUMBER, 'H': NUMBER, 'END': NUMBER, 'SUBJECT': NUMBER, 'OTHER': NUMBER, 'S': SUBTYPE, 'CLASS': SIDE, 'ORIGIN': SIDE, 'DEST': SIDE,
          'I': INTEGER, 'X': INTEGER, 'Y': INTEGER, 'X0': INTEGER, 'Y0': INTEGER, 'X1': INTEGER, 'Y1': INTEGER, 'X2': INTEGER, 'Y2': INTEGER,
          'KIND': '(?:point|line|polygon)', 'WORD': '(?:%s)' % '|'.join(KINDS_OF), 'WKT': '.+', 'SHAPE': '(?:%s)' % '|'.join(KINDS),
          'HALF': ' '.join([INTEGER] * 3) + ' (?:>=|>|=)', 'FRACTION': INTEGER + '(?:/[0-9]+)?'}

CONFLICT = re.compile('conflict [0-9]+')


class Fit(NamedTuple):
    """What fits a word: the lines that have a form with it, the reply to one that is done, its refusals, the lines of its listing."""

    line: re.Pattern[str]
    done: re.Pattern[str]
    refused: re.Pattern[str]
    listed: re.Pattern[str]


def piece(word: re.Match[str]) -> str:
    return PIECES.get(word[0], NAME)


def pattern(form: str) -> re.Pattern[str]:
    """The texts of a form, in which each word in capitals stands for its piece: for a name, where PIECES has none."""
    return re.compile(re.sub(r'\b[A-Z]+[012]?\b', piece, form))


def fit_of(word: str) -> Fit:
    forms = {**FORMS, **DEEDS, 'rule': FORMS['rule'] + '(?: DEST)?', 'validate': 'validate all|' + FORMS['validate']}
    codes = ['%s %s' % (code, DETAILS[code]) if code in DETAILS else code for code in CODES.get(word, '').split()]
    line = '[ \t]*(?:%s)[ \t]*' % forms[word].replace(' ', '[ \t]+')
    return Fit(pattern(line), pattern(DONE.get(word, 'ok')), pattern('refused (?:%s)' % '|'.join(codes)), pattern(LISTED.get(word, '')))


HALF = pattern(PIECES['HALF'])
# So many lines of cells are looked at together.
PIECE = 1000
FITS = {word: fit_of(word) for word in [*FORMS, *DEEDS] if word != 'by'}


def are_cells(lines: list[str]) -> bool:
    """Whether the lines of cells have nothing but half-planes, of which cells beside one another have most in common."""
    pieces = (lines[at:at + PIECE] for at in range(0, len(lines), PIECE))
    return all(map(HALF.fullmatch, {half for piece in pieces for half in set(', '.join(line[5:] for line in piece).split(', '))}))


def is_listing(fit: Fit, reply: list[str]) -> bool:
    """Whether the reply is a listing, its total last, of lines that all fit."""
    lines = reply[:-1]
    heads = [line for line in lines if not line.startswith('cell ')]
    if reply[-1] != 'total %d' % len(heads) or reply[0].startswith('cell ') or not all(map(fit.listed.fullmatch, heads)):
        return False
    cells = [line for line in lines if line.startswith('cell ')] if len(heads) < len(lines) else []
    return not cells or bool(fit.listed.fullmatch(cells[0])) and are_cells(cells)


def is_merge(reply: list[str]) -> bool:
    """Whether the reply names conflicts, by ascending handles, and then counts them."""
    handles = conflicts_in(reply)
    return len(handles) == len(reply) - 1 == int(reply[-1].split()[-1]) and all(a < b for a, b in zip(handles, handles[1:]))


def conflicts_in(reply: list[str]) -> list[int]:
    """The handles of the conflicts that a reply names."""
    return [int(line.split()[1]) for line in reply[:-1] if CONFLICT.fullmatch(line)]


def can_answer(line: str, reply: list[str]) -> bool:
    """Whether a line can have this reply, which is whole."""
    if reply in (['refused E01'], ['refused E02']):
        return True
    words = line.split(None, 3)
    fit = FITS.get(''.join(words[2:3] if words[:1] == ['by'] else words[:1]))
    if fit is None or not fit.line.fullmatch(line):
        return False
    if len(reply) == 1 and fit.refused.fullmatch(reply[0]):
        return True
    if fit.listed.pattern:
        return is_listing(fit, reply)
    if not fit.done.fullmatch(reply[-1]):
        return False
    return is_merge(reply) if fit is FITS['reconcile'] else len(reply) == 1
