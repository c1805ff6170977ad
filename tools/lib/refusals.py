"""Why a line was refused, in words (docs/refusals.md)."""
from __future__ import annotations

import re
from typing import Callable, NamedTuple, Optional

from .forms import DEEDS, FORMS
from .replies import Answer, Ending, ReplyError, misfit_text, named_by
from .rules import KINDS_OF, nearest, of_kind
from .texts import KINDS, lists_of, misfit_of, sides_of, tokens_of
from .versions import DEFAULT

NUMBERS = {'H': 4294967295, 'SUBJECT': 4294967295, 'OTHER': 4294967295, 'END': 4294967295, 'R': 65535, 'S': 255}
FROM_NONE = 'OTHER', 'END', 'S'
# The fixes, by the number of fields before their first coordinate.
FIXES = {'explode': 4, 'snap': 6, 'create': 5, 'move': 3}
SIDES = 'CLASS', 'ORIGIN', 'DEST'
REACH = 4194304


class Refused(NamedTuple):
    """A refused line: its fields, its shape's text, the details behind the code, and what stood before it."""

    line: str
    words: list[str]
    details: list[str]
    before: Ending

    @property
    def shape(self) -> str:
        return behind(self.line, 4).strip(' \t')

    @property
    def deed(self) -> str:
        """What an editor's line does; nothing of another line."""
        return self.words[2] if self.words[0] == 'by' else ''

    @property
    def handle(self) -> str:
        """The handle of the feature that an editor's line names; the number of a rule stands before it in some."""
        return self.words[4 if self.deed in ('snap', 'create') else 3]


def behind(line: str, fields: int) -> str:
    """What stands behind so many fields of a line."""
    match = re.match(r'[ \t]*(?:[^ \t]+[ \t]+){%d}' % fields, line)
    return line[match.end():] if match else ''


# ---- the form

def name_fault(name: str) -> str:
    """Why this is no name; nothing where it is one."""
    wrong = re.search(r'[^A-Za-z0-9_]', name)
    if wrong:
        return '`%s` is no name, since no name has `%s`: a name has only the letters A to Z and a to z, digits and `_`' % (name, wrong[0])
    if not name[:1].isalpha():
        return '`%s` is no name: a name begins with a letter' % name
    return '`%s` is no name: a name has 32 letters at most, and this has %d' % (name, len(name)) if len(name) > 32 else ''


def number_fault(text: str, most: int, least: int) -> str:
    if not text.isascii() or not text.isdigit():
        return '`%s` is no number here: digits alone are' % text
    return '' if least <= int(text) <= most else 'the number %s is not from %d to %s' % (text, least, format(most, ','))


def side_fault(text: str) -> str:
    """Why this is neither a class nor one subtype of it."""
    name, colon, subtype = text.partition(':')
    return name_fault(name) or (number_fault(subtype, NUMBERS['S'], 0) if colon else '')


def integer_fault(text: str) -> str:
    return '' if re.fullmatch(r'-?[0-9]+', text) else '`%s` is no whole number: one is digits, with or without `-` before them' % text


def choice_fault(word: str, words: list[str], what: str) -> str:
    return '' if word in words else '`%s` is no %s%s' % (word, what, nearest(word, words) or ': ' + ', '.join(words))


def text_fault(text: str) -> str:
    """What is wrong with the grammar of a shape's text."""
    misfit = misfit_of(text)
    if misfit is None:
        return ''
    opened, closed = text.count('('), text.count(')')
    count = '; there are %d `(` and %d `)`' % (opened, closed) if opened != closed else ''
    if not misfit.token.text:
        return 'the text of the shape ends where %s is expected%s' % (misfit.wanted, count)
    return 'at byte %d of the text of the shape `%s` stands where %s is expected%s' % (len(text[:misfit.token.place].encode()),
                                                                                     misfit.token.text, misfit.wanted, count)


def piece_fault(piece: str, text: str) -> str:
    """Why a text is not this piece of a form."""
    if piece == 'KIND':
        return choice_fault(text, ['point', 'line', 'polygon'], 'kind')
    if piece == 'WORD':
        is_near = text in KINDS_OF or nearest(text, KINDS_OF)
        return choice_fault(text, list(KINDS_OF), 'word of a rule') if is_near else 'no rule has the word `%s`' % text
    if piece in NUMBERS:
        return number_fault(text, NUMBERS[piece], piece not in FROM_NONE)
    if piece[0] in 'XY':
        return integer_fault(text)
    if piece == 'WKT':
        return text_fault(text)
    if piece in SIDES:
        return side_fault(text)
    return name_fault(text) if piece.isupper() else '' if piece == text else '`%s` stands where `%s` is expected' % (text, piece)


def form_of(words: list[str]) -> str:
    """The form that a line may have been meant to have, by its first word, which is one."""
    if words[0] == 'by' and len(words) > 2:
        return DEEDS.get(words[2], FORMS['by'])
    if words[0] == 'rule' and len(words) > 1 and KINDS_OF.get(words[1], ('', None))[1]:
        return FORMS['rule'] + ' DEST'
    return 'validate all' if words[0] == 'validate' and len(words) < 3 else FORMS[words[0]]


def choosing_fault(words: list[str]) -> str:
    """What is wrong with the words that choose the form of a line; nothing where they choose one."""
    if words[0].startswith('\ufeff'):
        return 'a byte order mark stands before `%s`; save the script without one' % words[0][1:]
    if words[0] in DEEDS:
        return 'an editor is missing before `%s` (the form is `%s`)' % (words[0], DEEDS[words[0]])
    if words[0] not in FORMS:
        return 'no line begins with `%s`%s' % (words[0], nearest(words[0], FORMS))
    if words == ['validate']:
        return '`all` or a window is missing (the forms are `validate all` and `%s`)' % FORMS['validate']
    if words[0] == 'by' and len(words) > 2 and words[2] not in DEEDS:
        return name_fault(words[1]) or choice_fault(words[2], list(DEEDS), 'word after an editor')
    return ''


def form_fault(line: str, words: list[str]) -> str:
    """The first thing that keeps a line from having a form; nothing where it has one."""
    fault = choosing_fault(words)
    if fault:
        return fault
    form = form_of(words)
    pieces = form.split(' ')
    has_shape = pieces[-1] == 'WKT'
    fields = words[:4] + [behind(line, 4).strip(' \t')] if has_shape and len(words) > 4 else words
    fault = next(filter(None, (piece_fault(piece, field) for piece, field in zip(pieces, fields))), '')
    if not fault and len(fields) != len(pieces):
        fault = '%s is missing' % pieces[len(fields)] if len(fields) < len(pieces) else '`%s` is too much' % fields[len(pieces)]
    return fault and '%s (the form is `%s`)' % (fault, form)


# ---- each code

def token_at(of: Refused) -> str:
    """The token at the place that the refusal tells."""
    place = int(of.details[0])
    text = of.shape.encode()
    return next((token.text for token in tokens_of(text[place:].decode('utf-8', 'replace'))), '')


def no_form(of: Refused) -> str:
    return form_fault(of.line, of.words) or 'the line has its form, and what it asks for is not built'


def off_grid(of: Refused) -> str:
    return ('the coordinate `%s` has a fraction, and coordinates are whole numbers of grid units; tools/from-ogr puts data onto a grid'
            % token_at(of))


def beyond_reach(of: Refused) -> str:
    first = FIXES.get(of.deed, 1 if of.words[0] == 'validate' else 0)
    number = of.words[first + int(of.details[0])] if first else token_at(of)
    return '`%s` is beyond the reach, which goes from -4,194,304 to 4,194,304' % number


def not_supported(of: Refused) -> str:
    token = token_at(of)
    if of.details[0] == '0':
        return '`%s` is no shape here; there are %s' % (token, ', '.join(KINDS))
    return '`%s` at byte %s of the text of the shape: a position has two coordinates, and a shape is not empty' % (token, of.details[0])


def not_closed(of: Refused) -> str:
    ring = lists_of(of.shape)[int(of.details[0])]
    return 'ring %s ends at (%s) and not at (%s), where it begins' % (of.details[0], ring[-1], ring[0])


def not_valid(of: Refused) -> str:
    word, *numbers = of.details
    if of.deed in FIXES:
        return not_valid_then(of, word, numbers)
    if word == 'few':
        return 'part or ring %s has too few vertices: a line has 2, a ring 3 that differ' % numbers[0]
    if word == 'many':
        return 'it has %s vertices, and a shape has 2,000 at most' % format(int(numbers[0]), ',')
    sides = sides_of(of.shape)
    told = ['%s from (%s) to (%s)' % (number, *sides[int(number)]) for number in numbers]
    return 'its segments %s and %s %s' % (*told, 'cross' if word == 'cross' else 'run along each other')


def not_valid_then(of: Refused, word: str, numbers: list[str]) -> str:
    """What would be wrong with the shape of a feature that a fix moves."""
    whose = 'a shape that has the vertex' if of.deed == 'move' else 'the line'
    if word == 'few':
        return '%s would have too few vertices in its part or ring %s' % (whose, numbers[0])
    if word == 'many':
        return '%s would have %s vertices, and a shape has 2,000 at most' % (whose, format(int(numbers[0]), ','))
    return 'the segments %s and %s of %s would %s' % (*numbers, whose, 'cross' if word == 'cross' else 'run along each other')


def holder_text(of: Refused) -> str:
    what = 'a feature that has the vertex' if of.deed == 'move' else 'the feature %s' % of.handle
    return '%s is held by %s' % (what, ' '.join(of.details))


def nothing_to_fix(of: Refused) -> str:
    """What a fix asks for that is not so."""
    return {'explode': lambda: 'feature %s is no line of two or more parts' % of.handle,
            'snap': lambda: 'by rule %s end %s of feature %s is no dangle, or no other line of its class holds (%s %s)' % (of.words[3], of.words[5], of.handle, *of.words[6:8]),
            'create': lambda: 'rule %s asks for no point of feature %s at (%s %s)' % (of.words[3], of.handle, *of.words[5:7]),
            'move': lambda: 'no feature has a vertex at (%s %s), or it is to go where it is' % tuple(of.words[3:5])}[of.deed]()


def no_class(of: Refused) -> str:
    named = [named_by(side)[0] for side in (of.words[2:4] if of.words[0] == 'rule' else of.words[3:4])]
    gone = next((name for name in named if name not in of.before.classes), named[0])
    return 'there is no class `%s`%s' % (gone, nearest(gone, of.before.classes))


def kind_in(of: Refused, name: str) -> str:
    """The kind of a class in the plural; the script does not tell it of a class of the project that it began with."""
    return of.before.classes[name] + 's' if name in of.before.classes else 'another kind'


def unfit_rule(of: Refused) -> str:
    kinds, named = KINDS_OF[of.words[1]], [named_by(side)[0] for side in of.words[2:4]]
    if len(set(named)) < len(named):
        return 'the rule takes two different classes, or two different subtypes of one'
    wanted = next((pair for pair in zip(named, kinds) if of.before.classes.get(pair[0]) != pair[1]), (named[0], kinds[0]))
    kind = of.before.classes.get(wanted[0])
    hint = of_kind(of.words[1], kind) if kind and wanted[0] == named[0] and kind != kinds[0] else ''
    return 'the rule takes a class of %ss, and `%s` is of %s%s' % (wanted[1], wanted[0], kind_in(of, wanted[0]), hint)


def unfit_shape(of: Refused) -> str:
    kind = KINDS.get(of.shape.split('(')[0].strip(' \t').upper(), 'shape')
    origin = of.before.origins.get(int(of.words[3])) if of.words[2] == 'change' else None
    if of.words[2] == 'change' and origin is None:
        return 'the shape is a %s, and feature %s is of another kind' % (kind, of.words[3])
    name = origin.of_class if origin else named_by(of.words[3])[0]
    return 'the shape is a %s, and the class `%s` is of %s' % (kind, name, kind_in(of, name))


def no_version(of: Refused) -> str:
    name, others = of.words[1], [each for each in of.before.versions.by_name if each != DEFAULT or of.words[0] == 'in']
    if name == DEFAULT:
        return '`default` itself is not reconciled and not posted: the other versions are'
    return 'there is no version `%s`%s' % (name, nearest(name, others))


def open_in(before: Ending) -> str:
    """The editors whose sessions are open, as far as the script tells."""
    return ', of ' + ', '.join('`%s`' % name for name in before.sessions) if before.sessions else ''


SENTENCES: dict[str, Callable[[Refused], str]] = {
    'E01': no_form,
    'E02': lambda of: 'the line has more than 1,048,576 bytes',
    'E03': lambda of: 'there is a class `%s` already' % of.words[1],
    'E04': lambda of: 'there are 64 classes, and no more can be',
    'E05': no_class,
    'E06': unfit_rule,
    'E07': lambda of: 'this rule is in force for these classes already',
    'E08': lambda of: '256 rules are in force, and no more can be',
    'E09': lambda of: 'no rule in force has the number %s' % of.words[3 if of.deed else 1],
    'E10': lambda of: 'the session of `%s` is open already' % of.words[1],
    'E11': lambda of: '16 sessions are open, and no more can be',
    'E12': lambda of: 'no session of `%s` is open; a line `begin %s` opens it' % (of.words[1], of.words[1]),
    'E13': unfit_shape,
    'E14': off_grid,
    'E15': beyond_reach,
    'E16': not_supported,
    'E17': not_closed,
    'E18': not_valid,
    'E19': lambda of: 'there is no feature %s' % of.handle,
    'E20': holder_text,
    'E21': lambda of: 'all handles are used up',
    'E22': lambda of: 'the session has nothing to undo',
    'E23': lambda of: 'the session has nothing to redo',
    'E24': lambda of: 'the window is reversed: its lower left corner comes first',
    'E25': lambda of: 'no error is listed of rule %s with subject %s and partner %s; `errors` lists them all' % tuple(of.words[1:4]),
    'E26': lambda of: 'the error is an exception already' if of.words[0] == 'mark' else 'the error is no exception',
    'E27': lambda of: 'there is a version `%s` already' % of.words[1],
    'E28': lambda of: '8 versions stand beside `default`, and no more can be',
    'E29': no_version,
    'E30': lambda of: 'a session is open%s, and the line wants that none is: `end` or `discard` it first' % open_in(of.before),
    'E31': lambda of: '`default` has feature %s otherwise than `%s` took it over: a line `reconcile %s` first' % (of.details[0], of.words[1], of.words[1]),
    'E32': lambda of: 'versions stand beside `default`, and while they do classes and rules stay as they are',
    'E34': nothing_to_fix,
}


def sentence_of(answer: Answer, before: Ending) -> Optional[str]:
    """Why a line was refused, by what stood before it; none where it was not, or where the code is not known here. A ReplyError where the
    refusal tells of a place that the line does not have."""
    word, *told = answer.reply[-1].split()
    if word != 'refused' or not told or told[0] not in SENTENCES:
        return None
    code, *details = told
    try:
        return SENTENCES[code](Refused(answer.line, re.split('[ \t]+', answer.line.strip(' \t')), details, before))
    except IndexError:
        raise ReplyError(misfit_text(answer)) from None
