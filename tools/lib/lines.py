"""Lines of scripts, as all tools write them: a part that would begin another line is refused, a number is one, a name is checked or quoted."""
from __future__ import annotations

import json
import re
from typing import BinaryIO, Iterable

EDITOR = 'import'
# A name as it stands in a remark, in quotation marks.
QUOTED = json.JSONEncoder(ensure_ascii=False).encode
MOST_BYTES = 268435456
MOST_SUBTYPE = 255
LISTINGS = ['validate all', 'cells', 'dirty']
BREAKS = re.compile('[\n\r]')
# What no name may have where it is not quoted: characters that control a terminal or that some readers take for the end of a line.
CONTROLS = re.compile('[\x00-\x1f\x7f-\x9f\u2028\u2029\ud800-\udfff]')
NUMBER = re.compile('0|-?[1-9][0-9]{0,18}')
NAME = re.compile('[A-Za-z][A-Za-z0-9_]{0,31}')


class LineError(Exception):
    """A part of a line that is none; its text says why."""


class TooLong(LineError):
    """More bytes than a script may have."""


def number_of(text: str) -> int:
    """The whole number that a text says; a LineError where it says none."""
    if not NUMBER.fullmatch(text):
        raise LineError('%s is no whole number' % json.dumps(text[:60]))
    return int(text)


def name_of(text: str) -> str:
    """A name of a class, as a line may have it; a LineError where it is none."""
    if not NAME.fullmatch(text):
        raise LineError('%s is no name' % json.dumps(text[:60]))
    return text


def side_of(text: str) -> tuple[str, int]:
    """The class and the subtype of `NAME` or `NAME:S`; a LineError where the text is neither."""
    name, colon, subtype = text.partition(':')
    number = number_of(subtype) if colon else 0
    if not 0 <= number <= MOST_SUBTYPE:
        raise LineError('%s is no subtype: it is a number from 0 to %d' % (json.dumps(subtype[:60]), MOST_SUBTYPE))
    return name_of(name), number


def side_text(name: str, subtype: int) -> str:
    """A class with a subtype, which is not written where it is 0."""
    return '%s:%d' % (name, subtype) if subtype else name


def told(name: str) -> str:
    """A name of a source as a remark has it: as it is, or in quotes where it would be taken for something else."""
    return json.dumps(name) if CONTROLS.search(name) or name.startswith('"') or name != name.strip() or not name else name


def feature_remark(fid: int, id: str) -> str:
    """The remark line above a feature's own, by which its number and its id in the source are found again."""
    return '# fid %d id %s' % (fid, QUOTED(id)) if id else '# fid %d' % fid


def add_line(of_class: str, shape: str) -> str:
    return 'by %s add %s %s' % (EDITOR, of_class, shape)


class ScriptWriter:
    """Writes lines of a script, up to the most bytes that a run takes."""

    def __init__(self, out: BinaryIO, most: int = MOST_BYTES) -> None:
        self.out, self.most, self.bytes = out, most, 0

    def write(self, *lines: str) -> None:
        self.write_all(lines)

    def write_all(self, lines: Iterable[str]) -> None:
        """Writes lines. A LineError where one is more than one, or is no text, or where they are too many bytes."""
        lines = list(lines)
        text = '\n'.join((*lines, ''))
        if text.count('\n') != len(lines) or '\r' in text:
            raise LineError('%s is more than one line' % json.dumps(next(filter(BREAKS.search, lines))[:60]))
        try:
            data = text.encode()
        except UnicodeEncodeError as fault:
            raise LineError('%s is no text' % json.dumps(fault.object[fault.start:fault.start + 60])) from None
        self.bytes += len(data)
        if self.bytes > self.most:
            raise TooLong('the script has more than %s bytes, the most of a run' % format(self.most, ','))
        self.out.write(data)
