"""A script with its replies, line by line, and what stands at its end: classes, rules, sources of features, errors, dirt."""
from __future__ import annotations

import json
import re
from dataclasses import dataclass, field
from functools import lru_cache
from itertools import chain
from sys import intern
from typing import IO, Iterable, Iterator, MutableMapping, NamedTuple, Optional, Sequence, Union

from .forms import SUBTYPE, can_answer
from .grid import Grid, grid_of
from .outlines import Point
from .texts import KINDS
from .versions import DEFAULT, Versions

MOST_BYTES = 1048576
LISTINGS = ('errors', 'cells', 'dirty', 'features', 'rules', 'corners')
ENDS = ('ok', 'refused', 'total ')
SESSION_LINES = ('begin', 'end', 'discard')
FIX_LINES = ('explode', 'snap', 'create', 'move')
VERSION_LINES = ('version', 'in', 'reconcile', 'post')
SOURCE = re.compile(r'# fid (\S+)(?: id ("(?:[^"\\]|\\["\\/bfnrt]|\\u[0-9a-fA-F]{4})*"))?')
ROLE = re.compile('# (subject|neighbour) ([0-9]+)')
OF_FEATURE = ('# fid ', '# subject ', '# neighbour ', '# part ')
PART = re.compile('# (part [0-9]+ of [0-9]+(?: along [-0-9 ,]+)?)')

Half = tuple[int, int, int, str]
Frame = tuple[int, int, int, int]


class ReplyError(Exception):
    """Replies that are not those of the script; its text says where."""


# A line that adds a feature, as nearly all lines of a long script do, with its class, and its reply.
ADDED = re.compile(rb'by [A-Za-z][A-Za-z0-9_]* add ([A-Za-z][A-Za-z0-9_]*(?::%s)?) [A-Z].*\n' % SUBTYPE.encode())
DONE = re.compile(rb'ok ([0-9]+)\n')


class Answer(NamedTuple):
    """A line of a script, by its number from 1, with its reply; a skipped line has none."""

    number: int
    line: str
    reply: list[str]


class Cells(Sequence[list[Half]]):
    """Cells by their texts: there may be very many, so each is read when it is asked for."""

    def __init__(self, texts: list[str]) -> None:
        self.texts = texts

    def __len__(self) -> int:
        return len(self.texts)

    def __getitem__(self, at: int) -> list[Half]:  # type: ignore[override]  # nobody asks for a slice
        return [half_of(half) for half in self.texts[at].split(', ')]

    def __eq__(self, other: object) -> bool:
        if not isinstance(other, Sequence):
            return NotImplemented
        return list(self) == list(other)

    def split(self) -> Iterator[list[str]]:
        """Each cell as the texts of its half-planes."""
        return (text.split(', ') for text in self.texts)


class Error(NamedTuple):
    """An error as a listing tells it, with its cells, where the listing has them; and the corners of each where the program was asked for them, of
    a polygon counter-clockwise."""

    mark: str
    rule: int
    subject: int
    other: int
    extent: str
    frame: Frame
    cells: Sequence[list[Half]]
    closures: Optional[list[list[Point]]] = None


class Rule(NamedTuple):
    """The word of a rule and its sides, each as it was written: a class, or one subtype of it."""

    word: str
    origin: str
    dest: str

    @property
    def classes(self) -> set[str]:
        return {named_by(side)[0] for side in (self.origin, self.dest) if side}


class Origin(NamedTuple):
    """Where a feature comes from: its class, its number and its id in the source; in a tile also its handle in the whole, and
    whether it is a subject of the tile. Its subtype is that of its last line. Of a feature that was cut it says which part this is."""

    of_class: str
    fid: str = ''
    id: str = ''
    handle: int = 0
    is_subject: bool = True
    subtype: int = 0
    part: str = ''

    @property
    def side(self) -> str:
        """The class, and the subtype where it is not 0, as a listing writes them."""
        return '%s:%d' % (self.of_class, self.subtype) if self.subtype else self.of_class


def named_by(side: str) -> tuple[str, int]:
    """The class and the subtype that a text NAME or NAME:S names."""
    name, _, subtype = side.partition(':')
    return name, int(subtype or 0)


def is_skipped(line: bytes) -> bool:
    """Whether a line has no reply."""
    text = line[:-1] if line.endswith(b'\r') else line
    fields = text.strip(b' \t')
    return len(text) <= MOST_BYTES and (not fields or fields.startswith(b'#'))


def reply_of(replies: Iterable[bytes]) -> list[str]:
    """The next reply: its one line, or a listing with its total; only a beginning of it where the replies end earlier."""
    lines = []
    for line in replies:
        if not line.endswith(b'\n'):
            break
        lines.append(line.decode('utf-8', 'replace').rstrip('\n'))
        if lines[-1].startswith(ENDS):
            break
    return lines


def check_whole(number: int, reply: list[str]) -> None:
    """Raises a ReplyError where this is not the whole reply to a line of this number."""
    if not reply:
        raise ReplyError('line %d has no reply: the replay ended before it' % number)
    if reply[0].startswith('project refused'):
        raise ReplyError('the project was not opened, so no line has a reply: %s' % reply[0])
    if not reply[-1].startswith(ENDS):
        raise ReplyError('the reply to line %d is not whole: the replay ended within it' % number)


def misfit_text(answer: Answer) -> str:
    """What is said of a reply that its line cannot have."""
    return 'line %d cannot have the reply `%s`: the replies are not those of this script' % (answer.number, answer.reply[0][:60])


def answer_to(number: int, line: bytes, replies: Iterable[bytes]) -> Answer:
    """A line of a script with its reply; a ReplyError where that is missing, cut off, or none that the line can have."""
    line = line[:-1] if line.endswith(b'\n') else line
    text = line.decode('utf-8', 'replace').rstrip('\r')
    if is_skipped(line):
        return Answer(number, text, [])
    reply = reply_of(replies)
    check_whole(number, reply)
    answer = Answer(number, text, reply)
    if not can_answer(text, reply):
        raise ReplyError(misfit_text(answer))
    return answer


def check_ended(replies: IO[bytes]) -> None:
    if replies.read(1):
        raise ReplyError('there are more replies than lines')


def answers_of(script: Iterable[bytes], replies: IO[bytes]) -> Iterator[Answer]:
    """The lines of a script with their replies, one at a time; a ReplyError where a reply is missing, cut off, one too many, or none
    that its line can have."""
    for number, line in enumerate(script, 1):
        yield answer_to(number, line, replies)
    check_ended(replies)


@lru_cache(1 << 14)
def half_of(text: str) -> Half:
    """A half-plane by its text; cells next to each other have most of theirs in common."""
    a, b, c, op = text.split()
    return int(a), int(b), int(c), op


def meet(a: tuple[float, float, float, float], b: tuple[float, float, float, float]) -> bool:
    """Whether two rectangles have a point in common."""
    return a[0] <= b[2] and b[0] <= a[2] and a[1] <= b[3] and b[1] <= a[3]


def frame_of(words: Iterable[str]) -> Frame:
    """The rectangle whose four numbers these words are."""
    x0, y0, x1, y1 = map(int, words)
    return x0, y0, x1, y1


def error_of(line: str, cells: list[str]) -> Error:
    """The error of a line of a listing, with the texts of its cells, which may come later."""
    mark, rule, subject, other, extent, *frame = line.split()
    return Error(mark, int(rule), int(subject), int(other), extent, frame_of(frame), Cells(cells))


def each_error(lines: Iterable[str]) -> Iterator[Error]:
    """The errors of a listing, without its total, one at a time."""
    error: Optional[Error] = None
    cells: list[str] = []
    for line in lines:
        if error and line.startswith('cell '):
            cells.append(line[5:])
            continue
        if error:
            yield error
        cells = []
        error = error_of(line, cells)
    if error:
        yield error


def errors_of(lines: Iterable[str]) -> list[Error]:
    """The errors of a listing, without its total."""
    return list(each_error(lines))


def is_of(side: str, of_class: str, subtype: int) -> bool:
    """Whether a feature of this class and subtype is of a side."""
    name, number = named_by(side)
    return name == of_class and (':' not in side or number == subtype)


def rule_of(words: list[str]) -> Rule:
    """A rule by its word and its classes."""
    return Rule(words[0], words[1], words[2] if len(words) > 2 else '')


def rules_of(lines: list[str]) -> dict[int, Rule]:
    """The rules of a listing by their numbers, without its total."""
    return {int(number): rule_of(words) for _, number, *words in map(str.split, lines)}


def source_of(remark: str) -> Optional[tuple[str, str]]:
    """The number and the id of a feature in its source, which the remark above its line says; none where it says something else."""
    found = SOURCE.fullmatch(remark)
    return (found[1], json.loads(found[2] or '""', strict=False)) if found else None


def told_by(remark: str) -> dict:
    """What a remark line says of the feature that the next line adds."""
    if source := source_of(remark):
        return {'fid': source[0], 'id': source[1]}
    if role := ROLE.fullmatch(remark):
        return {'handle': int(role[2]), 'is_subject': role[1] == 'subject'}
    part = PART.fullmatch(remark)
    return {'part': part[1]} if part else {}


def origin_of(side: str, remarks: list[str]) -> Origin:
    """Where a feature of a class or a subtype comes from, by the remark lines above it."""
    name, subtype = named_by(side)
    return Origin(name, subtype=subtype, **{what: value for remark in remarks for what, value in told_by(remark).items()})


# Where a feature comes from of which nothing is told; a remark that says a number and an id as it stands.
NOWHERE = Origin('')
PLAIN_ID = re.compile(r'# fid \S+ id "([^"\\]*)"')


class Origins(MutableMapping[int, Origin]):
    """Where features come from, by their handles. What their remarks say is read when it is asked for: of very many features few have errors."""

    def __init__(self) -> None:
        self.told: dict[int, Union[Origin, tuple[str, list[str]]]] = {}
        # The handles of those whose remarks say which part they are of a feature that was cut.
        self.cut: set[int] = set()

    def tell(self, handle: int, side: str, remarks: list[str]) -> None:
        self.told[handle] = side, remarks
        if any(remark.startswith('# part ') for remark in remarks):
            self.cut.add(handle)

    def see(self, handle: int, side: str) -> None:
        """Takes of which class and subtype a listing says that a feature is; where it comes from stays as it was told."""
        told = self.told.get(handle, (side, []))
        if isinstance(told, Origin):
            self.told[handle] = told._replace(subtype=named_by(side)[1])
        elif told[0] != side or handle not in self.told:
            self.told[handle] = side, told[1]

    def __getitem__(self, handle: int) -> Origin:
        told = self.told[handle]
        return told if isinstance(told, Origin) else origin_of(*told)

    def id_of(self, handle: int) -> str:
        """The id of a feature in its source; nothing where it is not told. One without a quotation mark in it, as nearly all are, is read as it
        stands."""
        told = self.told.get(handle)
        plain = PLAIN_ID.fullmatch(told[1][0]) if type(told) is tuple and len(told[1]) == 1 else None
        return plain[1] if plain else self.get(handle, NOWHERE).id

    def __setitem__(self, handle: int, origin: Origin) -> None:
        self.told[handle] = origin
        if origin.part:
            self.cut.add(handle)

    def __delitem__(self, handle: int) -> None:
        del self.told[handle]

    def __contains__(self, handle: object) -> bool:
        return handle in self.told

    def __iter__(self) -> Iterator[int]:
        return iter(self.told)

    def __len__(self) -> int:
        return len(self.told)


@dataclass
class Listing:
    """The lines of a listing, the number of its line, how many lines before it changed something, the rules in force there, and of which
    version it is."""

    lines: list[str]
    number: int
    changes: int
    rules: dict[int, Rule]
    version: str = DEFAULT


@dataclass
class Ending:
    """What stands at the end of a replay, as far as its lines and replies tell."""

    remarks: list[str] = field(default_factory=list)
    classes: dict[str, str] = field(default_factory=dict)
    rules: dict[int, Rule] = field(default_factory=dict)
    origins: Origins = field(default_factory=Origins)
    listings: dict[str, Listing] = field(default_factory=dict)
    changes: int = 0
    refused: int = 0
    waiting: list[str] = field(default_factory=list)
    sessions: dict[str, None] = field(default_factory=dict)
    next_handle: int = 0
    versions: Versions = field(default_factory=Versions)

    @property
    def grid(self) -> Optional[Grid]:
        return grid_of(self.remarks)

    def remark(self, line: str) -> None:
        """Takes a remark line: of the grid, or of the feature that the next line adds."""
        if line.startswith('# grid '):
            self.remarks.append(line)
        elif line.startswith(OF_FEATURE):
            self.waiting.append(line)

    def listed(self, lines: list[str]) -> None:
        """Takes the features of a listing: where the script began with a saved project, they tell of its classes."""
        for line in lines:
            _, handle, side, wkt = line.split(' ', 3)
            name, subtype = named_by(side)
            if name not in self.classes:
                self.classes[name] = KINDS[wkt.split(' ', 1)[0]]
            self.origins.see(int(handle), side)
            if subtype or int(handle) in self.versions.now.subtypes:
                self.versions.now.subtypes[int(handle)] = subtype

    def done(self, words: list[str], answer: Answer) -> None:
        """Takes a line that was done."""
        last = answer.reply[-1].split()
        if words[0] == 'rules':
            self.rules = rules_of(answer.reply[:-1])
        if words[0] == 'features':
            self.listed(answer.reply[:-1])
        if words[0] in LISTINGS:
            self.listings[words[0]] = Listing(answer.reply[:-1], answer.number, self.changes, dict(self.rules), self.versions.current)
            return
        if words[0] in VERSION_LINES:
            self.changes += self.versioned(words, answer.reply)
            return
        self.changes += 1
        if words[0] == 'class':
            self.classes[words[1]] = words[2]
        elif words[0] == 'rule':
            self.rules[int(last[1])] = rule_of(words[1:])
        elif words[0] == 'droprule':
            self.rules.pop(int(words[1]), None)
        elif words[0] in SESSION_LINES:
            self.in_session(words)
        elif words[0] == 'by':
            self.edited(words[2:], last)

    def added(self, handle: int, side: str) -> None:
        """Takes a feature of a class or a subtype."""
        self.origins.tell(handle, side, self.waiting)
        self.waiting, self.next_handle = [], handle + 1
        if ':' in side or self.versions.current != DEFAULT:
            self.versions.edit(handle, named_by(side)[1])

    def edited(self, words: list[str], last: list[str]) -> None:
        """Takes an edit that was done: what it says of a feature beside its shape."""
        if words[0] == 'add':
            self.added(int(last[1]), words[1])
        elif words[0] == 'retype':
            self.versions.edit(int(words[1]), int(words[2]))
            self.set_subtype(int(words[1]), int(words[2]))
        elif words[0] in ('change', 'delete'):
            self.versions.edit(int(words[1]))
        elif words[0] in FIX_LINES:
            self.fixed(words, last)

    def set_subtype(self, handle: int, subtype: int) -> None:
        if handle in self.origins:
            self.origins[handle] = self.origins[handle]._replace(subtype=subtype)

    def fixed(self, words: list[str], last: list[str]) -> None:
        """Takes a fix that was done: the parts of a line come from where the line comes from; a point that was made is of the rule's class."""
        if words[0] == 'explode':
            self.exploded(int(words[1]), int(last[2]))
        elif words[0] == 'snap':
            self.versions.edit(int(words[2].split()[0]))
        elif words[0] == 'create':
            rule = self.rules.get(int(words[1]))
            name, subtype = named_by(rule.dest) if rule else ('', 0)
            self.origins[int(last[1])] = Origin(name, subtype=subtype)
            self.versions.edit(int(last[1]), subtype)
            self.next_handle = int(last[1]) + 1

    def exploded(self, handle: int, count: int) -> None:
        """Takes a line of so many parts, of which each is a feature now."""
        origin, first = self.origins.get(handle), self.next_handle
        self.versions.edit(handle)
        if origin and first:
            self.next_handle += count - 1
            for part in range(first, self.next_handle):
                self.origins[part] = origin
                self.versions.edit(part, origin.subtype)

    def in_session(self, words: list[str]) -> None:
        """Takes a session that was opened or ended."""
        if words[0] == 'begin':
            self.sessions[words[1]] = None
        else:
            self.sessions.pop(words[1], None)

    def versioned(self, words: list[str], reply: list[str]) -> bool:
        """Takes a line of versions that was done; whether what the listings show may be another since."""
        before = dict(self.versions.now.subtypes)
        if words[0] == 'version':
            self.versions.create(words[1])
            return False
        is_other = {'in': lambda: self.versions.go(words[1]), 'reconcile': lambda: self.versions.reconcile(words[1], reply),
                    'post': lambda: self.versions.post(words[1], reply)}[words[0]]()
        after = self.versions.now.subtypes
        for handle in {**before, **after}:
            self.set_subtype(handle, after.get(handle, 0))
        return is_other

    def take(self, answer: Answer) -> None:
        if not answer.reply:
            self.remark(answer.line.strip())
        elif answer.reply[-1].startswith('refused'):
            self.refused += 1
            self.versions.refused(answer.line.split(None, 2), answer.reply)
            self.waiting = []
        else:
            self.done(answer.line.split(None, 4), answer)

    def take_all(self, script: Iterable[bytes], replies: IO[bytes]) -> int:
        """Takes all lines of a script with their replies, and says how many have one. Features that were added, which nearly all lines are, are
        taken by their bytes; any other line, and what does not fit, as an answer."""
        replied = 0
        for number, line in enumerate(script, 1):
            if line.startswith(b'# ') and len(line) <= MOST_BYTES:
                self.remark(line.decode('utf-8', 'replace').strip())
                continue
            added = ADDED.fullmatch(line)
            said = [next(replies, b'')] if added else []
            done = added and DONE.fullmatch(said[0])
            if done:
                self.changes += 1
                self.added(int(done[1]), intern(added[1].decode()))
                replied += 1
            else:
                answer = answer_to(number, line, chain(said, replies))
                self.take(answer)
                replied += bool(answer.reply)
        check_ended(replies)
        return replied

    def errors(self) -> Optional[Listing]:
        """The last listing of errors: with cells, where nothing changed since."""
        known = [self.listings[word] for word in ('errors', 'cells') if word in self.listings]
        return max(known, key=lambda listing: (listing.changes, listing.lines is self.listings.get('cells', listing).lines), default=None)


def ending_of(script: str, replies: str) -> Ending:
    """What stands at the end of a script, by the files of its lines and of its replies; `-` is standard input."""
    ending = Ending()
    with open(script, 'rb') as lines, open(0 if replies == '-' else replies, 'rb') as said:
        ending.take_all(lines, said)
    return ending
