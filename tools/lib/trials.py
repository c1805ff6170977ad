"""Tries fixes in a run that keeps nothing: what each mends, and what a validation finds afterwards."""
from __future__ import annotations

from typing import Iterable, NamedTuple

from .fixing import Fix
from .grid import Place
from .lines import NAME
from .replies import Error
from .talks import Talk

Key = tuple[int, int, int]
NONE: frozenset[Key] = frozenset()


class Found(NamedTuple):
    """The errors of a listing: of each its extent and frame, by its key. Marks are left out, since a trial may take them away."""

    by_key: dict[Key, str]

    @classmethod
    def of(cls, lines: list[str]) -> 'Found':
        words = (line.split(' ', 4) for line in lines)
        return cls({(int(rule), int(subject), int(other)): rest for _, rule, subject, other, rest in words})


class Trial(NamedTuple):
    """What came of lines: the replies to them, with a refusal last where one was refused; the keys of errors that are gone, that are new, that
    have another extent or frame now, and that a part of a line has which was taken apart, in place of the line; and how many features were made."""

    replies: list[str]
    gone: frozenset[Key]
    new: frozenset[Key]
    other: frozenset[Key]
    passed: frozenset[Key] = frozenset()
    made: int = 0

    @property
    def is_done(self) -> bool:
        return not self.replies[-1].startswith('refused')


class Counts(NamedTuple):
    """How many steps a line that was done takes, and how many features it made."""

    steps: int
    made: int


def counts_of(line: str, reply: str) -> Counts:
    word = line.split(' ', 1)[0]
    if word == 'explode':
        parts = int(reply.split()[2])
        return Counts(parts, parts - 1)
    if word == 'move':
        return Counts(int(reply.split()[2]), 0)
    return Counts(1, int(word == 'create'))


def frame_in(rest: str) -> tuple[int, ...]:
    """The frame of an error by its extent and frame."""
    return tuple(map(int, rest.split(' ')[1:]))


def has_in(outer: tuple[int, ...], inner: tuple[int, ...]) -> bool:
    return outer[0] <= inner[0] and outer[1] <= inner[1] and inner[2] <= outer[2] and inner[3] <= outer[3]


class Bench:
    """A run in which fixes are tried, one after another; each is undone."""

    def __init__(self, talk: Talk, editor: str) -> None:
        self.talk = talk
        self.editor = free_name(editor, talk.ending.sessions)
        for name in list(talk.ending.sessions):
            talk.asked('end ' + name)
        talk.asked('begin ' + self.editor)
        self.tried: dict[tuple[str, ...], Trial] = {}
        self.before = Found({})

    def look(self) -> list[str]:
        """Validates all, and takes what is listed as what stands before each trial; the lines of the errors with their cells."""
        self.talk.asked('validate all')
        lines = self.talk.asked('cells')[:-1]
        self.before = Found.of([line for line in lines if not line.startswith('cell ')])
        return lines

    def by(self, line: str) -> str:
        return self.talk.ask('by %s %s' % (self.editor, line))[-1]

    def do(self, lines: tuple[str, ...]) -> tuple[list[str], list[Counts]]:
        """Does lines up to the first that is refused."""
        replies: list[str] = []
        counts: list[Counts] = []
        for line in lines:
            replies.append(self.by(line))
            if replies[-1].startswith('refused'):
                break
            counts.append(counts_of(line, replies[-1]))
        return replies, counts

    def found(self) -> Found:
        self.talk.ask('validate all')
        return Found.of(self.talk.ask('errors')[:-1])

    def compared(self, replies: list[str], counts: list[Counts], apart: frozenset[int] = frozenset()) -> Trial:
        """What a validation finds now, beside what stood before; some lines were taken apart."""
        was, now = self.before.by_key, self.found().by_key
        came = now.keys() - was.keys()
        passed = frozenset(key for key in came for line in apart
                           if (key[0], line, key[2]) in was and has_in(frame_in(was[key[0], line, key[2]]), frame_in(now[key])))
        other = frozenset(key for key, rest in now.items() if was.get(key, rest) != rest)
        return Trial(replies, frozenset(was.keys() - now.keys()), frozenset(came - passed), other, passed, sum(each.made for each in counts))

    def attempt(self, fix: Fix, error: Error) -> tuple[Trial, bool]:
        """What comes of a fix, and whether it mends the error, or its place of the error."""
        trial = self.tried.get(fix.lines)
        key = error[1:4]
        if trial is not None and fix.place is None:
            return trial, trial.is_done and key in trial.gone
        replies, counts = self.do(fix.lines)
        trial = self.compared(replies, counts, apart_in([fix])) if not replies[-1].startswith('refused') else Trial(replies, NONE, NONE, NONE)
        mends = trial.is_done and (key in trial.gone or fix.place is not None and not self.is_at(key, fix.place))
        for _ in range(sum(each.steps for each in counts)):
            self.by('undo')
        self.tried[fix.lines] = trial
        return trial, mends

    def is_at(self, key: Key, place: Place) -> bool:
        """Whether an error has a cell at a place; where the program knows no `corners`, it is taken to have one."""
        reply = self.talk.ask('corners %d %d %d' % key)
        if reply[-1].startswith('refused'):
            return reply[-1] != 'refused E25'
        corners = [line.split()[2:] for line in reply[:-1]]
        return [str(number) for number in place] in corners

    def all_of(self, fixes: list[Fix]) -> tuple[list[Fix], Trial]:
        """Does fixes one after another, each whole or not at all, and leaves them done: which were, and what is found then."""
        done: list[Fix] = []
        total: list[Counts] = []
        for fix in fixes:
            replies, counts = self.do(fix.lines)
            if replies[-1].startswith('refused'):
                for _ in range(sum(each.steps for each in counts)):
                    self.by('undo')
                continue
            done.append(fix)
            total += counts
        return done, self.compared(['ok'], total, apart_in(done))


def apart_in(fixes: list[Fix]) -> frozenset[int]:
    """The lines that fixes take apart."""
    return frozenset(handle for fix in fixes if fix.kind == 'explode' for handle in fix.handles)


def free_name(name: str, taken: Iterable[str]) -> str:
    """The name of an editor, with a number behind it where a session of that name is open."""
    number = 2
    free, names = name, set(taken)
    while free in names or not NAME.fullmatch(free):
        free, number = '%s_%d' % (name[:28], number), number + 1
    return free
