"""What topo is told and asked of the features of tables: keys and handles, sessions, validations, marks, trials."""
from __future__ import annotations

import itertools
from dataclasses import dataclass, field
from typing import Iterable, NamedTuple, Optional

from ..grid import REACH, Grid
from ..replies import Frame, frame_of
from ..scripts import LeftOut, class_name
from .blocks import Block, Difference, Key, blocks_of, difference_of, joined
from .lens import Lens
from .mirror import Feature, Mirror, envelope_of
from .run import Ended, Run
from .units import Units

Place = tuple[str, str]                                    # class and key

NONE: Place = ('', '')
# Beyond so many features near the changes the whole listing takes less time.
MOST_NEAR = 3000


class Edit(NamedTuple):
    """What a row has become: its shape, none where it is gone or has none."""

    place: Place
    gone: bool
    wkt: Optional[str]


class Told(NamedTuple):
    """An edit with its line, and the shape in it, empty where there is none."""

    edit: Edit
    line: str
    shape: str


class Refusal(NamedTuple):
    """A row that is no feature of topo, and why."""

    place: Place
    why: str
    wkt: Optional[str]


class Rule(NamedTuple):
    """A rule as the tables know it."""

    number: int
    word: str
    of_class: str
    other_class: str


@dataclass
class Outcome:
    """What became of edits: features that came and went, each with its place; rows left out; all rows that were touched."""

    come: list[Place] = field(default_factory=list)
    gone: list[Place] = field(default_factory=list)
    refused: list[Refusal] = field(default_factory=list)
    touched: list[Place] = field(default_factory=list)

    def add(self, more: 'Outcome') -> None:
        for name in ('come', 'gone', 'refused', 'touched'):
            getattr(self, name).extend(getattr(more, name))


@dataclass
class Changes:
    """The features that changed since the errors were listed, and the envelopes that they had and have."""

    handles: set[int] = field(default_factory=set)
    frames: list[Frame] = field(default_factory=list)


class Errors:
    """Errors by their keys, and by their subjects."""

    def __init__(self) -> None:
        self.by_key: dict[Key, Block] = {}
        self.by_subject: dict[int, set[Key]] = {}

    def of(self, subjects: Iterable[int]) -> dict[Key, Block]:
        return {key: self.by_key[key] for subject in subjects for key in self.by_subject.get(subject, ())}

    def take(self, found: Difference) -> None:
        """Takes up what has changed."""
        for block in found.gone:
            del self.by_key[block.key]
            self.by_subject[block.key[1]].discard(block.key)
        for block in (*found.come, *found.marked):
            self.by_key[block.key] = block
            self.by_subject.setdefault(block.key[1], set()).add(block.key)


class Judge:
    """A run of topo with the classes and the rules of the tables, and a lens beside it."""

    def __init__(self, program: list[str], grid: Grid, kinds: dict[str, str], rules: list[Rule]) -> None:
        self.run, self.units, self.kinds = Run(program), Units(grid), kinds
        self.rules: dict[int, Rule] = dict(enumerate(rules, 1))
        self.handles: dict[Place, int] = {}
        self.places: dict[int, Place] = {0: NONE}
        self.mirror, self.errors, self.changes = Mirror(), Errors(), Changes()
        self.count = self.missed = 0
        head = ['class %s %s' % of for of in kinds.items()]
        head += [' '.join(['rule', rule.word, rule.of_class, rule.other_class]).rstrip() for rule in rules]
        self.done(head)
        self.lens = Lens(program, head)

    def close(self) -> None:
        self.run.close()
        self.lens.close()

    def done(self, lines: list[str]) -> list[str]:
        """The replies to lines of which none may be refused."""
        replies = self.run.ask(lines)
        for line, reply in zip(lines, replies):
            if not reply.startswith('ok'):
                raise Ended('topo answers %s to `%s`' % (reply, line[:80]))
        return replies

    # ---- edits

    def told(self, editor: str, edit: Edit) -> Told:
        """An edit as a line; LeftOut where the row has no shape that topo could take."""
        of_class, handle = edit.place[0], self.handles.get(edit.place)
        if edit.gone:
            return Told(edit, 'by %s delete %d' % (editor, handle), '')
        if edit.wkt is None:
            raise LeftOut('it is empty')
        shape = self.units.line(edit.wkt, self.kinds[of_class])
        line = 'by %s change %d %s' % (editor, handle, shape) if handle else 'by %s add %s %s' % (editor, of_class, shape)
        return Told(edit, line, shape)

    def all_told(self, editor: str, edits: Iterable[Edit], outcome: Outcome) -> list[Told]:
        """The edits as lines; those that have none are told in the outcome."""
        found: list[Told] = []
        for edit in edits:
            outcome.touched.append(edit.place)
            if edit.gone and edit.place not in self.handles:
                continue
            try:
                found.append(self.told(editor, edit))
            except LeftOut as fault:
                outcome.refused.append(Refusal(edit.place, str(fault), edit.wkt))
        return found

    def session(self, who: str, edits: Iterable[Edit]) -> Outcome:
        """A transaction as one session of its user; each place stands once among the edits. A row that is refused is no feature any more."""
        editor, outcome = class_name(who, set()), Outcome()
        lines = self.all_told(editor, edits, outcome)
        replies = self.run.ask(['begin ' + editor] + [told.line for told in lines])[1:]
        for told, reply in zip(lines, replies):
            self.take(told, reply, outcome)
        late = [refusal.place for refusal in outcome.refused if refusal.place in self.handles]
        self.done(['by %s delete %d' % (editor, self.handles[place]) for place in late] + ['end ' + editor])
        for place in late:
            self.forget(place, outcome)
        return outcome

    def why(self, edit: Edit, reply: str) -> str:
        return self.units.why(edit.wkt or '', self.kinds[edit.place[0]], 'topo says: ' + reply)

    def take(self, told: Told, reply: str, outcome: Outcome) -> None:
        """Takes the reply to the line of an edit."""
        edit = told.edit
        if reply.startswith('refused'):
            outcome.refused.append(Refusal(edit.place, self.why(edit, reply), edit.wkt))
            return
        if edit.gone:
            self.forget(edit.place, outcome)
            return
        if reply != 'ok':
            handle = int(reply.split()[1])
            self.handles[edit.place], self.places[handle] = handle, edit.place
            outcome.come.append(edit.place)
        self.note(self.handles[edit.place], Feature(edit.place[0], told.shape, envelope_of(told.shape)), self.changes)

    def forget(self, place: Place, outcome: Outcome) -> None:
        """A feature is gone; its handle keeps its place, since an error may still name it."""
        self.note(self.handles.pop(place), None, self.changes)
        outcome.gone.append(place)

    def note(self, handle: int, feature: Optional[Feature], changes: Changes) -> None:
        """A feature has another shape now, or is gone: in the mirror, and among the changes."""
        old = self.mirror.features.get(handle)
        changes.handles.add(handle)
        changes.frames += [of.envelope for of in (old, feature) if of]
        if feature:
            self.mirror.put(handle, *feature[:2])
        elif old:
            self.mirror.drop(handle)

    # ---- judged

    def dirty(self) -> list[Frame]:
        """The dirty areas, in grid units."""
        lines = self.run.listing('dirty').decode('ascii').splitlines()
        return [frame_of(line.split()[1:]) for line in lines]

    def validate(self, window: str = 'all') -> None:
        """Judges what is dirty, all of it or in a window."""
        self.count = int(self.done(['validate ' + window])[0].split()[4])

    def validate_window(self, frame: Frame) -> None:
        """Judges what is dirty in a window, as far as it lies in the reach."""
        x0, y0, x1, y1 = (max(-REACH, min(REACH, number)) for number in frame)
        self.validate('%d %d %d %d' % (x0, y0, x1, y1))

    def mark(self, word: str, key: Key) -> bool:
        """Marks an error, or takes its mark away; whether it is so now, as it may have been before."""
        return self.run.ask(['%s %d %d %d' % (word, *key)])[0] in ('ok', 'refused E26')

    def marked(self, word: str, keys: Iterable[Key]) -> Difference:
        """Marks errors that stand; what has changed of them."""
        mark = 'exception' if word == 'mark' else 'error'
        done = [self.errors.by_key[key] for key in keys if self.mark(word, key)]
        found = Difference([], [], [block._replace(mark=mark) for block in done if block.mark != mark])
        self.errors.take(found)
        return found

    def whole(self) -> Difference:
        """What has changed of the errors, by the listing of all of them."""
        self.changes = Changes()
        found = difference_of(self.errors.by_key, {block.key: block for block in blocks_of(self.run.listing('cells'))})
        self.errors.take(found)
        return found

    def near(self) -> Difference:
        """What has changed of the errors when all that was dirty has been judged: by a look at what lies near the changes. If topo has not
        as many errors then, by all of them."""
        changes, self.changes = self.changes, Changes()
        if not changes.handles:
            return Difference([], [], [])
        seen = self.seen(changes)
        if seen is None:
            return self.whole()
        self.errors.take(seen[0])
        if len(self.errors.by_key) == self.count:
            return seen[0]
        self.missed += 1
        return joined(seen[0], self.whole())

    def seen(self, changes: Changes) -> Optional[tuple[Difference, dict[int, str]]]:
        """What has changed of the errors whose subjects are near the changes, and what the lens refuses; none where that is too much. An
        error that is the same keeps its mark."""
        if len(changes.handles) > MOST_NEAR:
            return None
        subjects = self.mirror.meeting(changes.frames) | changes.handles
        features = self.mirror.features
        near = self.mirror.meeting([features[handle].envelope for handle in subjects if handle in features])
        if len(near) > MOST_NEAR:
            return None
        blocks, refused = self.lens.look({handle: features[handle] for handle in near})
        old = self.errors.of(subjects)
        new = {block.key: block for block in blocks if block.key[1] in subjects}
        for key in new:
            if key in old and old[key].text == new[key].text:
                new[key] = old[key]
        return difference_of(old, new), refused

    def rule_and_places(self, key: Key) -> tuple[Rule, Place, Place]:
        """Of an error its rule, its subject and its partner; a rule that takes a class gives it to a partner that is none."""
        rule, other = self.rules[key[0]], self.places[key[2]]
        return rule, self.places[key[1]], other if other[0] else (rule.other_class, '')

    # ---- tried

    def trial(self, edits: list[Edit]) -> list[str]:
        """Which errors edits would bring that are not in force, and which rows would be left out. Nothing of it is kept, and topo itself
        is told nothing: the lens is."""
        outcome, changes = Outcome(), Changes()
        fresh = itertools.count(max(self.places) + 1)
        before: dict[int, Optional[Feature]] = {}
        tried: dict[int, Edit] = {}
        for told in self.all_told('gate', edits, outcome):
            handle = self.handles.get(told.edit.place) or next(fresh)
            before[handle], tried[handle] = self.mirror.features.get(handle), told.edit
            self.note(handle, None if told.edit.gone else Feature(told.edit.place[0], told.shape, envelope_of(told.shape)), changes)
        seen = self.seen(changes)
        for handle, feature in before.items():
            self.note(handle, feature, Changes())
        if seen is None:
            return ['it changes too much at once to be tried']
        said = ['%s %s: %s' % (*refusal.place, refusal.why) for refusal in outcome.refused]
        said += ['%s %s: %s' % (*tried[handle].place, self.why(tried[handle], reply)) for handle, reply in seen[1].items() if handle in tried]
        return said + self.new_errors(seen[0], {handle: edit.place for handle, edit in tried.items()})

    def new_errors(self, found: Difference, tried: dict[int, Place]) -> list[str]:
        """The errors of a trial that were none before: not those that only have other cells now."""
        old = {block.key for block in found.gone if block.mark == 'error'}
        places = {**{handle: self.places[handle] for block in found.come for handle in block.key[1:] if handle in self.places}, **tried}
        return [said_of(block, self.rules[block.key[0]], places) for block in found.come if block.mark == 'error' and block.key not in old]


def said_of(block: Block, rule: Rule, places: dict[int, Place]) -> str:
    """An error in a line, by what users know."""
    subject, other = places[block.key[1]], places[block.key[2]]
    return ' '.join(['%s of %s %s' % (rule.word, *subject)] + (['and %s %s' % other] if other[1] else []))
