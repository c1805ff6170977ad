"""The tables that the service writes: errors, exceptions, dirty areas, refused rows, features, and how it stands."""
from __future__ import annotations

import io
from typing import Iterable, Optional

from psycopg2.extensions import cursor as Cursor
from psycopg2.extras import execute_values

from ..cells import rectangle
from ..grid import Grid
from ..maps import Geometry, Rounding, geometries_of, wkt_of
from ..replies import Frame
from .blocks import Block, Difference, Key
from .judge import Judge, Outcome, Place, Refusal, Rule

# An error as the tables know it: the number of its rule, its subject and its partner, each by class and key.
Name = tuple[int, str, str, str, str]

SAME = 'rule = %s and class = %s and subject = %s and other_class = %s and other = %s'
OF_ERROR = '(e.rule, e.class, e.subject, e.other_class, e.other) = (f.rule, f.class, f.subject, f.other_class, f.other)'


def name_of(rule: Rule, subject: Place, other: Place) -> Name:
    return (rule.number, *subject, *other)


class Tables:
    """Writes what has changed, by the cursor of the batch's transaction."""

    def __init__(self, grid: Grid, srid: int) -> None:
        self.rounding, self.srid = Rounding(grid), srid
        self.ids: dict[Key, int] = {}                      # of the errors that stand
        self.next_id = self.next_number = 1
        self.dirt: list[Frame] = []
        self.refused: set[Place] = set()
        self.features = 0

    # ---- errors

    def places(self, block: Block) -> list[Optional[str]]:
        """The polygons, lines and points of an error."""
        parts: dict[str, list] = {'polygon': [], 'line': [], 'point': []}
        for _, geometry in geometries_of(block.error(), self.rounding, False)[0]:
            parts[geometry.kind] += geometry.parts
        return [wkt_of(Geometry(kind, of)) if of else None for kind, of in parts.items()]

    def row(self, block: Block, judge: Judge, number: int, note: str = '') -> tuple:
        rule, subject, other = judge.rule_and_places(block.key)
        return (number, rule.number, rule.word, *subject, *other, block.text.split(' ', 1)[0], block.mark, note, block.text, *self.places(block))

    def insert(self, cursor: Cursor, blocks: Iterable[Block], judge: Judge) -> None:
        """Adds errors, each under a new number."""
        rows = []
        for block in blocks:
            self.ids[block.key] = self.next_id
            rows.append(self.row(block, judge, self.next_id))
            self.next_id += 1
        place = 'st_geomfromtext(%%s, %d)' % self.srid
        execute_values(cursor, 'insert into topo.found values %s', rows, '(%s)' % ', '.join(['%s'] * 11 + [place] * 3))

    def delete(self, cursor: Cursor, numbers: list[int]) -> None:
        if numbers:
            cursor.execute('delete from topo.found where id = any(%s)', (numbers,))

    def write(self, cursor: Cursor, found: Difference, judge: Judge) -> None:
        """The errors that came, went, or have another mark; marks that went with their errors lapse."""
        self.delete(cursor, [self.ids.pop(block.key) for block in found.gone])
        self.insert(cursor, found.come, judge)
        for block in found.marked:
            cursor.execute('update topo.found set mark = %s where id = %s', (block.mark, self.ids[block.key]))
        lapsed = [name_of(*judge.rule_and_places(block.key)) for block in found.gone if block.mark == 'exception']
        self.lapse(cursor, lapsed)

    # ---- exceptions

    def lapse(self, cursor: Cursor, names: Iterable[Name]) -> None:
        for name in names:
            cursor.execute('update topo.exception set lapsed = clock_timestamp() where lapsed is null and ' + SAME, name)

    def except_error(self, cursor: Cursor, number: int, who: str, note: str) -> None:
        """Writes an exception down, by the number of its error; one of the same name that stood or lapsed goes."""
        cursor.execute('delete from topo.exception e using topo.found f where f.id = %s and ' + OF_ERROR, (number,))
        cursor.execute('update topo.found set note = %s where id = %s', (note, number))
        cursor.execute('insert into topo.exception (rule, word, class, subject, other_class, other, who, note, listing, place) '
                       'select rule, word, class, subject, other_class, other, %s, %s, listing, '
                       'st_collect(array_remove(array[polygons::geometry, lines, points], null)) from topo.found where id = %s', (who, note, number))

    def drop_exception(self, cursor: Cursor, number: int) -> None:
        cursor.execute('delete from topo.exception e using topo.found f where f.id = %s and ' + OF_ERROR, (number,))
        cursor.execute("update topo.found set note = '' where id = %s", (number,))

    def exceptions(self, cursor: Cursor) -> list[tuple[Name, str]]:
        """The exceptions that stand, with the listings of their errors."""
        cursor.execute('select rule, class, subject, other_class, other, listing from topo.exception where lapsed is null')
        return [((rule, of_class, subject, other_class, other), listing) for rule, of_class, subject, other_class, other, listing in cursor]

    # ---- rows that are features, and those that are none

    def write_rows(self, cursor: Cursor, outcome: Outcome, handles: dict[Place, int]) -> None:
        """What became of rows in a batch, in which a row may have come and gone; the features have these handles after it."""
        gone = list(dict.fromkeys(outcome.gone))
        come = sorted({place for place in outcome.come if place in handles}, key=handles.__getitem__)
        if gone:
            execute_values(cursor, 'delete from topo.feature f using (values %s) v(c, k) where f.class = v.c and f.key = v.k', gone)
        self.number(cursor, come)
        self.refuse(cursor, outcome.touched, {refusal.place: refusal for refusal in outcome.refused if refusal.place not in handles})

    def number(self, cursor: Cursor, places: list[Place]) -> None:
        """Numbers features in the order of their handles."""
        lines = []
        for number, (of_class, key) in enumerate(places, self.next_number):
            lines.append('%d\t%s\t%s\n' % (number, of_class, copied(key)))
        self.next_number += len(places)
        if lines:
            cursor.copy_expert('copy topo.feature from stdin', io.StringIO(''.join(lines)))

    def refuse(self, cursor: Cursor, touched: list[Place], refused: dict[Place, Refusal]) -> None:
        """Writes what is left out; what was and has been touched since is not any more."""
        old = [place for place in dict.fromkeys(touched) if place in self.refused]
        if old:
            execute_values(cursor, 'delete from topo.refused r using (values %s) v(c, k) where r.class = v.c and r.key = v.k', old)
        rows = [(*refusal.place, refusal.why, refusal.wkt) for refusal in refused.values()]
        execute_values(cursor, 'insert into topo.refused (class, key, why, place) values %s', rows, '(%%s, %%s, %%s, st_geomfromtext(%%s, %d))' % self.srid)
        self.refused = (self.refused - set(old)) | set(refused)

    # ---- dirt, and how it stands

    def write_dirt(self, cursor: Cursor, dirt: list[Frame]) -> None:
        if dirt == self.dirt:
            return
        self.dirt = dirt
        rows = [(number, wkt_of(self.rounding.cell(rectangle(frame)))) for number, frame in enumerate(dirt, 1)]
        cursor.execute('delete from topo.dirty')
        execute_values(cursor, 'insert into topo.dirty values %s', rows, '(%%s, st_geomfromtext(%%s, %d))' % self.srid)

    def write_state(self, cursor: Cursor, features: int) -> None:
        cursor.execute("update topo.state set at = transaction_timestamp(), features = %s, errors = %s, note = ''", (features, len(self.ids)))
        cursor.execute("notify qgis, 'topo'")              # the one channel to which layers of QGIS listen

    # ---- a start

    def read_numbers(self, cursor: Cursor) -> None:
        """Takes up the numbers where an earlier run left them."""
        cursor.execute('select coalesce((select max(id) from topo.found), 0) + 1, coalesce((select max(number) from topo.feature), 0) + 1')
        self.next_id, self.next_number = cursor.fetchone()

    def write_anew(self, cursor: Cursor, blocks: list[Block], judge: Judge) -> None:
        """All errors at a start: what stands already as it is now stays, under its number."""
        cursor.execute('select rule, class, subject, other_class, other, id, mark, extent, listing from topo.found')
        stood = {tuple(row[:5]): row[5:] for row in cursor}
        come, marked = [], []
        for block in blocks:
            number, mark, _, listing = stood.get(name_of(*judge.rule_and_places(block.key)), (0, '', '', ''))
            if listing != block.text:
                come.append(block)
                continue
            self.ids[block.key] = number
            marked += [block] if mark != block.mark else []
        kept = set(self.ids.values())
        self.write(cursor, Difference([], [], marked), judge)
        self.delete(cursor, [row[0] for row in stood.values() if row[0] not in kept])
        self.insert(cursor, come, judge)

    def write_rows_anew(self, cursor: Cursor, outcome: Outcome, handles: dict[Place, int]) -> None:
        """All rows at a start: only what differs from what stands is written."""
        cursor.execute('select class, key from topo.feature')
        known = set(cursor.fetchall())
        gone = [place for place in known if place not in handles]
        if gone:
            execute_values(cursor, 'delete from topo.feature f using (values %s) v(c, k) where f.class = v.c and f.key = v.k', gone)
        self.number(cursor, [place for place in outcome.come if place not in known])
        cursor.execute('delete from topo.refused')
        self.refuse(cursor, [], {refusal.place: refusal for refusal in outcome.refused})
        cursor.execute('delete from topo.dirty')


def copied(text: str) -> str:
    """A text as COPY takes it."""
    return text.replace('\\', '\\\\').replace('\t', '\\t').replace('\n', '\\n').replace('\r', '\\r')
