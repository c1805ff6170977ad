"""What is followed, as the tables of the schema say it: the grid, the classes with their tables, the rules; and the rows themselves."""
from __future__ import annotations

from typing import Iterator, NamedTuple

from psycopg2.extensions import cursor as Cursor

from ..grid import Grid, exact
from .judge import Edit, Rule


class Source(NamedTuple):
    """A table that is a class: its name as SQL takes it, and its columns."""

    of_class: str
    kind: str
    relation: str
    key: str
    geometry: str


class Setting(NamedTuple):
    """How the tables are judged."""

    grid: Grid
    srid: int
    validates: bool
    socket: str
    sources: list[Source]
    rules: list[Rule]

    @property
    def kinds(self) -> dict[str, str]:
        return {source.of_class: source.kind for source in self.sources}


def setting_of(cursor: Cursor) -> Setting:
    """The setting as the cursor's transaction sees it."""
    cursor.execute('select grid, x, y, srid, validates, coalesce(socket, %s) from topo.setting', ('',))
    resolution, x, y, srid, validates, socket = cursor.fetchone()
    cursor.execute('select class, kind, relation::text, key, geometry from topo.source order by class')
    sources = [Source(*row) for row in cursor]
    cursor.execute('select number, word, class, other_class from topo.rule order by number')
    rules = [Rule(*row) for row in cursor]
    return Setting(Grid(exact(resolution), exact(x), exact(y)), srid, validates, socket, sources, rules)


def signature_of(cursor: Cursor) -> str:
    cursor.execute('select topo.signature()')
    return cursor.fetchone()[0]


def faults_of(cursor: Cursor) -> list[str]:
    """Why tables cannot be followed as they are."""
    cursor.execute('select * from topo.faults()')
    return [text for text, in cursor]


def quoted(name: str) -> str:
    return '"%s"' % name.replace('"', '""')


def rows_of(cursor: Cursor, source: Source) -> Iterator[Edit]:
    """The rows of a table, in the order in which they were first taken; new ones behind the others, by their keys."""
    key, geometry = quoted(source.key), quoted(source.geometry)
    cursor.execute('select t.%s::text, st_astext(st_force2d(t.%s)) from %s t left join topo.feature f on f.class = %%s and f.key = t.%s::text '
                   'where t.%s is not null order by f.number nulls last, t.%s' % (key, geometry, source.relation, key, key, key), (source.of_class,))
    for of_key, wkt in cursor:
        yield Edit((source.of_class, of_key), False, wkt)
