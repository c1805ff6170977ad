"""Sets up the schema topo, and takes it away: tables that are followed become classes, and rules are put in force."""
from __future__ import annotations

import os
from dataclasses import dataclass, field
from fractions import Fraction
from typing import Any, NamedTuple, Optional

import psycopg2
from psycopg2.extensions import connection as Connection, cursor as Cursor

from ..grid import Grid, chosen_grid, decimal_text, exact
from ..ogr import KINDS
from ..rules import rule_line
from ..scripts import class_name
from .source import quoted

HERE = os.path.dirname(os.path.abspath(__file__))
READ = 'error', 'exception', 'dirty', 'refused', 'waiting', 'status', 'rule', 'source'


class SetupError(Exception):
    """What is asked for cannot be; the text says why, and what helps."""


class Table(NamedTuple):
    """A table that can be followed: its name as SQL takes it, its class, its columns."""

    relation: str
    of_class: str
    kind: str
    key: str
    geometry: str
    srid: int


@dataclass
class Asked:
    """What a set-up asks for."""

    grid: str = ''
    origin: Optional[tuple[str, str]] = None
    tables: list[list[str]] = field(default_factory=list)
    rules: list[list[str]] = field(default_factory=list)
    dropped: list[int] = field(default_factory=list)
    left: list[str] = field(default_factory=list)
    roles: list[str] = field(default_factory=list)
    validates: Optional[bool] = None
    socket: Optional[str] = None


def one(cursor: Cursor, text: str, of: tuple = ()) -> Any:
    """The first value of the first row; none where there is no row."""
    cursor.execute(text, of)
    row = cursor.fetchone()
    return row and row[0]


def schema_of(cursor: Cursor, extension: str) -> Optional[str]:
    return one(cursor, 'select quote_ident(n.nspname) from pg_extension e join pg_namespace n on n.oid = e.extnamespace where extname = %s', (extension,))


def key_of(cursor: Cursor, relation: str, asked: str) -> str:
    """The column by which users know a row: unique, the one that is asked for, or the primary key."""
    cursor.execute('select a.attname, i.indisprimary from pg_index i join pg_attribute a on a.attrelid = i.indrelid and a.attnum = i.indkey[0] '
                   'where i.indrelid = %s::regclass and i.indisunique and i.indnkeyatts = 1 and i.indpred is null order by not i.indisprimary', (relation,))
    unique = cursor.fetchall()
    found = [name for name, is_primary in unique if name == asked or not asked and is_primary]
    if not found:
        raise SetupError('%s has no %s: name a column that is unique' % (relation, 'unique column `%s`' % asked if asked else 'primary key of one column'))
    return found[0]


def geometry_of(cursor: Cursor, relation: str, asked: str) -> tuple[str, str, int]:
    """The column of the geometries, the kind of its features, the number of its coordinate system."""
    cursor.execute("select attname, postgis_typmod_type(atttypmod), postgis_typmod_srid(atttypmod) from pg_attribute "
                   "where attrelid = %s::regclass and atttypid = 'geometry'::regtype and not attisdropped and (%s in ('', attname)) order by attnum",
                   (relation, asked))
    columns = cursor.fetchall()
    if len(columns) != 1:
        raise SetupError('%s has %s: name one' % (relation, 'columns of geometries ' + ', '.join(of[0] for of in columns) if columns else
                                                  'no column of geometries' + (' `%s`' % asked if asked else '')))
    name, word, srid = columns[0]
    word = word.upper().replace('ZM', '').rstrip('ZM')
    if word == 'GEOMETRY':
        word = one(cursor, 'select geometrytype(%s) from %s where %s is not null limit 1' % (quoted(name), relation, quoted(name))) or ''
    if word not in KINDS:
        raise SetupError('%s.%s holds %s: a class has points, lines or polygons' % (relation, name, word or 'any geometry, and has no row yet'))
    return name, KINDS[word], srid


def table_of(cursor: Cursor, words: list[str]) -> Table:
    """A table by the words TABLE [CLASS [KEY [GEOMETRY]]]."""
    name, of_class, key, geometry = (words + [''] * 3)[:4]
    relation = one(cursor, 'select to_regclass(%s)::text', (name,))
    if relation is None:
        raise SetupError('there is no table %s' % name)
    column, kind, srid = geometry_of(cursor, relation, geometry)
    of_class = of_class or class_name(relation.rpartition('.')[2].strip('"'), set())
    if class_name(of_class, set()) != of_class:
        raise SetupError('`%s` is no name of a class: letters, digits and _, a letter first, 32 at most' % of_class)
    return Table(relation, of_class, kind, key_of(cursor, relation, key), column, srid)


def grid_of(cursor: Cursor, asked: Asked, tables: list[Table]) -> Grid:
    """The grid of the first set-up: with the origin that is given, or one in the middle of the extent."""
    if not asked.grid or not tables:
        raise SetupError('the first set-up needs --grid and a --table')
    resolution = exact(asked.grid)
    if resolution <= 0:
        raise SetupError('the grid has to be over 0')
    if asked.origin:
        x, y = map(exact, asked.origin)
        return Grid(resolution, x, y)
    every = ' union all '.join('select %s from %s' % (quoted(of.geometry), of.relation) for of in tables)
    cursor.execute('select st_xmin(e), st_ymin(e), st_xmax(e), st_ymax(e) from (select st_extent(g) as e from (%s) s(g)) t' % every)
    x0, y0, x1, y1 = (Fraction(repr(number or 0.0)) for number in cursor.fetchone())
    return chosen_grid(resolution, (x0, y0, x1, y1), '')


def script(name: str, srid: int, postgis: str, rowlocks: str = '') -> str:
    """A file of SQL for this database."""
    with open(os.path.join(HERE, name), encoding='utf-8') as file:
        return file.read().replace('@SRID@', str(srid)).replace('@POSTGIS@', postgis).replace('@ROWLOCKS@', rowlocks)


def create(cursor: Cursor, asked: Asked, tables: list[Table], postgis: str) -> list[str]:
    """Makes the schema; what cannot be had is told."""
    grid, srid = grid_of(cursor, asked, tables), tables[0].srid
    cursor.execute(script('schema.sql', srid, postgis))
    cursor.execute('insert into topo.setting (grid, x, y, srid, validates) values (%s, %s, %s, %s, true)',
                   (decimal_text(grid.resolution), decimal_text(grid.x), decimal_text(grid.y), srid))
    told = ['the origin is %s %s' % (decimal_text(grid.x), decimal_text(grid.y))]
    cursor.execute('savepoint holders')
    try:
        cursor.execute('create extension if not exists pgrowlocks')
        cursor.execute(script('held.sql', srid, postgis, schema_of(cursor, 'pgrowlocks')))
    except psycopg2.Error as fault:
        cursor.execute('rollback to savepoint holders')
        told.append('who holds what is not shown: %s' % str(fault).strip().split('\n')[0])
    return told


def follow(cursor: Cursor, tables: list[Table]) -> None:
    srid = one(cursor, 'select srid from topo.setting')
    for table in tables:
        if table.srid != srid:
            raise SetupError('%s has the coordinate system %d, and the others have %d' % (table.relation, table.srid, srid))
        cursor.execute('call topo.watch(%s::regclass, %s, %s, %s, %s)', (table.relation, table.of_class, table.kind, table.key, table.geometry))


def put_rules(cursor: Cursor, asked: Asked) -> None:
    """Puts rules in force, and takes others out of it; none may be left that speaks of a class that is none."""
    cursor.execute('delete from topo.rule where number = any(%s)', (asked.dropped,))
    cursor.execute('select class, kind from topo.source')
    kinds: dict[str, str] = {of_class: kind for of_class, kind in cursor.fetchall()}
    for words in asked.rules:
        _, word, of_class, *other = rule_line(words, kinds).split()
        cursor.execute('insert into topo.rule select coalesce(max(number), 0) + 1, %s, %s, %s from topo.rule on conflict do nothing',
                       (word, of_class, other[0] if other else ''))
    cursor.execute("select number, word from topo.rule where class <> all(%s) or other_class <> all(%s) order by number", (list(kinds), [*kinds, '']))
    for number, word in cursor:
        raise SetupError('the rule %d, %s, would have lost its class: --drop-rule %d' % (number, word, number))


def put_gate(cursor: Cursor, socket: str, srid: int, postgis: str) -> None:
    """Lets commits ask at a socket, or no longer where it is empty."""
    cursor.execute('update topo.setting set socket = %s', (socket or None,))
    if socket:
        cursor.execute(script('gate.sql', srid, postgis))
    else:
        cursor.execute('drop trigger if exists topo_gate on topo.change')


def grant(cursor: Cursor, roles: list[str]) -> None:
    """Lets roles see the tables, mark errors and ask for validations."""
    for role in map(quoted, roles):
        held = ['held'] if one(cursor, "select to_regclass('topo.held')") else []
        cursor.execute('grant usage on schema topo to %s' % role)
        cursor.execute('grant select on %s to %s' % (', '.join('topo.' + name for name in (*READ, *held)), role))
        cursor.execute('grant update (mark, note) on topo.error to %s' % role)


def set_up(db: Connection, asked: Asked) -> list[str]:
    """Does all that is asked for, in one transaction, or nothing; lines that tell of it."""
    with db, db.cursor() as cursor:
        postgis = schema_of(cursor, 'postgis')
        if postgis is None:
            raise SetupError('the database has no PostGIS: create extension postgis')
        tables = [table_of(cursor, words) for words in asked.tables]
        is_new = one(cursor, "select to_regclass('topo.setting')") is None
        told = create(cursor, asked, tables, postgis) if is_new else []
        for of_class in asked.left:
            cursor.execute('call topo.unwatch(%s)', (of_class,))
        follow(cursor, tables)
        put_rules(cursor, asked)
        if asked.validates is not None:
            cursor.execute('update topo.setting set validates = %s', (asked.validates,))
        if asked.socket is not None:
            put_gate(cursor, asked.socket, one(cursor, 'select srid from topo.setting'), postgis)
        grant(cursor, asked.roles)
        cursor.execute("select pg_notify('topo', '')")
        return told + ['%s is the class %s of %ss, known by %s' % (of.relation, of.of_class, of.kind, of.key) for of in tables]


def remove(db: Connection) -> None:
    """Takes the schema and the triggers away; the users' tables stay as they are."""
    with db, db.cursor() as cursor:
        cursor.execute('drop schema if exists topo cascade')
