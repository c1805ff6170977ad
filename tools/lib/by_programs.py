"""Sources read through GDAL's command-line programs, with the standard library alone."""
from __future__ import annotations

import contextlib
import csv
import functools
import os
import re
import sqlite3
import sys
import tempfile
from itertools import islice, repeat
from typing import IO, Iterator, Optional

from .drivers import drivers_for, path_of
from .ogr import BATCH, ENVIRONMENT, Batch, Layer, SourceError, crs_of, extent_of, features_of, run, type_of

# What ogr2ogr writes: a table of the geometries by the numbers of the features, the numbers in the order of the source, and the ids in it.
GEOMETRIES = ['-f', 'SQLite', '-nln', 'topo', '-preserve_fid', '-fieldTypeToString', 'All', '-lco', 'FORMAT=WKB', '-lco', 'SPATIAL_INDEX=NO',
              '-lco', 'GEOMETRY_NAME=topo_wkb', '-lco', 'FID=topo_fid', '-gt', '100000', '--config', 'OGR_SQLITE_SYNCHRONOUS', 'OFF']
ORDER = ['-f', 'PGDump', '-nln', 'topo', '-nlt', 'NONE', '-preserve_fid', '-lco', 'CREATE_TABLE=OFF', '-lco', 'DROP_TABLE=OFF', '-lco', 'FID=topo_fid',
         '--config', 'PG_USE_COPY', 'YES']
IDS = ['-f', 'CSV', '-lco', 'STRING_QUOTING=ALWAYS']
WRITERS = 'PGDUMP', 'SQLite', 'CSV'
ENDS_WITHIN = re.compile(rb'(?<!\\)(?:\\\\)*\\\n\Z')
HEAD = re.compile(r'^Layer name: .*\nGeometry(?: \(.*\))?: (.*)\n(?:Geometry \(.*\): .*\n)*Feature Count: (-?\d+)\n'
                  r'(?:Extent(?: \(.*?\))?: \((\S+), (\S+)\) - \((\S+), (\S+)\)\n)?(?:Extent \(.*\): .*\n)*(?:SRS WKT \(.*\)|Layer SRS WKT):\n', re.M)
FIELD = re.compile(r'^(.+): \w+(?:\(\w+\))? \(\d+\.\d+\)', re.M)
LAYER = re.compile(r'\d+: (.*?)(?: \(title: .*\))?(?: \([^()]*(?:\(any\))?\))?')


@functools.lru_cache(1)
def known_drivers() -> frozenset[str]:
    """The names of all drivers of vectors."""
    return frozenset(re.findall(r'^  (\S.*?) -(?:raster,)?vector[a-z,]*-', run(['ogrinfo', '--formats']), re.M))


def environment_for(source: str, *writers: str) -> dict[str, str]:
    """The environment in which the programs read this source by the drivers that may, and write by these."""
    return dict(ENVIRONMENT, OGR_SKIP=','.join(sorted(known_drivers() - set(drivers_for(source)) - set(writers))))


def quoted(name: str) -> str:
    """A name as OGR's SQL has it."""
    return '"%s"' % name.replace('"', '\\"')


def layer_names(source: str) -> list[str]:
    """The layers in their order; after a name ogrinfo may have a title and a type, both in brackets."""
    try:
        lines = run(['ogrinfo', '-ro', '-q', path_of(source)], environment_for(source)).split('\n')
    except SourceError as fault:
        raise SourceError('GDAL cannot open this source: %s' % fault) from None
    return [found[1] for found in map(LAYER.fullmatch, lines) if found]


def layer_of(source: str, number: int, name: str) -> Layer:
    """What ogrinfo tells of a layer."""
    asked = ['-dialect', 'OGRSQL', '-sql', 'SELECT * FROM ' + quoted(name)]
    text = run(['ogrinfo', '-ro', '-so', '-nomd', '-wkt_format', 'WKT2_2019', path_of(source), *asked], environment_for(source))
    head = HEAD.search(text)
    if head is None:
        raise SourceError('layer %s: ogrinfo tells of it what no tool can read' % name)
    kind, count, *sides = head.groups()
    crs, _, tail = text[head.end():].partition('\nData axis to CRS axis mapping')
    is_known = text[head.end():head.end() + 9] != '(unknown)'
    return Layer(source, number, name, type_of(kind), int(count), extent_of(*map(float, sides)) if sides[0] else None,
                 crs_of(crs) if is_known and tail else '', FIELD.findall(tail or text[head.end():]))


def batches_of(layer: Layer, asked: list[Optional[str]]) -> Iterator[Batch]:
    """The features with the texts of the fields that are asked for."""
    with tempfile.TemporaryDirectory() as folder:
        geometries, order = (os.path.join(folder, name) for name in ('geometries.sqlite', 'order.sql'))
        copy(layer, 'FID', GEOMETRIES, geometries)
        copy(layer, 'FID', ORDER, order)
        texts = [texts_of(layer, field, os.path.join(folder, '%d.csv' % number)) for number, field in enumerate(asked)]
        with contextlib.closing(sqlite3.connect(geometries)) as table, open(order, 'rb') as numbers:
            yield from batches_in(table, fids_in(numbers), texts)


def texts_of(layer: Layer, field: Optional[str], path: str) -> Iterator[str]:
    """The texts of a field of all features, which are copied to a path."""
    if field is None:
        return repeat('')
    copy(layer, quoted(field), IDS, path)
    return ids_in(path)


def copy(layer: Layer, column: str, form: list[str], path: str) -> None:
    """Writes the features of a layer, with this column of theirs, in a form to a path."""
    asked = 'SELECT %s AS topo_id FROM %s' % (column, quoted(layer.name))
    run(['ogr2ogr', *form, path, path_of(layer.source), '-dialect', 'OGRSQL', '-sql', asked], environment_for(layer.source, *WRITERS))


def batches_in(table: sqlite3.Connection, fids: Iterator[int], texts: list[Iterator[str]]) -> Iterator[Batch]:
    """The features of these numbers and texts of fields."""
    while chunk := list(islice(fids, BATCH)):
        rows = [table.execute('SELECT topo_wkb FROM topo WHERE topo_fid = ?', (fid,)).fetchone() for fid in chunk]
        features = features_of(chunk, *texts)
        if None in rows or len(features) < len(chunk):
            raise SourceError('ogr2ogr read the source twice, and not the same features')
        yield Batch(features, [row[0] for row in rows])


def ids_in(path: str) -> Iterator[str]:
    """The cells of the one column of a table."""
    csv.field_size_limit(sys.maxsize)
    with open(path, encoding='utf-8', errors='replace', newline='') as table:
        rows = csv.reader(table)
        next(rows, None)
        yield from (row[0] if row else '' for row in rows)


def fids_in(dump: IO[bytes]) -> Iterator[int]:
    """The numbers of a dump, which stand first in the rows between the line that begins to copy and the one that ends. A row goes on after
    a line that ends with a \\."""
    is_copying = is_within = False
    for line in dump:
        if not is_copying:
            is_copying = line.startswith(b'COPY ')
        elif is_within or line != b'\\.\n':
            if not is_within:
                yield int(line.split(b'\t', 1)[0])
            is_within = ENDS_WITHIN.search(line) is not None
        else:
            is_copying = False
