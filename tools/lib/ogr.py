"""Sources as GDAL reads them: their layers, and their features in batches.

They are read through GDAL's own bindings with numpy where this python3 has them, else through GDAL's command-line programs; both give the same.
"""
from __future__ import annotations

import functools
import os
import re
import shlex
import shutil
import subprocess
from fractions import Fraction
from types import ModuleType
from typing import Iterable, Iterator, NamedTuple, Optional

from .drivers import SETTINGS, DriverError, drivers_for
from .grid import Extent
from .interpreter import READER, has_bindings
from .watch import WATCH, watched
from .wkb import word_of

KINDS = {'POINT': 'point', 'MULTIPOINT': 'point', 'LINESTRING': 'line', 'MULTILINESTRING': 'line', 'POLYGON': 'polygon',
         'MULTIPOLYGON': 'polygon'}
ENVIRONMENT = dict(os.environ, LC_ALL='C', **SETTINGS)
# So many features are read at a time.
BATCH = 5000


class SourceError(Exception):
    """A source that is not there or not read; its text says why."""


class Layer(NamedTuple):
    """A layer of a source, by its number from 0 and its name; its type is in capitals without blanks."""

    source: str
    number: int
    name: str
    type: str
    count: int  # type: ignore[assignment]  # a tuple has a method of that name
    extent: Optional[Extent]
    crs: str
    fields: list[str]


class Feature(NamedTuple):
    """A feature of a layer: its number, and the texts of the fields of its id, of its subtype and of others, where these were asked for."""

    fid: int
    id: str
    subtype: str = ''
    more: tuple[str, ...] = ()


class Batch(NamedTuple):
    """Features of a layer, and their geometries as well-known binary; a feature without one has None."""

    features: list[Feature]
    geometries: list[Optional[bytes]]


def require_gdal() -> None:
    for program in ('ogrinfo', 'ogr2ogr'):
        if shutil.which(program) is None:
            raise SourceError('%s is missing: install the package gdal-bin' % program)


def run(words: list[str], environment: Optional[dict[str, str]] = None) -> str:
    """What a program of GDAL writes; a SourceError with its last lines, or its words where it says nothing, where it fails."""
    with subprocess.Popen(words, stdout=subprocess.PIPE, stderr=subprocess.PIPE, env=environment or ENVIRONMENT) as program:
        WATCH.process = program.pid
        out, told = program.communicate()
        WATCH.process = None
    if program.returncode:
        raise SourceError('%s: %s' % (words[0], told.decode('utf-8', 'replace').strip() or 'failed as `%s`' % shlex.join(words)))
    return out.decode('utf-8', 'replace')


def has_vectors() -> bool:
    """Whether sources are read through GDAL's own bindings, beside which there is numpy."""
    return os.environ.get(READER) != 'programs' and has_bindings()


@functools.lru_cache(1)
def reader() -> ModuleType:
    """The module by which sources are read."""
    if has_vectors():
        from . import by_bindings
        return by_bindings
    require_gdal()
    from . import by_programs
    return by_programs


def check_source(source: str) -> list[str]:
    """The drivers that may read a source; a SourceError where it is none."""
    try:
        return drivers_for(source)
    except DriverError as fault:
        raise SourceError(str(fault)) from None


def layer_names(source: str) -> list[str]:
    """The layers in their order."""
    check_source(source)
    with WATCH.waiting():
        return reader().layer_names(source)


def layer_of(source: str, number: int, name: str) -> Layer:
    """What GDAL tells of a layer."""
    with WATCH.waiting():
        return reader().layer_of(source, number, name)


def features_of(fids: Iterable[int], ids: Iterable[str], subtypes: Iterable[str], *more: Iterable[str]) -> list[Feature]:
    """Features by their numbers and the texts of their fields."""
    return list(map(Feature, fids, ids, subtypes, zip(*more)) if more else map(Feature, fids, ids, subtypes))


def batches_of(layer: Layer, id_field: Optional[str] = None, subtype_field: Optional[str] = None, more: Iterable[str] = ()) -> Iterator[Batch]:
    """The features of a layer, with the texts of more fields; a SourceError behind the last one where the reading failed."""
    asked = [field if field in layer.fields else None for field in (id_field, subtype_field, *more)]
    return watched(reader().batches_of(layer, asked))


def words_of(layer: Layer) -> Iterator[str]:
    """The words of the geometries of a layer."""
    return (word_of(data) for batch in batches_of(layer) for data in batch.geometries)


def type_of(name: str) -> str:
    """A type of geometries by the name that GDAL has for it, in capitals, without blanks, and without Z and M."""
    return re.sub('[^A-Z]', '', re.sub('^(3D|MEASURED| )+', '', name.upper()))


def extent_of(*numbers: float) -> Optional[Extent]:
    """An extent by its least and greatest x and y, with six decimals; none where it is not finite."""
    try:
        x0, y0, x1, y1 = (Fraction('%f' % number) for number in numbers)
    except ValueError:
        return None
    return x0, y0, x1, y1


def crs_of(text: str) -> str:
    """A coordinate system in one line; nothing where GDAL says that it is not known."""
    return '' if re.match(r'\w+\["Undefined', text) else ''.join(line.strip() for line in text.splitlines())
