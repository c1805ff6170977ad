"""The way from sources to features of a script: layers and classes, the common grid, and a report of what became of each feature."""
from __future__ import annotations

import argparse
import os
import re
import time
from collections import Counter
from fractions import Fraction
from typing import Iterable, Iterator, NamedTuple, Optional, TextIO

from .drivers import is_source
from .frame import say
from .grid import Extent, Grid, GridError, chosen_grid, decimal_text, exact
from .lines import name_of, side_text, told
from .ogr import Feature, Layer, SourceError, batches_of, has_vectors, layer_names, layer_of
from .rules import nearest, rule_line
from .scripts import Converter, LeftOut, Taken, class_name, kind_of_layer, moved_text
from .subtypes import Subtypes, numbers_in
from .tables import COLUMNS, Table
from .watch import SECONDS

SHOWN = 3
PAUSE = 5
COVERED = 'polygon_must_be_covered_by_feature_class_of'
# A degree from south to north in metres, about.
METRES = 111195


class Class(NamedTuple):
    """A class of the script, and the layer whose features it takes."""

    name: str
    kind: str
    layer: Layer


class Arrival(NamedTuple):
    """A feature with the class that it goes to, and a shape that it has there; the handle is the next one."""

    of_class: Class
    feature: Feature
    taken: Taken
    handle: int
    subtype: int = 0

    @property
    def side(self) -> str:
        """The class with the subtype, as lines have it."""
        return side_text(self.of_class.name, self.subtype)


def asked_class(word: str, known: Iterable[str]) -> tuple[str, str]:
    """The layer of a word of `--layer`, and the class that it asks for, if it does: LAYER or LAYER=CLASS."""
    layer, equals, name = word.rpartition('=')
    return (word, '') if word in known or not equals else (layer, name_of(name))


def layers_of(sources: list[str], wanted: list[str]) -> list[Layer]:
    """The layers of these names, or all, in the order of the sources."""
    found = [(source, number, name) for source in sources for number, name in enumerate(layer_names(source))]
    known = [of for *_, of in found]
    names = [asked_class(word, known)[0] for word in wanted]
    for name in names:
        if name not in known:
            raise SourceError('no layer %r; there are %s' % (name, ', '.join(known) or 'none'))
    return [layer_of(*each) for each in found if not names or each[2] in names]


def class_for(layer: Layer, kind: str, name: str, classes: list[Class]) -> Class:
    """The class of this name, or of none its own, that a layer of a kind goes to; what it is named is told."""
    same = next((each for each in classes if name and each.name == name), None)
    if same and same.kind != kind:
        raise SourceError('layer %s has %ss, and the class %s %ss of layer %s' % (layer.name, kind, name, same.kind, same.layer.name))
    found = name or class_name(layer.name, {each.name for each in classes})
    if found != layer.name and not name:
        say('layer %s: its class is named %s' % (layer.name, found))
    return Class(found, kind, layer)


def classes_of(layers: list[Layer], wanted: Iterable[str] = ()) -> list[Class]:
    """A class for each layer that has geometries, or the one that a word LAYER=CLASS asks for, which several layers may have; what is passed
    over is told."""
    asked = dict(asked_class(word, [layer.name for layer in layers]) for word in wanted)
    classes: list[Class] = []
    for layer in layers:
        kind = kind_of_layer(layer)
        if kind is None:
            say('layer %s: passed over, since it has no geometries' % layer.name)
            continue
        classes.append(class_for(layer, kind, asked.get(layer.name, ''), classes))
    if not classes:
        raise SourceError('there is no layer to read')
    return classes


def source_name(source: str) -> str:
    """The name of a file; of a connection nothing but its sort, since there may be a password in it."""
    return os.path.basename(os.path.normpath(source)) if os.path.exists(source) else source.partition(':')[0]


def head_of(classes: list[Class]) -> list[str]:
    """The remark lines of the classes, and the lines that make them."""
    remarks = ['# grid class %s %s %s %s' % (of.name, of.kind, told(of.layer.name), told(source_name(of.layer.source))) for of in classes]
    return remarks + list(dict.fromkeys('class %s %s' % (of.name, of.kind) for of in classes))


def crs_name(crs: str) -> str:
    found = re.match(r'\w+\["([^"]*)"', crs)
    return found[1] if found else 'none that it says'


def systems_text(classes: list[Class]) -> str:
    """Which layer has which coordinate system: the odd ones where most have one and the same."""
    count = Counter(of.layer.crs for of in classes)
    most, number = count.most_common(1)[0]
    if 2 * number <= len(classes):
        return 'the layers have different coordinate systems: ' + ', '.join('%s has %s' % (of.layer.name, crs_name(of.layer.crs)) for of in classes)
    odd = ' and '.join('layer %s has the coordinate system %s' % (of.layer.name, crs_name(of.layer.crs)) for of in classes if of.layer.crs != most)
    return '%s, and %s %s' % (odd, 'the other' if number == 1 else 'the other %d have' % number, crs_name(most))


def common_crs(classes: list[Class], resolution: Fraction, may_be_degrees: bool) -> str:
    """The coordinate system that all layers have; a SourceError where they have several, or degrees that nobody asked for."""
    known = {of.layer.crs for of in classes}
    if len(known) > 1:
        raise SourceError('%s: bring them into one with ogr2ogr -t_srs' % systems_text(classes))
    crs = known.pop()
    if crs.startswith('GEOGCRS') and not may_be_degrees:
        raise SourceError('the coordinates are degrees, so one unit of this grid is about %.3g m from south to north, and less from west to east: '
                          'bring the source into a system in metres with ogr2ogr -t_srs, or say --degrees' % (resolution * METRES))
    return crs


def common_extent(classes: list[Class]) -> Extent:
    for of in classes:
        if of.layer.count and not of.layer.extent:
            raise SourceError('layer %s: its extent is no number, so say --origin' % of.layer.name)
    known = [of.layer.extent for of in classes if of.layer.extent and of.layer.count]
    if not known:
        return (Fraction(0),) * 4
    x0, y0, x1, y1 = zip(*known)
    return min(x0), min(y0), max(x1), max(y1)


def grid_for(classes: list[Class], resolution: Fraction, origin: Optional[tuple[Fraction, Fraction]], may_be_degrees: bool = False) -> Grid:
    """The grid of the script: with the origin that is given, or with one in the middle of the extent."""
    if resolution <= 0:
        raise GridError('the grid has to be over 0')
    crs = common_crs(classes, resolution, may_be_degrees)
    if origin:
        return Grid(resolution, *origin, crs)
    grid = chosen_grid(resolution, common_extent(classes), crs)
    say('the origin is %s %s, near the middle of the extent' % (decimal_text(grid.x), decimal_text(grid.y)))
    return grid


class Report:
    """What became of each feature: a row each in the table, the first of each kind and the totals on standard error; the classes of which a
    feature was cut."""

    def __init__(self, table: Optional[TextIO], of: int, columns: list[str] = [], is_safe: bool = False) -> None:
        self.rows = Table(table, COLUMNS + columns, is_safe=is_safe) if table else None
        self.of, self.read, self.added, self.left_out, self.moved = of, 0, 0, 0, 0
        self.most = Fraction(0)
        self.shown: dict[str, int] = {}
        self.cut: set[str] = set()
        self.next_word = time.monotonic() + PAUSE

    def name(self, of: Class, feature: Feature) -> str:
        return '%s %s%s' % (of.layer.name, feature.fid, ' (%s)' % feature.id if feature.id else '')

    def show(self, sort: str, of: Class, feature: Feature, text: str) -> None:
        """A line for each feature that is left out, and for the first of each other sort."""
        self.shown[sort] = self.shown.get(sort, 0) + 1
        if sort == 'left out' or self.shown[sort] <= SHOWN:
            say('%s: %s' % (self.name(of, feature), text))
        elif self.shown[sort] == SHOWN + 1:
            say('.. the rest of these are in the table alone (--table)')

    def row(self, of: Class, feature: Feature, side: str, handle: str, moved: str, note: str) -> None:
        if self.rows:
            self.rows.write([of.layer.name, feature.fid, feature.id, side, handle, moved, note, *feature.more])

    def leave_out(self, of: Class, feature: Feature, why: str) -> None:
        self.left_out += 1
        self.show('left out', of, feature, 'left out: ' + why)
        self.row(of, feature, '', '', '', 'left out: ' + why)

    def take(self, arrival: Arrival) -> None:
        of, feature, taken, handle, _ = arrival
        self.added += 1
        if taken.part:
            self.take_part(arrival)
        notes = taken.notes + ([taken.part.text()] if taken.part else [])
        if not taken.moved and not notes:
            self.row(of, feature, arrival.side, str(handle), '', '')
            return
        moved = moved_text(taken.moved)
        for note in taken.notes:
            self.show(re.sub(r'\d+', 'N', note), of, feature, note)
        if taken.moved:
            self.moved, self.most = self.moved + 1, max(self.most, taken.moved)
            self.show('moved', of, feature, 'moved by %s at most' % moved)
        self.row(of, feature, arrival.side, str(handle), moved if taken.moved else '', '; '.join(notes))

    def take_part(self, arrival: Arrival) -> None:
        """Tells of a feature that was cut, when its first part comes."""
        self.cut.add(arrival.of_class.name)
        if arrival.taken.part.number == 1:
            say('%s: cut into %d parts, since a shape has 2,000 vertices at most' % (self.name(arrival.of_class, arrival.feature), arrival.taken.part.count))

    def count(self, features: int) -> None:
        """So many features have been read; now and then it is told how many."""
        self.read += features
        if time.monotonic() >= self.next_word:
            say('%s of %s features' % (format(self.read, ','), format(self.of, ',')))
            self.next_word = time.monotonic() + PAUSE

    def total(self) -> None:
        if self.rows and self.rows.formulas and not self.rows.is_safe:
            say('cells of the table that a spreadsheet may take for formulas, since they begin with =, +, - or @: %d; --safe puts a \' before them' %
                self.rows.formulas)
        say('%s features read, %s added, %s left out; %s moved, by %s at most' %
            (format(self.read, ','), format(self.added, ','), format(self.left_out, ','), format(self.moved, ','), moved_text(self.most)))


def sources_of(source: list[str], ids: list[list[str]]) -> tuple[list[str], list[list[str]]]:
    """The sources and the words of each `--id`. Where no source stands elsewhere, an `--id` has them behind its own words: from the first
    word that is one, or where none is, the last word of the last `--id`."""
    places = [(n, i) for n, words in enumerate(ids) for i, word in enumerate(words) if i and is_source(word)]
    places += [(len(ids) - 1, len(words) - 1) for words in ids[-1:] if len(words) > 1]
    if source or not places:
        return source, ids
    n, i = places[0]
    return ids[n][i:], ids[:n] + [ids[n][:i]] + ids[n + 1:]


def named_classes(classes: list[Class], name: str) -> list[Class]:
    """The class of this name, or the classes of the layers of this name; a SourceError where there is none."""
    found = [of for of in classes if of.name == name] or [of for of in classes if of.layer.name == name]
    if not found:
        known = [of.name for of in classes]
        raise SourceError('there is no class or layer `%s`%s' % (name, nearest(name, known) or '; there are ' + ', '.join(known)))
    return found


def check_field(field: str, classes: list[Class]) -> None:
    """Raises a SourceError where none of the classes has the field."""
    known = sorted({each for of in classes for each in of.layer.fields})
    if field not in known:
        raise SourceError('there is no field `%s`%s' % (field, nearest(field, known) or '; there are ' + ', '.join(known)))


def columns_of(classes: list[Class], asked: list[str]) -> list[str]:
    """The fields that the table has in columns of their own; a SourceError where no layer has one, or the table has a column of this name."""
    for field in asked:
        check_field(field, classes)
        if field in COLUMNS:
            raise SourceError('the table has a column `%s` of its own' % field)
    return list(dict.fromkeys(asked))


def id_fields(classes: list[Class], asked: list[list[str]], option: str = 'id') -> dict[str, str]:
    """The field of the ids of each class, by the class's name, as `--id FIELD` says of all classes and `--id CLASS FIELD` of one; of another
    option the fields of that. Tells of classes that have none of theirs."""
    fields: dict[str, str] = {}
    for words in sorted(asked, key=len):
        if len(words) > 2:
            raise SourceError('`--%s %s`: it takes a field, or a class or layer and its field' % (option, ' '.join(words)))
        of_words = named_classes(classes, words[0]) if len(words) == 2 else classes
        check_field(words[-1], of_words)
        fields.update({of.name: words[-1] for of in of_words})
    for of in classes:
        if of.name in fields and fields[of.name] not in of.layer.fields:
            say('layer %s: it has no field %s' % (of.layer.name, fields[of.name]))
    return fields


def subtypes_of(classes: list[Class], words: argparse.Namespace) -> Subtypes:
    """The subtypes that `--subtype` asks for; words have the numbers that they had in the script of `--subtypes-of`."""
    earlier = {}
    if words.subtypes_of:
        with open(words.subtypes_of, encoding='utf-8', errors='replace') as script:
            earlier = numbers_in(line.rstrip('\r\n') for line in script)
    return Subtypes(classes, id_fields(classes, words.subtype, 'subtype'), earlier)


def layers_asked(words: argparse.Namespace) -> list[str]:
    """The words of `--layer`, and where there are some, the layers of `--outline` too."""
    return words.layer + [layer for layer, _ in words.outline if words.layer and layer not in words.layer]


def rule_lines(words: argparse.Namespace, classes: list[Class], subtypes: Subtypes) -> list[str]:
    """The lines of the rules that are asked for; each outline is to be covered by the class that it is of."""
    outlines = [[COVERED, named_classes(classes, layer)[0].name, of_class] for layer, of_class in words.outline]
    return [rule_line(rule, {of.name: of.kind for of in classes}, subtypes.side) for rule in words.rule + outlines]


def reading_words(parser: argparse.ArgumentParser, needs_grid: bool = True) -> None:
    """The arguments of a tool that reads sources, which needs a grid or has kept one."""
    again = '; may be given more than once'
    parser.add_argument('source', nargs='*', help='a file, a folder of Shapefiles, or PG:dbname=..; at least one')
    parser.add_argument('--grid', required=needs_grid, metavar='R', help='the resolution, in units of the source: 0.001, 0.01, ..')
    parser.add_argument('--layer', action='append', default=[], metavar='NAME', 
                        help='only this layer; as LAYER=CLASS into this class, into which several layers and files may go' + again)
    parser.add_argument('--origin', nargs=2, metavar=('X', 'Y'), help='where unit (0, 0) lies; otherwise near the middle of the extent')
    parser.add_argument('--rule', action='append', default=[], nargs='+', metavar='WORD', help='WORD ORIGIN [DEST]: puts a rule in force' + again)
    parser.add_argument('--outline', action='append', default=[], nargs=2, metavar=('LAYER', 'CLASS'),
                        help='a layer of polygons that CLASS has to cover: what is left uncovered is an error, with its area' + again)
    parser.add_argument('--field', action='append', default=[], metavar='FIELD', help='a field whose texts the table has in a column of their own' + again)
    parser.add_argument('--id', action='append', default=[], nargs='+', metavar='WORD',
                        help="[CLASS] FIELD: the field by which you know a feature, such as a parcel's number; of one class or layer, or of "
                             'all others' + again)
    parser.add_argument('--subtype', action='append', default=[], nargs='+', metavar='WORD',
                        help='[CLASS] FIELD: the field that has the subtype of a feature: a number from 0 to 255, or a word, which gets a number'
                             + again)
    parser.add_argument('--subtypes-of', metavar='SCRIPT', help='words get the numbers that this earlier script says')
    parser.add_argument('--linearize', default='', metavar='DISTANCE',
                        help='makes lines of curves, nowhere farther from them than this, in units of the source; otherwise curves are left out')
    parser.add_argument('--degrees', action='store_true', help='takes a source whose coordinates are degrees, and so is the grid')
    parser.add_argument('--table', metavar='FILE', help='a table of features and handles, as CSV')
    parser.add_argument('--safe', action='store_true', help="in the table a ' before each cell that a spreadsheet may take for a formula")
    parser.add_argument('--timeout', type=float, default=SECONDS, metavar='SECONDS',
                        help='gives up where the source gives nothing for so long: %d where it is left out; 0 waits for ever' % SECONDS)


def distance_of(text: str) -> float:
    """The distance of `--linearize`; 0 where it is left out. A GridError where it is none."""
    distance = float(exact(text)) if text else 0.0
    if text and not distance > 0:
        raise GridError('--linearize is a distance over 0')
    return distance


def converter_on(grid: Grid, linearize: str, is_bounded: bool = True) -> Converter:
    """What makes shapes on this grid: of many features at once where sources are read through GDAL's bindings."""
    distance = distance_of(linearize)
    if has_vectors():
        from .vectors import VectorConverter
        return VectorConverter(grid, is_bounded, distance)
    return Converter(grid, is_bounded, distance)


def arrivals(classes: list[Class], converter: Converter, ids: dict[str, str], report: Report, subtypes: Subtypes,
             columns: Iterable[str] = ()) -> Iterator[Arrival]:
    """The shapes of all features in the order of their handles, with the ids of these fields by class, and the texts of these columns; what has
    no shape is told in the report."""
    handle = 1
    for of in classes:
        for batch in batches_of(of.layer, ids.get(of.name), subtypes.fields.get(of.name), columns):
            for feature, outcome in zip(batch.features, converter.outcomes(batch.geometries, of.kind)):
                if isinstance(outcome, LeftOut):
                    report.leave_out(of, feature, str(outcome))
                    continue
                for taken in outcome:
                    arrival = Arrival(of, feature, taken, handle, subtypes.number(of.name, feature.subtype))
                    report.take(arrival)
                    yield arrival
                    handle += 1
            report.count(len(batch.features))
