"""Where errors come from: the tables of topo-postgis, or the layers that topo-to-gis wrote."""
from __future__ import annotations

import os
from typing import Any, Iterable, Optional

from qgis.core import (QgsAbstractDatabaseProviderConnection, QgsDataSourceUri, QgsFeature, QgsFeatureRequest, QgsProject, QgsProviderRegistry, QgsRectangle,
                       QgsVectorLayer, QgsWkbTypes)

from .rows import Row, Spot
from .styles import style_area, style_errors

KINDS = {'polygons': QgsWkbTypes.MultiPolygon, 'lines': QgsWkbTypes.MultiLineString, 'points': QgsWkbTypes.MultiPoint}
WITHOUT_GEOMETRY = QgsFeatureRequest().setFlags(QgsFeatureRequest.NoGeometry)
ERRORS = ['rule', 'subject', 'partner', 'mark', 'note']
DIRTY = ['dirty area']
HELD = ['class', 'row', 'held by', 'with', 'since']
LEFT_OUT = ['class', 'row', 'why']


class SourceError(Exception):
    """What cannot be shown; the text says why."""


def text_of(value: object) -> str:
    """A value of an attribute; nothing for NULL."""
    return '' if value is None or str(value) == 'NULL' else str(value)


def whole(of_class: str, key: str) -> str:
    return ('%s %s' % (of_class, key)).strip()


class Source:
    """Layers of errors by their kind, and others by what they show."""

    def __init__(self) -> None:
        self.errors: dict[str, QgsVectorLayer] = {}
        self.others: dict[str, QgsVectorLayer] = {}

    def layers(self) -> list[QgsVectorLayer]:
        return [*self.errors.values(), *self.others.values()]

    def style(self) -> None:
        for layer in self.errors.values():
            style_errors(layer)
        for name, colour, style in (('dirty', '#a87900', 'b_diagonal'), ('refused', '#7000c0', 'cross'), ('held', '#2f5f9e', 'dense6')):
            if name in self.others:
                style_area(self.others[name], colour, style)

    def name_of(self, feature: QgsFeature) -> Any:
        """By what an error is known, whichever layer it is in."""
        raise NotImplementedError

    def error_texts(self, feature: QgsFeature) -> tuple[str, ...]:
        raise NotImplementedError

    def error_rows(self) -> list[Row]:
        """The errors, each once, also if it has places in several layers."""
        found: dict = {}
        for layer in self.errors.values():
            for feature in layer.getFeatures(WITHOUT_GEOMETRY):
                name, spot = self.name_of(feature), Spot(layer, feature.id())
                if name in found:
                    found[name].spots.append(spot)
                else:
                    found[name] = Row(self.error_texts(feature), [spot], feature['mark'] == 'exception', name)
        return [found[name] for name in sorted(found)]

    def plain_rows(self, name: str, fields: Iterable[str]) -> list[Row]:
        """The rows of another layer."""
        layer = self.others.get(name)
        if layer is None:
            return []
        return [Row(tuple(text_of(feature[field]) for field in fields), [Spot(layer, feature.id())]) for feature in layer.getFeatures(WITHOUT_GEOMETRY)]

    def status(self) -> str:
        """How the source stands, in a line; empty where there is nothing to say."""
        return ''

    def validate(self, window: QgsRectangle) -> None:
        """Asks for a validation of a window, in the coordinates of the layers."""
        raise SourceError('only a service can validate: run the algorithm Check again')

    def mark(self, rows: list[Row], mark: str, note: str) -> str:
        """Makes errors exceptions, or exceptions errors; what there is to say of it."""
        raise NotImplementedError


class Tables(Source):
    """The tables of topo-postgis, by a connection of QGIS."""

    def __init__(self, connection: QgsAbstractDatabaseProviderConnection) -> None:
        super().__init__()
        self.connection = connection
        self.sql('select 1 from topo.setting')
        for kind, of in KINDS.items():
            self.errors[kind] = self.layer('error_' + kind, 'error', kind, 'id', of, '"%s" is not null' % kind)
        for name, table, key in (('dirty', 'dirty', 'number'), ('refused', 'refused', 'class,key')):
            self.others[name] = self.layer(name, table, 'place', key, QgsWkbTypes.Polygon, '')
        if self.sql("select 1 from pg_views where schemaname = 'topo' and viewname = 'held'"):
            self.others['held'] = self.layer('held', 'held', 'place', 'number', QgsWkbTypes.Polygon, '')
        self.style()

    def sql(self, text: str) -> list:
        """The rows of a statement; a SourceError with what the database says."""
        try:
            return self.connection.executeSql(text)
        except Exception as fault:                         # QgsProviderConnectionException is not the same class in all versions
            said = str(fault).strip().split('\n')[0]
            raise SourceError(said or type(fault).__name__) from None

    def layer(self, name: str, table: str, column: str, key: str, kind: QgsWkbTypes.Type, condition: str) -> QgsVectorLayer:
        uri = QgsDataSourceUri(self.connection.uri())
        uri.setDataSource('topo', table, column, condition, key)
        uri.setWkbType(kind)
        uri.setSrid(str(self.sql('select srid from topo.setting')[0][0]))
        layer = QgsVectorLayer(uri.uri(False), name, 'postgres')
        if not layer.isValid():
            raise SourceError('the table topo.%s cannot be shown: %s' % (table, layer.dataProvider().error().message() if layer.dataProvider() else 'no provider'))
        return layer

    def name_of(self, feature: QgsFeature) -> int:
        return feature['id']

    def error_texts(self, feature: QgsFeature) -> tuple[str, ...]:
        return (feature['word'], whole(feature['class'], feature['subject_id']), whole(feature['other_class'], feature['other_id']) if feature['other_id'] else '',
                feature['mark'], text_of(feature['note']))

    def status(self) -> str:
        running, at, waiting, note = self.sql("select running, to_char(at, 'HH24:MI:SS'), waiting, note from topo.status")[0]
        said = ['judged as of %s' % text_of(at), '%s changes wait' % waiting] + (['it waits: ' + note] if text_of(note) else [])
        return ('' if running in (True, 't', 'true') else 'NO SERVICE RUNS, ') + ', '.join(said)

    def validate(self, window: QgsRectangle) -> None:
        self.sql('select topo.validate(%r, %r, %r, %r)' % (window.xMinimum(), window.yMinimum(), window.xMaximum(), window.yMaximum()))

    def mark(self, rows: list[Row], mark: str, note: str) -> str:
        numbers = ', '.join(str(int(row.name)) for row in rows)
        self.sql("update topo.error set mark = '%s', note = '%s' where id in (%s)" % (mark, note.replace("'", "''"), numbers))
        return ''


class Written(Source):
    """The layers of the project that topo-to-gis wrote. What is marked there stands in the layers, and in lines for a script."""

    def __init__(self) -> None:
        super().__init__()
        named = lambda name: QgsProject.instance().mapLayersByName(name)
        for kind in KINDS:
            for layer in named('error_' + kind)[:1]:
                self.errors[kind] = layer
        for layer in named('dirty')[:1]:
            self.others['dirty'] = layer
        if not self.errors:
            raise SourceError('the project has no layer error_polygons, error_lines or error_points')
        self.style()

    def name_of(self, feature: QgsFeature) -> tuple[int, int, int]:
        return int(feature['rule']), int(feature['subject']), int(feature['other'])

    def error_texts(self, feature: QgsFeature) -> tuple[str, ...]:
        key = lambda of: text_of(feature[of + '_id']) or text_of(feature[of])
        return feature['word'], whole(feature['class'], key('subject')), whole(feature['other_class'], key('other')) if feature['other'] else '', feature['mark'], ''

    def lines_file(self) -> Optional[str]:
        """Where the lines of marks go: beside the file of the layers."""
        path = next(iter(self.errors.values())).source().split('|')[0]
        return os.path.splitext(path)[0] + '.marks' if os.path.exists(path) else None

    def mark(self, rows: list[Row], mark: str, note: str) -> str:
        word = 'mark' if mark == 'exception' else 'unmark'
        for layer in self.errors.values():
            numbers = [spot.number for row in rows for spot in row.spots if spot.layer is layer]
            if numbers and not layer.dataProvider().changeAttributeValues({number: {layer.fields().indexOf('mark'): mark} for number in numbers}):
                raise SourceError('the layer %s cannot be written' % layer.name())
            layer.triggerRepaint()
        path = self.lines_file()
        if path is None:
            return ''
        with open(path, 'a', encoding='ascii') as lines:
            lines.write(''.join('%s %d %d %d\n' % (word, *row.name) for row in rows))
        return 'append %s to the script, before its listings' % path


def connection_of(name: str) -> QgsAbstractDatabaseProviderConnection:
    """A connection that QGIS knows by this name."""
    metadata = QgsProviderRegistry.instance().providerMetadata('postgres')
    if name not in metadata.connections(False):            # read anew: it may be younger than the window
        raise SourceError('QGIS has no connection %s' % name)
    return metadata.findConnection(name, False)


def connection_names() -> list[str]:
    metadata = QgsProviderRegistry.instance().providerMetadata('postgres')
    return sorted(metadata.connections()) if metadata else []
