"""What a source may be, and which of GDAL's drivers may read it: those that read this file, and no other file and nothing of a network."""
from __future__ import annotations

import os
import re

FILES = {'.gpkg': ['GPKG'], '.shp': ['ESRI Shapefile'], '.dbf': ['ESRI Shapefile'], '.shz': ['ESRI Shapefile'], '.geojson': ['GeoJSON'],
         '.json': ['GeoJSON', 'TopoJSON', 'ESRIJSON', 'GeoJSONSeq'], '.topojson': ['TopoJSON'], '.geojsonl': ['GeoJSONSeq'],
         '.geojsons': ['GeoJSONSeq'], '.ndjson': ['GeoJSONSeq'], '.csv': ['CSV'], '.tsv': ['CSV'], '.gml': ['GML', 'NAS'],
         '.xml': ['GML', 'NAS'], '.kml': ['LIBKML', 'KML'], '.kmz': ['LIBKML'], '.gpx': ['GPX'], '.fgb': ['FlatGeobuf'],
         '.sqlite': ['SQLite'], '.db': ['SQLite'], '.tab': ['MapInfo File'], '.mif': ['MapInfo File'], '.dxf': ['DXF'],
         '.gdb': ['OpenFileGDB'], '.gmt': ['OGR_GMT'], '.jml': ['JML'], '.vfk': ['VFK'], '.itf': ['Interlis 1'], '.xtf': ['Interlis 2'],
         '.parquet': ['Parquet'], '.arrow': ['Arrow'], '.feather': ['Arrow']}
ALL = sorted({driver for drivers in FILES.values() for driver in drivers})
DATABASE = 'PostgreSQL'
CONNECTION = re.compile('PG:', re.I)
ARCHIVE = re.compile('/vsi(?:zip|tar|gzip)/')
OTHER = re.compile('/vsi|[A-Za-z][A-Za-z0-9+._-]+:')
# What drivers that read a file could ask of a network, or of other files, and do not. Tables of SQLite that are virtual could be any other file.
SETTINGS = {'GML_DOWNLOAD_SCHEMA': 'NO', 'GML_SKIP_RESOLVE_ELEMS': 'ALL', 'CPL_VSIL_CURL_ALLOWED_EXTENSIONS': '.none',
            'OGR_SQLITE_LIST_VIRTUAL_OGR': 'NO', 'OGR_SQLITE_STATIC_VIRTUAL_OGR': 'NO', 'SPATIALITE_LOAD': 'NO', 'ENABLE_SQL_LOAD_EXTENSION': 'NO',
            'SQLITE_LIST_ALL_TABLES': 'NO', 'OGR_WKT_PRECISION': '17'}


class DriverError(Exception):
    """A source that is none; its text says why."""


def is_connection(source: str) -> bool:
    """Whether a source is a database that the user asks for."""
    return CONNECTION.match(source) is not None and not os.path.exists(source)


def is_source(word: str) -> bool:
    """Whether a word is the path of a file or folder, or may be meant for a connection."""
    return os.path.exists(word) or OTHER.match(word) is not None


def inner_path(source: str) -> str:
    """The path of the archive, or of what is in it, without the words before it."""
    while ARCHIVE.match(source):
        source = ARCHIVE.sub('', source, count=1)
    return source


def drivers_for(source: str) -> list[str]:
    """The drivers that may read a source, by what its name says. A DriverError where it is no file, folder, archive or PG:.."""
    if is_connection(source):
        return [DATABASE]
    if not os.path.exists(source) and not ARCHIVE.match(source):
        if OTHER.match(source):
            raise DriverError('%s is no source: a source is a file, a folder, or PG:dbname=..' % source.partition(':')[0][:60])
        raise DriverError('there is no file or folder %s' % source)
    path = inner_path(source)
    if OTHER.match(path) and not os.path.exists(path):
        raise DriverError('%s is no archive on this machine' % source)
    end = os.path.splitext(path.rstrip('/'))[1].lower()
    return FILES.get(end, ALL)


def path_of(source: str) -> str:
    """The source as GDAL is given it: a path that no driver takes for a connection or an option."""
    if os.path.isabs(source) or is_connection(source) or ARCHIVE.match(source):
        return source
    return os.path.join('.', source)
