"""Sources read through GDAL's own bindings."""
from __future__ import annotations

import json
import os
from typing import Iterator, Optional, Union

from osgeo import gdal, ogr

from .drivers import SETTINGS, drivers_for, path_of
from .ogr import BATCH, Batch, Feature, Layer, SourceError, crs_of, extent_of, features_of, type_of

# Faults are asked for: a feature that GDAL cannot read is one without a geometry, and no end of all reading.
gdal.DontUseExceptions()
ogr.DontUseExceptions()
gdal.PushErrorHandler('CPLQuietErrorHandler')
for setting in SETTINGS.items():
    gdal.SetConfigOption(*setting)

LISTS = {ogr.OFTIntegerList, ogr.OFTInteger64List, ogr.OFTRealList, ogr.OFTStringList}
# The types of fields whose numbers and texts come through a stream as a feature would say them.
STREAMED = {(ogr.OFTString, ogr.OFSTNone), (ogr.OFTInteger, ogr.OFSTNone), (ogr.OFTInteger64, ogr.OFSTNone)}


def opened(source: str) -> gdal.Dataset:
    flags = gdal.OF_VECTOR | gdal.OF_READONLY | gdal.OF_VERBOSE_ERROR
    gdal.ErrorReset()
    dataset = gdal.OpenEx(os.fsencode(path_of(source)), flags, allowed_drivers=drivers_for(source))
    if dataset is None:
        raise SourceError('GDAL cannot open this source: %s' % gdal.GetLastErrorMsg())
    return dataset


def text_of(value: Union[bytes, str, int, None]) -> str:
    """A name or an id as text; what is no UTF-8 is replaced."""
    if isinstance(value, str) and not value.isascii():
        value = value.encode('utf-8', 'surrogateescape') if '\udc80' <= max(value) <= '\udcff' else value.encode('utf-8', 'replace')
    if isinstance(value, bytes):
        return value.decode('utf-8', 'replace')
    return '' if value is None else str(value)


def layer_names(source: str) -> list[str]:
    dataset = opened(source)
    return [text_of(dataset.GetLayer(number).GetName()) for number in range(dataset.GetLayerCount())]


def fields_of(layer: ogr.Layer) -> list[ogr.FieldDefn]:
    head = layer.GetLayerDefn()
    return [head.GetFieldDefn(number) for number in range(head.GetFieldCount())]


def layer_of(source: str, number: int, name: str) -> Layer:
    dataset = opened(source)
    layer = dataset.GetLayer(number)
    kind = type_of(ogr.GeometryTypeToName(layer.GetGeomType()))
    crs, count = layer.GetSpatialRef(), layer.GetFeatureCount()
    sides = layer.GetExtent(can_return_null=True) if kind != 'NONE' and count else None
    text = crs.ExportToWkt(['FORMAT=WKT2_2019', 'MULTILINE=YES']) if crs else ''
    extent = extent_of(sides[0], sides[2], sides[1], sides[3]) if sides else None
    return Layer(source, number, name, kind, count, extent, crs_of(text), [text_of(field.GetName()) for field in fields_of(layer)])


def batches_of(layer: Layer, asked: list[Optional[str]]) -> Iterator[Batch]:
    """The features with the texts of the fields that are asked for."""
    dataset = opened(layer.source)
    of = dataset.GetLayer(layer.number)
    fields = fields_of(of)
    wanted = [layer.fields.index(name) if name is not None else -1 for name in asked]
    of.SetIgnoredFields([field.GetName() for number, field in enumerate(fields) if number not in wanted])
    gdal.ErrorReset()
    is_plain = is_streamed(of, [fields[number] for number in wanted if number >= 0])
    count = 0
    for batch in streamed(of, [fields[number].GetName() if number >= 0 else '' for number in wanted]) if is_plain else one_by_one(of, fields, wanted):
        count += len(batch.features)
        yield batch
    if gdal.GetLastErrorType() >= gdal.CE_Failure and count < layer.count:
        raise SourceError('GDAL: %s' % gdal.GetLastErrorMsg())


def columns_of(layer: ogr.Layer) -> tuple[str, str]:
    """The columns of a stream that have the numbers and the geometries."""
    return layer.GetFIDColumn() or 'OGC_FID', layer.GetGeometryColumn() or 'wkb_geometry'


def is_streamed(layer: ogr.Layer, fields: list[ogr.FieldDefn]) -> bool:
    """Whether the features come through a stream of columns, each of which has another name."""
    if not hasattr(layer, 'GetArrowStreamAsNumPy') or layer.GetLayerDefn().GetGeomFieldCount() != 1:
        return False
    names = [name.lower() for name in columns_of(layer)] + [field.GetName().lower() for field in fields]
    return len(set(names)) == len(names) and all((field.GetType(), field.GetSubType()) in STREAMED for field in fields)


def streamed(layer: ogr.Layer, names: list[str]) -> Iterator[Batch]:
    fid_column, geometry_column = columns_of(layer)
    for columns in layer.GetArrowStreamAsNumPy(options=['MAX_FEATURES_IN_BATCH=%d' % BATCH]):
        fids = columns[fid_column].tolist()
        texts = [map(text_of, columns[name].tolist()) if name else [''] * len(fids) for name in names]
        yield Batch(features_of(fids, *texts), columns[geometry_column].tolist())


def value_text(feature: ogr.Feature, fields: list[ogr.FieldDefn], number: int) -> str:
    """The text of a field of a feature; nothing where there is no such field or no value."""
    if number < 0 or not feature.IsFieldSetAndNotNull(number):
        return ''
    if fields[number].GetType() not in LISTS:
        return text_of(feature.GetFieldAsString(number))
    value = feature.GetField(number)
    return list_text(value) if isinstance(value, list) else text_of(value)


def one_by_one(layer: ogr.Layer, fields: list[ogr.FieldDefn], wanted: list[int]) -> Iterator[Batch]:
    features: list[Feature] = []
    geometries: list[Optional[bytes]] = []
    for feature in layer:
        geometry = feature.GetGeometryRef()
        id, subtype, *more = (value_text(feature, fields, number) for number in wanted)
        features.append(Feature(feature.GetFID(), id, subtype, tuple(more)))
        geometries.append(bytes(geometry.ExportToIsoWkb()) if geometry is not None else None)
        if len(features) == BATCH:
            yield Batch(features, geometries)
            features, geometries = [], []
    if features:
        yield Batch(features, geometries)


def list_text(values: list) -> str:
    """A list as GDAL writes it in JSON."""
    parts = [json.dumps(text_of(value), ensure_ascii=False).replace('/', '\\/') if isinstance(value, str) else
             '%.17g' % value if isinstance(value, float) else str(value) for value in values]
    return '[ %s ]' % ', '.join(parts) if parts else '[ ]'
