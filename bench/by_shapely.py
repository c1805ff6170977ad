#!/usr/bin/python3
"""Finds overlaps and gaps of parcels by Shapely. What bench/pipeline.py measures beside topo.

usage: bench/by_shapely.py IN.gpkg OUT.gpkg
"""
from __future__ import annotations

import argparse
import warnings
from typing import Any, Iterable

parser = argparse.ArgumentParser(description=__doc__, formatter_class=argparse.RawDescriptionHelpFormatter, usage=argparse.SUPPRESS)
parser.add_argument('source', help=argparse.SUPPRESS)
parser.add_argument('out', help=argparse.SUPPRESS)
GIVEN = parser.parse_args()

# After the words, so that `--help` needs none of these.
import numpy
import shapely
from osgeo import gdal, ogr
from shapely import wkb
from shapely.ops import unary_union
from shapely.strtree import STRtree

INTERIORS_MEET = 'T********'
IS_NEW = int(shapely.__version__.split('.')[0]) >= 2
gdal.UseExceptions()
warnings.simplefilter('ignore')


def read(path: str) -> tuple[list[str], list[Any]]:
    """The names of the parcels, and their shapes."""
    names, texts, source = [], [], ogr.Open(path)
    for batch in source.GetLayer(0).GetArrowStreamAsNumPy(options=['USE_MASKED_ARRAYS=NO']):
        names += list(batch['parcel'])
        texts += list(batch['geom'])
    names = [name.decode() if isinstance(name, bytes) else name for name in names]
    return names, list(shapely.from_wkb(texts)) if IS_NEW else [wkb.loads(bytes(text)) for text in texts]


def overlaps(shapes: list[Any]) -> list[tuple[int, int, Any]]:
    """The numbers of two shapes whose insides meet, and what they share."""
    tree = STRtree(shapes)
    if IS_NEW:
        of = numpy.array(shapes)
        first, second = tree.query(of)
        first, second = first[first < second], second[first < second]
        meet = shapely.relate_pattern(of[first], of[second], INTERIORS_MEET)
        return list(zip(first[meet], second[meet], shapely.intersection(of[first[meet]], of[second[meet]])))
    return [(i, j, shape.intersection(shapes[j])) for i, shape in enumerate(shapes) for j in tree.query_items(shape)
            if i < j and shape.relate_pattern(shapes[j], INTERIORS_MEET)]


def gaps(shapes: list[Any]) -> list[Any]:
    """The rings of what all cover together that are not its shells."""
    whole = unary_union(shapes)
    return [ring for part in getattr(whole, 'geoms', [whole]) for ring in part.interiors]


def layer_of(target: Any, name: str, fields: Iterable[str], crs: Any) -> Any:
    layer = target.CreateLayer(name, crs, ogr.wkbUnknown, ['GEOMETRY_NAME=geom'])
    for field in fields:
        layer.CreateField(ogr.FieldDefn(field, ogr.OFTString))
    return layer


def put(layer: Any, shape: Any, texts: Iterable[str] = ()) -> None:
    feature = ogr.Feature(layer.GetLayerDefn())
    feature.SetGeometryDirectly(ogr.CreateGeometryFromWkb(shape.wkb))
    for number, text in enumerate(texts):
        feature.SetField(number, text)
    layer.CreateFeature(feature)


def main() -> None:
    source, out = GIVEN.source, GIVEN.out
    names, shapes = read(source)
    opened, target = ogr.Open(source), ogr.GetDriverByName('GPKG').CreateDataSource(out)
    crs = opened.GetLayer(0).GetSpatialRef()
    pairs = layer_of(target, 'found_overlaps', ('subject_id', 'other_id'), crs)
    for i, j, shared in overlaps(shapes):
        put(pairs, shared, (names[i], names[j]))
    rings = layer_of(target, 'found_gaps', (), crs)
    for ring in gaps(shapes):
        put(rings, ring)
    target.FlushCache()


main()
