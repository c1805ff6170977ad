"""The town of bench/town.py as a GeoPackage with layers, in Gauss-Krueger coordinates and centimetres: parcels, easements, wells, taps, streets, kerbs."""
from __future__ import annotations

import json
import os
import subprocess
import sys
from typing import Iterator, Sequence

ROOT = os.path.dirname(os.path.dirname(os.path.dirname(os.path.abspath(__file__))))
sys.path.append(os.path.join(ROOT, 'bench'))

from town import Town  # noqa: E402

EAST, NORTH = 349925013, 541230002
ORIGIN = '3499250.13', '5412300.02'


def wells(town: Town) -> Iterator[list]:
    """A well on each tenth parcel; each fifth of them was drilled twice."""
    for number in range(0, town.rows ** 2, 10):
        x, y = town.parcel(number)[0]
        yield [x + 20, y + 30]
        if number % 50 == 0:
            yield [x + 20, y + 30]


def streets(town: Town) -> Iterator[list]:
    """A line along the front of five parcels each, from corner to corner, at which the next one begins."""
    for number in range(0, town.rows ** 2 - 4, 5):
        row, column = divmod(number, town.rows)
        line = town.line(row, row % 2)
        yield [town.corner(line, 2 * column + half) for half in range(0, 11)]


def moved(shape: Sequence) -> list:
    """A list of places, or of such lists, in metres of the source."""
    if isinstance(shape[0], int):
        return [(EAST + shape[0]) / 100, (NORTH + shape[1]) / 100]
    return [moved(each) for each in shape]


def layers_of(town: Town) -> dict[str, tuple[str, list]]:
    """The layers by their names: the type of a layer, and its shapes."""
    count = town.rows ** 2
    closed = lambda ring: [ring + ring[:1]]
    return {'parcels': ('Polygon', [closed(town.parcel(n)) for n in range(count)]),
            'easements': ('Polygon', [closed(town.easement(n)) for n in range(0, count, 5)]),
            'wells': ('Point', list(wells(town))), 'taps': ('Point', list(wells(town))[::7]),
            'streets': ('LineString', list(streets(town))), 'kerbs': ('LineString', list(streets(town))[::11])}


def write_town(rows: int, path: str) -> None:
    """Writes the town of so many rows as a GeoPackage."""
    for name, (kind, shapes) in layers_of(Town(rows)).items():
        features = [{'type': 'Feature', 'properties': {'nr': '%s %d' % (name, n)}, 'geometry': {'type': kind, 'coordinates': moved(shape)}}
                    for n, shape in enumerate(shapes, 1)]
        with open(path + '.geojson', 'w', encoding='utf-8') as out:
            json.dump({'type': 'FeatureCollection', 'name': name, 'features': features}, out)
        words = ['ogr2ogr', '-f', 'GPKG', '-a_srs', 'EPSG:31467', '-nln', name, path, path + '.geojson']
        subprocess.run(words + (['-update'] if os.path.exists(path) else []), check=True)
    os.remove(path + '.geojson')


if __name__ == '__main__':
    write_town(int(sys.argv[1]), sys.argv[2])
