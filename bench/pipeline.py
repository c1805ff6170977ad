#!/usr/bin/env python3
"""Measures the way from a GeoPackage of parcels to a GeoPackage of their errors, step by step, and whether planted faults are found.

usage: bench/pipeline.py [--sizes N,N,..] [--program WORDS] [--grid R] [--tiles N] [--peers NAME,..] [--others]

  --sizes N,..     about how many parcels: 10000,100000 where it is left out; 1000000 goes in tiles
  --program WORDS  the program that replays, in place of the one that ./topo builds
  --grid R         the resolution in metres (0.001)
  --tiles N        goes by so many tiles at each size; without it only sizes whose script is too large for one run do, by 16
  --peers NAME,..  the same by PostGIS, Shapely, GRASS, as far as they are installed; `all` takes the three. PostgreSQL is begun for it
  --others         also what the other tools take: a report, the merged errors of tiles, and of one run the page of `draw`

A parcel has 8 to 40 vertices; its sides wind, and neighbours share them. Of each thousand parcels one reaches into the next, one stands back
from it, and one was entered twice. The rules are that parcels must not overlap and must not have gaps. A fault is found if there is an error of
the two parcels, or one of gaps at the place. Time is processor time, user and system together, of a step and of all processes that it began;
memory is the peak of its largest process. `in` is the source, `out` the layers of errors. Needs gdal-bin.
"""
from __future__ import annotations

import argparse
import glob
import json
import math
import os
import random
import shlex
import subprocess
import sys
import tempfile
from typing import Iterator, NamedTuple

sys.dont_write_bytecode = True
from peers import PEERS
from steps import GAPS, OVERLAPS, Found, Frame, Place, Step, found_by_topo, measured, print_steps

ROOT = os.path.dirname(os.path.dirname(os.path.abspath(__file__)))
TOOLS = os.path.join(ROOT, 'tools')
EAST, NORTH, WIDE, HIGH = 3499000.0, 5412000.0, 24, 25
REACHES, STANDS_BACK, TWICE = 107, 507, 757
DEPTH = 3
# So many parcels make a script that is too large for one run.
TOO_MANY = 700000


class Faults(NamedTuple):
    """The planted faults: pairs of parcels that overlap, and places of gaps."""

    pairs: set[tuple[str, str]]
    places: list[Place]


class Parcels:
    """Parcels on a lattice of so many rows and columns. Corners lie off their places, sides wind, and both are shared."""

    def __init__(self, rows: int) -> None:
        self.rows, self.lot = rows, random.Random(rows)
        self.corners = {(i, j): self.corner(i, j) for i in range(rows + 1) for j in range(rows + 1)}
        self.across = {(i, j): self.side(self.corners[i, j], self.corners[i + 1, j]) for i in range(rows) for j in range(rows + 1)}
        self.up = {(i, j): self.side(self.corners[i, j], self.corners[i, j + 1]) for i in range(rows + 1) for j in range(rows)}
        self.faults = Faults(set(), [])

    def corner(self, i: int, j: int) -> Place:
        return round(EAST + WIDE * i + self.lot.uniform(-3, 3), 3), round(NORTH + HIGH * j + self.lot.uniform(-3, 3), 3)

    def side(self, a: Place, b: Place) -> list[Place]:
        """The vertices between two corners: one to nine, each a little off the straight line."""
        count, dx, dy = self.lot.randint(1, 9), b[0] - a[0], b[1] - a[1]
        offs = [self.lot.uniform(-0.6, 0.6) / math.hypot(dx, dy) for _ in range(count)]
        return [(round(a[0] + k / (count + 1) * dx - dy * off, 3), round(a[1] + k / (count + 1) * dy + dx * off, 3)) for k, off in enumerate(offs, 1)]

    def ring(self, i: int, j: int) -> list[Place]:
        corners, across, up = self.corners, self.across, self.up
        return [corners[i, j], *across[i, j], corners[i + 1, j], *up[i + 1, j], corners[i + 1, j + 1], *across[i, j + 1][::-1],
                corners[i, j + 1], *up[i, j][::-1]]

    def features(self) -> Iterator[tuple[str, list[Place]]]:
        """The names of the parcels and their rings, the faults among them."""
        for number in range(self.rows ** 2):
            j, i = divmod(number, self.rows)
            name, ring = '%d/%d' % (j, i), self.ring(i, j)
            kind = number % 1000
            if j and kind in (REACHES, STANDS_BACK):
                self.faults.pairs.update([(name, '%d/%d' % (j - 1, i))] if kind == REACHES else [])
                self.faults.places.extend([ring[1]] if kind == STANDS_BACK else [])
                ring[1] = ring[1][0], round(ring[1][1] + (DEPTH if kind == STANDS_BACK else -DEPTH), 3)
            yield name, ring
            if kind == TWICE:
                self.faults.pairs.add((name, name + 'a'))
                yield name + 'a', ring


def write_source(parcels: Parcels, path: str) -> None:
    """Writes the parcels as a GeoPackage."""
    with open(path + '.geojsonl', 'w', encoding='utf-8') as out:
        for name, ring in parcels.features():
            geometry = {'type': 'Polygon', 'coordinates': [ring + ring[:1]]}
            out.write(json.dumps({'type': 'Feature', 'properties': {'parcel': name}, 'geometry': geometry}) + '\n')
    subprocess.run(['ogr2ogr', '-f', 'GPKG', '-a_srs', 'EPSG:31467', '-nln', 'parcels', path, path + '.geojsonl'], check=True)
    os.remove(path + '.geojsonl')


def tool(name: str) -> str:
    return os.path.join(TOOLS, name)


def reading_words(source: str, grid: str) -> list[str]:
    return [source, '--grid', grid, '--id', 'parcel', '--rule', OVERLAPS, 'parcels', '--rule', GAPS, 'parcels']


def replayed(program: list[str], script: str) -> Step:
    with open(script, 'rb') as lines, open(script[:-len('topo')] + 'replies', 'wb') as replies:
        return measured('replay', [*program, 'replay'], lines, replies)


def whole(folder: str, program: list[str], grid: str) -> Iterator[Step]:
    """The steps of one run."""
    source, script, out = (os.path.join(folder, name) for name in ('in.gpkg', 'all.topo', 'out.gpkg'))
    with open(script, 'wb') as lines:
        yield measured('from-ogr', [tool('from-ogr'), *reading_words(source, grid)], out=lines)
    yield replayed(program, script)
    yield measured('to-gis', [tool('to-gis'), script, script[:-len('topo')] + 'replies', out])


def in_tiles(folder: str, program: list[str], grid: str, tiles: int) -> Iterator[Step]:
    """The steps of a run by tiles."""
    source, into, out = (os.path.join(folder, name) for name in ('in.gpkg', 'tiles', 'out.gpkg'))
    yield measured('tiles split, %d' % tiles, [tool('tiles'), 'split', *reading_words(source, grid), '--tiles', str(tiles), '--into', into])
    steps = [replayed(program, script) for script in sorted(glob.glob(os.path.join(into, '*.topo')))]
    yield Step('replays, one at a time', sum(step.seconds for step in steps), max(step.memory for step in steps), sum(step.clock for step in steps))
    yield measured('to-gis', [tool('to-gis'), into, out])


def near(place: Place, frame: Frame) -> bool:
    return frame[0] - 1 <= place[0] <= frame[2] + 1 and frame[1] - 1 <= place[1] <= frame[3] + 1


def counts(faults: Faults, found: Found) -> tuple[int, int]:
    """How many of the planted overlaps and gaps were found."""
    frames: dict[tuple[int, int], list[Frame]] = {}
    for frame in found.frames:
        for x in range(int(frame[0]) // WIDE - 1, int(frame[2]) // WIDE + 2):
            for y in range(int(frame[1]) // WIDE - 1, int(frame[3]) // WIDE + 2):
                frames.setdefault((x, y), []).append(frame)
    pairs = sum(pair in found.pairs or pair[::-1] in found.pairs for pair in faults.pairs)
    return pairs, sum(any(near(place, frame) for frame in frames.get((int(place[0]) // WIDE, int(place[1]) // WIDE), ())) for place in faults.places)


def has_all(faults: Faults, found: Found) -> bool:
    return counts(faults, found) == (len(faults.pairs), len(faults.places))


def told(faults: Faults, found: Found) -> str:
    """How many of the faults were found."""
    pairs, places = counts(faults, found)
    return 'overlaps %d of %d planted, gaps %d of %d; all in all %d and %d' % (
        pairs, len(faults.pairs), places, len(faults.places), len(found.pairs), len(found.frames))


def beside(folder: str, program: list[str], tiles: int) -> tuple[list[Step], str]:
    """What the other tools take with the same script or tiles and their replies, and how large the page is."""
    of = os.path.join(folder, 'tiles') if tiles else os.path.join(folder, 'all.topo')
    replies = [] if tiles else [os.path.join(folder, 'all.replies')]
    steps = [measured('report', [tool('report'), of, *replies])]
    if tiles:
        return steps + [measured('tiles merge', [tool('tiles'), 'merge', of])], 'by %d tiles' % tiles
    page = os.path.join(folder, 'page.html')
    steps.append(measured('draw --html, with its replay', [tool('draw'), '--html', shlex.join(program), of, page]))
    return steps, 'the page has %.1f MB' % (os.path.getsize(page) / 1e6)


def beside_by_peers(folder: str, wanted: list[str], name: str, faults: Faults) -> None:
    """The tables of those who are wanted and installed."""
    for peer in PEERS:
        if peer.name.lower() not in wanted and 'all' not in wanted:
            continue
        if peer.missing():
            print('%s is left out without %s\n' % (peer.name, peer.missing()), flush=True)
            continue
        steps, found = peer.way(folder)
        print_steps('%s, %s' % (name, peer.name), steps, told(faults, found))
        for path in glob.glob(os.path.join(folder, 'peer.gpkg*')):
            os.remove(path)


def measure(size: int, words: argparse.Namespace) -> bool:
    """The tables of a size; whether all faults were found."""
    parcels = Parcels(round(size ** 0.5))
    name = '%s parcels' % format(parcels.rows ** 2, ',')
    with tempfile.TemporaryDirectory() as folder:
        write_source(parcels, os.path.join(folder, 'in.gpkg'))
        tiles = words.tiles or (16 if size > TOO_MANY else 0)
        steps = list(in_tiles(folder, words.program, words.grid, tiles) if tiles else whole(folder, words.program, words.grid))
        found = found_by_topo(os.path.join(folder, 'out.gpkg'))
        print_steps(name, steps, told(parcels.faults, found))
        if words.others:
            more, said = beside(folder, words.program, tiles)
            print_steps(name + ', other tools', more, said, has_sum=False)
        beside_by_peers(folder, words.peers.lower().split(','), name, parcels.faults)
    return has_all(parcels.faults, found)


def main() -> int:
    parser = argparse.ArgumentParser(description=__doc__, formatter_class=argparse.RawDescriptionHelpFormatter, usage=argparse.SUPPRESS)
    parser.add_argument('--sizes', default='10000,100000', help=argparse.SUPPRESS)
    parser.add_argument('--program', help=argparse.SUPPRESS)
    parser.add_argument('--grid', default='0.001', help=argparse.SUPPRESS)
    parser.add_argument('--tiles', type=int, default=0, help=argparse.SUPPRESS)
    parser.add_argument('--peers', default='', help=argparse.SUPPRESS)
    parser.add_argument('--others', action='store_true', help=argparse.SUPPRESS)
    words = parser.parse_args()
    words.program = shlex.split(words.program) if words.program else [os.path.join(ROOT, 'topo')]
    return 0 if all([measure(int(size), words) for size in words.sizes.split(',')]) else 1


if __name__ == '__main__':
    sys.exit(main())
