"""The way from a source of parcels to their overlaps and gaps by other programs, where they are installed: PostGIS, Shapely, GRASS."""
from __future__ import annotations

import glob
import os
import pwd
import shutil
import subprocess
from typing import Callable, Iterator, NamedTuple

from steps import FRAME, Found, Step, asked, frames_of, measured

HERE = os.path.dirname(os.path.abspath(__file__))
POSTGRES = 'postgres'
PYTHON = '/usr/bin/python3'

# An overlap has the names of two parcels; a gap is a ring of what all parcels cover together.
OVERLAPS_SQL = '''create table found_overlaps as select a.parcel as subject_id, b.parcel as other_id, st_intersection(a.geom, b.geom) as geom
from parcels a join parcels b on a.fid < b.fid and a.geom && b.geom and st_relate(a.geom, b.geom, 'T********')'''
GAPS_SQL = '''create table found_gaps as with whole as (select st_union(geom) as geom from parcels),
rings as (select (st_dumprings((st_dump(geom)).geom)).* from whole)
select geom from rings where path[1] > 0'''


class Peer(NamedTuple):
    """A program beside topo: its name, what is missing for it, its steps from `in.gpkg` in a folder, and what they found."""

    name: str
    missing: Callable[[], str]
    way: Callable[[str], tuple[list[Step], Found]]


def found_in(path: str) -> Found:
    """What stands in the two layers that a peer wrote."""
    pairs = asked(path, 'SELECT subject_id, other_id FROM found_overlaps')
    return Found({(a, b) for a, b in pairs}, frames_of(asked(path, 'SELECT %s FROM found_gaps' % FRAME)))


# ---- PostGIS, with a server that is begun for it and ended with it

def programs_of_postgres() -> str:
    """The folder of PostgreSQL's programs."""
    return os.path.dirname((sorted(glob.glob('/usr/lib/postgresql/*/bin/postgres')) or [''])[-1])


def missing_of_postgis() -> str:
    has_it = programs_of_postgres() and glob.glob('/usr/share/postgresql/*/extension/postgis.control')
    return '' if has_it else 'packages postgresql and postgis'


def as_postgres() -> None:
    """A server does not run as root."""
    if os.getuid() == 0:
        user = pwd.getpwnam(POSTGRES)
        os.setgid(user.pw_gid)
        os.setuid(user.pw_uid)


def by_postgis(folder: str) -> tuple[list[Step], Found]:
    """In, one question for each rule, out. The time of the server's processes comes with its end."""
    programs, data = programs_of_postgres(), os.path.join(folder, 'data')
    os.mkdir(data)
    if os.getuid() == 0:
        shutil.chown(data, POSTGRES)
        os.chmod(folder, 0o755)
    subprocess.run([os.path.join(programs, 'initdb'), '-D', data, '-A', 'trust', '-U', 'topo'], check=True, stdout=subprocess.DEVNULL, preexec_fn=as_postgres)
    words = [os.path.join(programs, 'postgres'), '-D', data, '-k', data, '-c', 'listen_addresses=', '-c', 'max_parallel_workers_per_gather=0',
             '-c', 'shared_buffers=512MB', '-c', 'work_mem=256MB', '-c', 'fsync=off', '-c', 'autovacuum=off']
    server = subprocess.Popen(words, stderr=subprocess.DEVNULL, preexec_fn=as_postgres)
    try:
        steps = list(asked_of_postgis(folder, programs, 'host=%s user=topo dbname=topo' % data))
    finally:
        server.terminate()
        _, _, used = os.wait4(server.pid, 0)
        server.returncode = 0
    steps.append(Step('the server', used.ru_utime + used.ru_stime, used.ru_maxrss / 1024))
    return steps, found_in(os.path.join(folder, 'peer.gpkg'))


def asked_of_postgis(folder: str, programs: str, connection: str) -> Iterator[Step]:
    ask = lambda name, text, of=connection: measured(name, [os.path.join(programs, 'psql'), '-X', '-q', '-v', 'ON_ERROR_STOP=1', of, '-c', text])
    for _ in range(100):
        if subprocess.run([os.path.join(programs, 'pg_isready'), '-q', '-d', connection.replace('dbname=topo', 'dbname=postgres')]).returncode == 0:
            break
        subprocess.run(['sleep', '0.1'])
    ask('made', 'create database topo', connection.replace('dbname=topo', 'dbname=postgres'))
    ask('made', 'create extension postgis')
    source, out = os.path.join(folder, 'in.gpkg'), os.path.join(folder, 'peer.gpkg')
    yield measured('ogr2ogr in', ['ogr2ogr', '-f', 'PostgreSQL', 'PG:' + connection, source, '-lco', 'FID=fid', '-lco', 'GEOMETRY_NAME=geom',
                                  '--config', 'PG_USE_COPY', 'YES'])
    yield ask('overlaps', OVERLAPS_SQL)
    yield ask('gaps', GAPS_SQL)
    yield measured('ogr2ogr out', ['ogr2ogr', '-f', 'GPKG', out, 'PG:' + connection, 'found_overlaps', 'found_gaps'])


# ---- Shapely

def missing_of_shapely() -> str:
    done = subprocess.run([PYTHON, '-c', 'import shapely, numpy; from osgeo import ogr'], capture_output=True)
    return '' if done.returncode == 0 else 'packages python3-shapely, python3-gdal and python3-numpy'


def by_shapely(folder: str) -> tuple[list[Step], Found]:
    """One process: in by Arrow, a tree of envelopes, a union, out."""
    out = os.path.join(folder, 'peer.gpkg')
    step = measured('in, overlaps, gaps, out', [PYTHON, os.path.join(HERE, 'by_shapely.py'), os.path.join(folder, 'in.gpkg'), out])
    return [step], found_in(out)


# ---- GRASS

def missing_of_grass() -> str:
    return '' if shutil.which('grass') else 'package grass-core'


def by_grass(folder: str) -> tuple[list[Step], Found]:
    """In, which makes a topology of areas; centroids for areas without one, which are gaps; out."""
    place, out = os.path.join(folder, 'grass'), os.path.join(folder, 'peer.gpkg')
    home = dict(os.environ, HOME=folder)
    measured('made', ['grass', '-c', 'EPSG:31467', place, '-e'], env=home)
    run = lambda name, *words, into=None: measured(name, ['grass', os.path.join(place, 'PERMANENT'), '--exec', *words], out=into, env=home)
    steps = [run('v.in.ogr', 'v.in.ogr', '-o', 'input=' + os.path.join(folder, 'in.gpkg'), 'layer=parcels', 'output=parcels'),
             run('v.centroids', 'v.centroids', 'input=parcels', 'output=filled', 'layer=3')]
    most = asked(os.path.join(folder, 'in.gpkg'), 'SELECT count(*) FROM parcels')[0][0]
    for name, layer, wanted, target in (('overlaps', '2', '2-1000', 'overlaps.gpkg'), ('gaps', '3', '1-' + most, 'peer.gpkg')):
        steps.append(run('v.extract', 'v.extract', 'input=filled', 'layer=' + layer, 'type=area', 'cats=' + wanted, 'output=' + name))
        steps.append(run('v.out.ogr', 'v.out.ogr', 'input=' + name, 'layer=' + layer, 'type=area', 'format=GPKG', 'output_layer=found_' + name,
                         'output=' + os.path.join(folder, target)))
    listed, names = (os.path.join(folder, name) for name in ('categories', 'names'))
    for path, words in ((listed, ['v.category', 'input=parcels', 'option=print', 'type=centroid', 'layer=1']),
                        (names, ['v.db.select', 'map=parcels', 'columns=cat,parcel'])):
        with open(path, 'wb') as into:
            steps.append(run('pairs', *words, into=into))
    return joined(steps), Found(pairs_by_categories(listed, names), frames_of(asked(out, 'SELECT %s FROM found_gaps' % FRAME)))


def joined(steps: list[Step]) -> list[Step]:
    """Steps of one name as one."""
    found: dict[str, Step] = {}
    for step in steps:
        old = found.get(step.name, Step(step.name, 0.0, 0.0))
        found[step.name] = Step(step.name, old.seconds + step.seconds, max(old.memory, step.memory), old.clock + step.clock)
    return list(found.values())


def pairs_by_categories(listed: str, names: str) -> set[tuple[str, str]]:
    """The parcels of areas that have several categories."""
    with open(names, encoding='utf-8') as lines:
        parcel = dict(line.rstrip('\n').split('|') for line in lines)
    with open(listed, encoding='utf-8') as lines:
        several = [line.rstrip('\n').split('/') for line in lines if '/' in line]
    return {(parcel[a], parcel[b]) for of in several for number, a in enumerate(of) for b in of[number + 1:]}


PEERS = [Peer('PostGIS', missing_of_postgis, by_postgis), Peer('Shapely', missing_of_shapely, by_shapely), Peer('GRASS', missing_of_grass, by_grass)]
