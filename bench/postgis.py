#!/usr/bin/python3
"""How long it takes from a commit to its errors in the tables of topo-postgis.

usage: bench/postgis.py [--program PATH] [--parcels N] [--shares S,..] [--commits N] [--clients N] [--pause SECONDS] [--gate]

  --program PATH    the program (./topo builds .build/topo, which is taken)
  --parcels N       how many parcels, with a building in each fourth (100,000)
  --shares S,..     which shares of the parcels reach over a neighbour at the start (0.0001,0.043)
  --commits N       how many commits of all clients together (600)
  --clients N       how many clients edit at once (4)
  --pause SECONDS   the mean pause of a client between two commits (0.1)
  --gate            commits that bring new errors are refused

It starts a server of its own in a temporary folder, with the settings that a new server has. Each commit moves a vertex of one parcel.
Three rules are in force. The time runs from the moment at which a client sends COMMIT to the moment at which the service has committed
the errors. The lines that it prints are rows of the table in docs/postgis.md.
"""
from __future__ import annotations

import argparse
import io
import os
import random
import subprocess
import sys
import tempfile
import threading
import time
from dataclasses import dataclass, field

ROOT = os.path.dirname(os.path.dirname(os.path.abspath(__file__)))
sys.path[:0] = [os.path.join(ROOT, 'tools', 'tests'), os.path.join(ROOT, 'tools')]

try:
    import psycopg2
except ImportError:
    psycopg2 = None

from postgres import BOUND, Server

SIDE = 20000
TABLES = '''create table parcels (id int primary key, geom geometry(Polygon, 25832) not null);
create table buildings (id int primary key, geom geometry(Polygon, 25832) not null);
create index on parcels using gist (geom); create index on buildings using gist (geom);'''
SETUP = ['--grid', '0.001', '--table', 'parcels', '--table', 'buildings', '--rule', 'polygon_must_not_overlap', 'parcels',
         '--rule', 'polygon_must_not_overlap', 'buildings', '--rule', 'polygon_must_be_covered_by_feature_class_of', 'buildings', 'parcels']
EDIT = '''update parcels set geom = st_setsrid(st_makepolygon(st_setpoint(st_setpoint(r, 0, p), st_npoints(r) - 1, p)), 25832) from
  (select id as i, st_exteriorring(geom) as r, st_snaptogrid(st_translate(st_startpoint(st_exteriorring(geom)), %s, %s), 0.001) as p
   from parcels where id = %s) s where id = i returning pg_current_xact_id()::text'''
LONG = 600

Ring = list[tuple[int, int]]


@dataclass
class Times:
    """Of each commit by its number: when it was sent, and how long the client waited in it."""

    sent: dict[str, float] = field(default_factory=dict)
    waited: list[float] = field(default_factory=list)
    refused: int = 0


def text_of(number: int, ring: Ring) -> str:
    places = ','.join('%d.%03d %d.%03d' % (*divmod(x, 1000), *divmod(y, 1000)) for x, y in ring + ring[:1])
    return '%d\tSRID=25832;POLYGON((%s))\n' % (number, places)


def rings_of(count: int, share: float) -> tuple[list[Ring], list[Ring]]:
    """Parcels that share their corners, but for a share of them that reach over a neighbour; and buildings in each fourth."""
    lot, rows = random.Random(1), int(count ** 0.5)
    corner = {(i, j): (500000000 + (i - rows // 2) * SIDE + lot.randint(-900, 900), 5700000000 + (j - rows // 2) * SIDE + lot.randint(-900, 900))
              for i in range(rows + 1) for j in range(rows + 1)}
    parcels, buildings = [], []
    for i in range(rows):
        for j in range(rows):
            ring = [corner[i, j], corner[i + 1, j], corner[i + 1, j + 1], corner[i, j + 1]]
            x, y = ring[0]
            if lot.random() < share:
                ring[1] = ring[1][0] + 1500, ring[1][1]
            parcels.append(ring)
            if lot.random() < 0.25:
                buildings.append([(x + 4000, y + 4000), (x + 12000, y + 4000), (x + 12000, y + 13000), (x + 4000, y + 13000)])
    return parcels, buildings


def fill(dsn: str, count: int, share: float) -> int:
    """Fills the tables; how many parcels there are."""
    made = rings_of(count, share)
    with psycopg2.connect(dsn) as db, db.cursor() as cursor:
        cursor.execute(TABLES)
        for table, rings in zip(('parcels', 'buildings'), made):
            cursor.copy_expert('copy %s from stdin' % table, io.StringIO(''.join(text_of(number, ring) for number, ring in enumerate(rings, 1))))
        cursor.execute('analyze')
    return len(made[0])


class Client(threading.Thread):
    """Moves vertices of parcels, each in a transaction of its own."""

    def __init__(self, number: int, dsn: str, parcels: int, commits: int, pause: float, times: Times) -> None:
        super().__init__()
        self.lot, self.db = random.Random(number), psycopg2.connect(dsn)
        self.parcels, self.commits, self.pause, self.times = parcels, commits, pause, times

    def run(self) -> None:
        for _ in range(self.commits):
            time.sleep(self.lot.uniform(0, 2 * self.pause))
            with self.db.cursor() as cursor:
                cursor.execute(EDIT, (self.lot.uniform(-0.5, 0.5), self.lot.uniform(-0.5, 0.5), self.lot.randint(1, self.parcels)))
                [(number,)] = cursor.fetchall()
            self.commit(number, time.time())

    def commit(self, number: str, sent: float) -> None:
        try:
            self.db.commit()
            self.times.sent[number] = sent
        except psycopg2.IntegrityError:                    # of the gate
            self.times.refused += 1
        self.times.waited.append(time.time() - sent)


def start(dsn: str, program: str, log: str) -> tuple[subprocess.Popen, float]:
    """A service that has begun, and how long that took."""
    since = time.time()
    service = subprocess.Popen([*BOUND, 'TERM', sys.executable, os.path.join(ROOT, 'tools', 'postgis'), 'run', dsn, '--program', program, '--log', log], stderr=subprocess.PIPE, text=True)
    said = service.stderr.readline() if service.stderr else ''
    if 'judged after' not in said:
        sys.exit('the service does not begin: ' + said)
    return service, time.time() - since


def at(part: float, values: list[float]) -> float:
    """The value below which this part of the values lies, in milliseconds."""
    return sorted(values)[min(len(values) - 1, int(part * len(values)))] * 1000


def memory(process: int) -> float:
    """The resident memory of a process, in megabytes."""
    with open('/proc/%d/status' % process, encoding='ascii') as status:
        return next(int(line.split()[1]) for line in status if line.startswith('VmRSS')) / 1024


def measure(server: Server, name: str, share: float, words: argparse.Namespace, folder: str) -> None:
    """Prints the row of one share."""
    server.sql('create database %s template gis' % name, 'postgres')
    dsn, log, times = server.dsn(name), os.path.join(folder, name), Times()
    parcels = fill(dsn, words.parcels, share)
    gate = ['--gate', os.path.join(server.folder, name)] if words.gate else []
    subprocess.run([sys.executable, os.path.join(ROOT, 'tools', 'postgis'), 'setup', dsn, *SETUP, *gate], check=True, stdout=subprocess.DEVNULL)
    service, first = start(dsn, words.program, log)
    errors = int(server.sql('select errors from topo.status', name))
    clients = [Client(number, dsn, parcels, words.commits // words.clients, words.pause, times) for number in range(words.clients)]
    for client in clients:
        client.start()
    for client in clients:
        client.join(LONG)
    while int(server.sql('select waiting from topo.status', name)):
        time.sleep(0.05)
    time.sleep(0.2)
    held = memory(service.pid)
    service.terminate()
    service.wait(LONG)
    service, again = start(dsn, words.program, os.devnull)
    service.terminate()
    service.wait(LONG)
    tell(log, times, '| %s parcels, %s errors | %.1f s, %.1f s |' % (format(parcels, ','), format(errors, ','), first, again), held)


def tell(log: str, times: Times, head: str, held: float) -> None:
    with open(log, encoding='ascii') as file:
        done = {line.split()[0]: line.split()[1:] for line in file}
    missing = [number for number in times.sent if number not in done]
    late = [float(done[number][0]) - sent for number, sent in times.sent.items() if number in done]
    if times.refused:
        head += ' %d of %d refused |' % (times.refused, len(times.waited))
    print('%s %.0f ms | %.0f ms | %.1f ms, %.0f ms | %.0f MB |%s' % (head, at(0.5, late), at(0.99, late), at(0.5, times.waited), at(0.99, times.waited), held,
                                                                   ' %d MISSING' % len(missing) if missing else ''), flush=True)


def words_of() -> argparse.Namespace:
    parser = argparse.ArgumentParser(description=__doc__, formatter_class=argparse.RawDescriptionHelpFormatter)
    parser.add_argument('--program', default=os.path.join(ROOT, '.build', 'topo'))
    parser.add_argument('--parcels', type=int, default=100000)
    parser.add_argument('--shares', default='0.0001,0.043')
    parser.add_argument('--commits', type=int, default=600)
    parser.add_argument('--clients', type=int, default=4)
    parser.add_argument('--pause', type=float, default=0.1)
    parser.add_argument('--gate', action='store_true')
    return parser.parse_args()


def main() -> int:
    words = words_of()
    if psycopg2 is None:
        sys.exit('postgis: psycopg2 is missing: install the package python3-psycopg2')
    print('| | First start, next start | Commit to errors, middle | 99th of a hundred | A client waits in COMMIT, middle and 99th | Memory |\n|---|---|---|---|---|---|')
    server = Server(is_durable=True)
    try:
        with tempfile.TemporaryDirectory() as folder:
            for number, share in enumerate(words.shares.split(',')):
                measure(server, 'bench%d' % number, float(share), words, folder)
    finally:
        server.close()
    return 0


if __name__ == '__main__':
    sys.exit(main())
