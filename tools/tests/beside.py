"""What the tests beside a server share: databases of their own, services that are started and killed, clients in transactions."""
from __future__ import annotations

import os
import queue
import signal
import subprocess
import sys
import threading
import time
import unittest
from typing import Callable, Optional

import psycopg2

from postgres import BOUND, Server
from working import PROGRAM, TOOLS

LONG = 60
PARCELS = '''create table parcels (id int primary key, geom geometry(Polygon, 25832));
insert into parcels select i, st_makeenvelope(500000 + i * 20, 5700000, 500020 + i * 20, 5700020, 25832) from generate_series(1, 10) i;
create table wells (nr text primary key, place geometry(Point, 25832));'''
SETUP = ['--grid', '0.001', '--table', 'parcels', '--table', 'wells', 'wells', 'nr', 'place',
         '--rule', 'polygon_must_not_overlap', 'parcels', '--rule', 'point_must_be_disjoint', 'wells']


def until(is_so: Callable[[], object], what: str) -> object:
    """What the function gives as soon as it is true; fails after a long time."""
    end = time.monotonic() + LONG
    while not (found := is_so()):
        if time.monotonic() > end:
            raise AssertionError('not so after %d s: %s' % (LONG, what))
        time.sleep(0.02)
    return found


class Service:
    """A running topo-postgis; what it says comes line by line."""

    def __init__(self, dsn: str) -> None:
        self.process = subprocess.Popen([*BOUND, 'TERM', sys.executable, os.path.join(TOOLS, 'postgis'), 'run', dsn, '--program', PROGRAM[0]],
                                        stderr=subprocess.PIPE, text=True)
        self.lines: queue.Queue = queue.Queue()
        threading.Thread(target=self.listen, daemon=True).start()

    def listen(self) -> None:
        for line in self.process.stderr:
            self.lines.put(line.rstrip('\n'))

    def said(self, part: str) -> str:
        """The next line with this part."""
        while True:
            try:
                line = self.lines.get(timeout=LONG)
            except queue.Empty:
                raise AssertionError('the service does not say `%s`' % part) from None
            if part in line:
                return line

    def child(self) -> int:
        """The process of topo."""
        found = subprocess.run(['ps', '-o', 'pid=', '--ppid', str(self.process.pid)], capture_output=True, text=True).stdout.split()
        return int(found[0])

    def end(self, how: int = signal.SIGTERM) -> int:
        if self.process.poll() is None:
            self.process.send_signal(how)
        try:
            return self.process.wait(LONG)
        finally:
            self.process.kill()
            self.process.stderr.close()


class Client:
    """A user's connection."""

    def __init__(self, dsn: str, is_at_once: bool = True) -> None:
        self.db = psycopg2.connect(dsn)
        self.db.autocommit = is_at_once

    def rows(self, text: str, *of: object) -> list[tuple]:
        with self.db.cursor() as cursor:
            cursor.execute(text, of or None)
            return cursor.fetchall() if cursor.description else []

    def one(self, text: str, *of: object) -> object:
        return self.rows(text, *of)[0][0]


class Case(unittest.TestCase):
    """A test with a database of its own, in which ten parcels stand in a row."""

    server: Server
    number = 0

    def setUp(self) -> None:
        Case.number += 1
        self.name = 'test%d' % Case.number
        self.server.sql('create database %s template gis' % self.name, 'postgres')
        self.dsn = self.server.dsn(self.name)
        self.server.sql(PARCELS, self.name)
        self.user = self.client()

    def client(self, is_at_once: bool = True) -> Client:
        client = Client(self.dsn, is_at_once)
        self.addCleanup(client.db.close)
        return client

    def tool(self, *words: str) -> subprocess.CompletedProcess:
        return subprocess.run([sys.executable, os.path.join(TOOLS, 'postgis'), *words], capture_output=True, text=True, timeout=LONG)

    def set_up(self, *words: str) -> str:
        done = self.tool('setup', self.dsn, *(words or SETUP))
        self.assertEqual((done.returncode, done.stderr), (0, ''))
        return done.stdout

    def start(self, dsn: Optional[str] = None) -> Service:
        """A service that has begun."""
        service = Service(dsn or self.dsn)
        self.addCleanup(service.end, signal.SIGKILL)
        service.said('judged after')
        return service

    def move(self, client: Client, number: int, by: float) -> None:
        client.rows('update parcels set geom = st_translate(geom, %s, 0) where id = %s', by, number)

    def errors(self, client: Optional[Client] = None) -> list[tuple]:
        return (client or self.user).rows('select rule, class, subject_id, other_class, other_id, extent, mark, note, st_astext(polygons), '
                                          'st_astext(lines), st_astext(points) from topo.error order by 1, 2, 3, 4, 5')

    def pairs(self) -> list[tuple]:
        return self.user.rows('select subject_id::int, other_id::int from topo.error where rule = 1 order by 1, 2')

    def two_errors(self) -> None:
        """Two parcels are moved, each onto the next one, and their errors are there."""
        self.move(self.user, 3, 0.5)
        self.move(self.user, 7, 0.5)
        until(lambda: len(self.pairs()) == 2, 'two errors')

    def settled(self) -> None:
        """Until nothing waits for the service."""
        until(lambda: self.user.rows('select 1 from topo.status where waiting = 0 and not exists (select from topo.wish)'), 'nothing waits')
