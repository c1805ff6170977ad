"""A PostgreSQL server of a test's own: in a temporary folder, reached by a socket there and by nothing else."""
from __future__ import annotations

import glob
import os
import pwd
import shutil
import signal
import subprocess
import sys
import tempfile
import time
from typing import Optional

OPTIONS = ['listen_addresses=', 'max_connections=60']
# Words before a command: it ends when this process does, whatever ends it.
BOUND = ['setpriv', '--pdeathsig']
LONG = 60


def programs() -> Optional[str]:
    """The folder of the newest server's programs; none where no server is installed."""
    found = glob.glob('/usr/lib/postgresql/*/bin/initdb') + ([shutil.which('initdb')] if shutil.which('initdb') else [])
    return os.path.dirname(max(found, key=lambda path: [int(part) for part in path.split('/') if part.isdigit()])) if found else None


def has_extension(name: str) -> bool:
    return bool(glob.glob('/usr/share/postgresql/*/extension/%s.control' % name))


def missing() -> list[str]:
    """What a test with a server needs and this machine has not."""
    found = [] if programs() else ['PostgreSQL (package postgresql)']
    found += [] if has_extension('postgis') else ['PostGIS (package postgresql-15-postgis-3)']
    try:
        import psycopg2  # noqa: F401
    except ImportError:
        found.append('psycopg2 for %s (package python3-psycopg2)' % sys.executable)
    return found


class Server:
    """A server that is started, stopped and killed; `dsn` reaches its database gis, which has PostGIS. Tests do without waiting for disks."""

    def __init__(self, is_durable: bool = False) -> None:
        self.is_durable = is_durable
        self.folder = tempfile.mkdtemp(prefix='topo')
        self.data = os.path.join(self.folder, 'data')
        self.user = self.as_user()
        if self.user:
            os.chown(self.folder, pwd.getpwnam('postgres').pw_uid, pwd.getpwnam('postgres').pw_gid)
        os.chmod(self.folder, 0o755)
        self.call('initdb', '-D', self.data, '-A', 'trust', '-U', 'postgres', '-E', 'UTF8', '--no-locale', '-N')
        self.start()
        self.sql('create database gis', 'postgres')
        self.sql('create extension postgis')

    def as_user(self) -> list[str]:
        """The words that make a command one of the user postgres: a server refuses root."""
        return ['setpriv', '--reuid', 'postgres', '--regid', 'postgres', '--init-groups'] if os.getuid() == 0 else []

    def call(self, name: str, *words: str) -> str:
        done = subprocess.run(self.user + [os.path.join(programs(), name), *words], stdout=subprocess.PIPE, stderr=subprocess.STDOUT, text=True,
                              cwd=self.folder, timeout=LONG)
        if done.returncode:
            raise RuntimeError('%s: %s' % (name, done.stdout))
        return done.stdout

    def dsn(self, database: str = 'gis', user: str = 'postgres') -> str:
        return 'host=%s user=%s dbname=%s' % (self.folder, user, database)

    def sql(self, text: str, database: str = 'gis') -> str:
        return self.call('psql', '-X', '-q', '-A', '-t', '-v', 'ON_ERROR_STOP=1', '-c', text, self.dsn(database))

    def start(self) -> None:
        """Starts it, and waits until it answers."""
        options = [*OPTIONS, 'unix_socket_directories=' + self.folder, 'fsync=%s' % ('on' if self.is_durable else 'off')]
        words = [word for option in options for word in ('-c', option)]
        with open(os.path.join(self.folder, 'log'), 'ab') as log:
            self.process = subprocess.Popen([*BOUND, 'QUIT', *self.user[1:], os.path.join(programs(), 'postgres'), '-D', self.data, *words],
                                            stdout=log, stderr=log, cwd=self.folder)
        end = time.monotonic() + LONG
        while subprocess.run([os.path.join(programs(), 'pg_isready'), '-q', '-h', self.folder], timeout=LONG).returncode:
            if time.monotonic() > end or self.process.poll() is not None:
                raise RuntimeError('the server does not start: see %s/log' % self.folder)
            time.sleep(0.05)

    def stop(self, how: int = signal.SIGINT) -> None:
        """Stops it: by SIGINT at once, by SIGQUIT as if the machine had failed."""
        self.process.send_signal(how)
        self.process.wait(LONG)

    def close(self) -> None:
        self.stop(signal.SIGQUIT)
        shutil.rmtree(self.folder, ignore_errors=True)
