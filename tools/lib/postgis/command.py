"""The deeds of tools/postgis: a set-up, the service, its status, and a removal."""
from __future__ import annotations

import argparse
import signal
import sys

import psycopg2
from psycopg2.extensions import connection as Connection

from ..grid import GridError
from ..rules import RuleError
from .run import Ended
from .service import Keeper, Occupied, say
from .setup import Asked, SetupError, remove, set_up


def asked_of(words: argparse.Namespace) -> Asked:
    return Asked(words.grid, words.origin, words.table, words.rule, words.drop_rule, words.drop_table, words.role,
                 None if words.validate is None else words.validate == 'at-once', '' if words.gate == '-' else words.gate)


def tell_status(db: Connection) -> int:
    """Prints how the service stands."""
    with db, db.cursor() as cursor:
        cursor.execute('select running, at, features, errors, refused, dirty, waiting, waiting_since, note from topo.status')
        running, at, features, errors, refused, dirty, waiting, since, note = cursor.fetchone()
        print('a service runs' if running else 'no service runs')
        print('judged as of %s: %d features, %d errors, %d dirty areas, %d rows left out' % (at, features, errors, dirty, refused) if at else 'nothing is judged yet')
        print('%d changes wait%s' % (waiting, ', the first since %s' % since if waiting else ''))
        if note:
            print('it waits: ' + note)
        cursor.execute('select class, key, why from topo.refused order by class, key limit 10')
        for row in cursor:
            print('left out: %s %s: %s' % row)
    return 0 if running and not waiting and not note else 1


def serve(words: argparse.Namespace) -> int:
    signal.signal(signal.SIGTERM, lambda *_: sys.exit(0))
    log = open(words.log, 'a', encoding='ascii') if words.log else None
    try:
        Keeper(words.dsn, [words.program], log).run()
    except KeyboardInterrupt:
        pass
    return 0


def do(words: argparse.Namespace) -> int:
    if words.deed == 'run':
        return serve(words)
    db = psycopg2.connect(words.dsn)
    if words.deed == 'status':
        return tell_status(db)
    if words.deed == 'setup':
        print('\n'.join(set_up(db, asked_of(words))))
    else:
        remove(db)
    return 0


def run(words: argparse.Namespace) -> int:
    """Does what the words ask for; the status."""
    try:
        return do(words)
    except (GridError, RuleError, SetupError, Ended, Occupied, OSError, psycopg2.Error) as fault:
        say(str(fault).strip())
        return 2
