"""The command: its words, its start and its end."""
from __future__ import annotations

import argparse
import asyncio
import os
import shlex
import shutil
import signal
import socket
import ssl
import sys
from typing import Iterator

from . import systemd
from .connection import Bounds
from .doors import Door, Doors, tls_context, tls_door, unix_door
from .journal import Reading, files_of
from .records import Damaged, Group
from .replay import Ended
from .rights import Rights, WrongRights
from .service import Service, Settings
from .snapshots import Unsaved
from .store import Store
from .sums import Different

DONE, FAILED, USAGE, DAMAGED = 0, 1, 2, 3
TOOLS = os.path.dirname(os.path.dirname(os.path.dirname(os.path.abspath(__file__))))


class WrongWords(Exception):
    """Words with which nothing can be served; the text says why."""


def tell(text: str) -> None:
    print('topo-serve: %s' % text, file=sys.stderr, flush=True)


def program_words(given: str) -> list[str]:
    """The program that is named, or the one beside these tools, or the installed one."""
    if given:
        return shlex.split(given)
    beside = os.path.join(os.path.dirname(TOOLS), 'topo')
    return [beside if os.path.isfile(beside) and os.access(beside, os.X_OK) else shutil.which('topo') or 'topo']


def parser() -> argparse.ArgumentParser:
    found = argparse.ArgumentParser(prog='topo-serve', description='Serves one project to several desks.',
                                    epilog='Statuses: 0 stopped when asked to; 1 something failed; 2 wrong arguments; 3 what was kept is damaged, '
                                           'or the program replies otherwise than before.')
    found.add_argument('folder', metavar='FOLDER', help='where the service keeps its project, its journal and its archive')
    found.add_argument('--from', dest='first', metavar='PROJECT', default='-', help='the saved project to begin with, the first time; else the empty one')
    found.add_argument('--rights', metavar='FILE', help='the file of rights: who may do what; read again on SIGHUP')
    found.add_argument('--socket', metavar='PATH', help='listen at a unix socket')
    found.add_argument('--mode', type=lambda text: int(text, 8), default=0o660, help='the mode of that socket (660)')
    found.add_argument('--listen', metavar='HOST:PORT', help='listen by TLS')
    found.add_argument('--certificate', metavar='FILE', help='what this service shows, as PEM')
    found.add_argument('--key', metavar='FILE', help='its key, as PEM without a password')
    found.add_argument('--authority', metavar='FILE', help='whose certificates clients must show, as PEM')
    found.add_argument('--program', metavar='WORDS', default='', help='the program; else the one that belongs to these tools')
    found.add_argument('--save-each', type=int, metavar='N', default=Settings().save_each, help='save the project every N lines (%(default)s)')
    found.add_argument('--run-bytes', type=int, metavar='N', default=Settings().run_bytes, help='begin the run anew after N bytes (%(default)s)')
    found.add_argument('--idle', type=float, metavar='SECONDS', default=0.0, help='end a session in which no line came for this long (never)')
    found.add_argument('--line-seconds', type=float, metavar='SECONDS', default=Bounds().line_seconds, help='time for a line or a batch (%(default)s)')
    found.add_argument('--buffer', type=int, metavar='BYTES', default=Bounds().buffer, help='replies that may wait for a client (%(default)s)')
    found.add_argument('--clients', type=int, metavar='N', default=256, help='at most N clients at each door (%(default)s)')
    found.add_argument('--clients-of-name', type=int, metavar='N', default=8, help='at most N of one name (%(default)s)')
    found.add_argument('--script', action='store_true', help='print all lines that were ever kept, as a script, and end')
    found.add_argument('--log', action='store_true', help='the same, each with its number, its time and its client')
    return found


def all_groups(store: Store) -> Iterator[Group]:
    """All groups of the archive and the journal, whose seals fit. Raises Damaged."""
    paths = files_of(store.archive) + files_of(store.journal)
    return Reading(paths, sys.maxsize if paths else 0).groups()


def print_kept(given: argparse.Namespace) -> int:
    out = sys.stdout.buffer
    for group in all_groups(Store(given.folder)):
        for kept in group.lines:
            out.write(b'%d %s %s %s\n' % (kept.number, kept.time.encode(), kept.name.encode(), kept.line) if given.log else kept.line + b'\n')
    out.flush()
    return DONE


def doors_of(given: argparse.Namespace) -> list[Door]:
    """The doors that the words name, and those that systemd has opened."""
    context = tls_context(given.certificate, given.key, given.authority) if given.certificate else None
    found = [Door(one, None if one.family == socket.AF_UNIX else context) for one in systemd.handed_sockets()]
    if given.socket:
        found.append(unix_door(given.socket, given.mode))
    if given.listen and context:
        found.append(tls_door(given.listen, context))
    if any(door.tls is None and door.listener.family != socket.AF_UNIX for door in found):
        raise WrongWords('a socket of the network needs --certificate, --key and --authority')
    if not found:
        raise WrongWords('nowhere to listen: --socket or --listen')
    return found


def reload(given: argparse.Namespace, doors: Doors) -> None:
    """Reads the rights and the certificate again; where they are wrong, the old ones stay."""
    try:
        rights = Rights.read(given.rights)
        for door in doors.guests:
            if door.tls is not None:
                door.tls.load_cert_chain(given.certificate, given.key)
    except (OSError, ssl.SSLError, WrongRights) as error:
        tell('the rights stay as they were: %s' % error)
        return
    doors.change_rights(rights)
    tell('the rights were read again')


async def serve(given: argparse.Namespace, store: Store, rights: Rights) -> int:
    """Recovers, serves, and stops when it is asked to."""
    loop = asyncio.get_running_loop()
    stopped = asyncio.Event()
    for each in signal.SIGTERM, signal.SIGINT:
        loop.add_signal_handler(each, stopped.set)
    service = Service(store, program_words(given.program), Settings(given.save_each, given.run_bytes, given.idle), tell)
    await service.recover(given.first)
    doors = Doors(service, rights, Bounds(given.line_seconds, given.buffer), given.clients, given.clients_of_name, tell)
    loop.add_signal_handler(signal.SIGHUP, reload, given, doors)
    service.start()
    for door in doors_of(given):
        doors.open(door)
    systemd.notify('READY=1')
    tell('ready')
    await asyncio.wait([service.failed, asyncio.ensure_future(stopped.wait())], return_when=asyncio.FIRST_COMPLETED)
    systemd.notify('STOPPING=1')
    await doors.close()
    await service.stop()
    await doors.empty()
    if service.failed.done():
        service.failed.result()
    tell('stopped')
    return DONE


def run(given: argparse.Namespace) -> int:
    store = Store(given.folder)
    try:
        if given.script or given.log:
            return print_kept(given)
        rights = Rights.read(given.rights)
        store.take()
        return asyncio.run(serve(given, store, rights))
    except BlockingIOError:
        tell('another service has %s' % store.folder)
    except (WrongRights, WrongWords) as error:
        tell(str(error))
        return USAGE
    except (Damaged, Different) as error:
        tell(str(error))
        return DAMAGED
    except (OSError, Ended, Unsaved) as error:
        tell(str(error))
    finally:
        store.release()
    return FAILED


def main(words: list[str]) -> int:
    found = parser()
    given = found.parse_args(words)
    if not given.script and not given.log and given.rights is None:
        found.error('--rights is missing')
    if (given.certificate is None) != (given.key is None) or (given.certificate is None) != (given.authority is None):
        found.error('--certificate, --key and --authority belong together')
    if given.listen and not given.certificate:
        found.error('--listen needs --certificate, --key and --authority')
    return run(given)
