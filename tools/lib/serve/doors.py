"""The doors of a service: sockets, who comes in by them, and how many at once."""
from __future__ import annotations

import asyncio
import errno
import os
import socket
import ssl
import stat
import struct
from collections import Counter
from typing import Callable, NamedTuple, Optional

from .connection import Bounds, Connection
from .rights import Client, Rights
from .service import Service

BACKLOG = 128
# A client has so long, in seconds, to show its certificate.
HANDSHAKE = 10.0
# Where the system has no more sockets, the next client is looked at so much later, in seconds.
PAUSE = 0.1
PEER = struct.Struct('3i')


class Door(NamedTuple):
    """A listening socket; with TLS where it has a context."""

    listener: socket.socket
    tls: Optional[ssl.SSLContext]


class Refused(Exception):
    """Who comes may not come in; `code` is what is said, the text is told."""

    def __init__(self, code: str, text: str) -> None:
        super().__init__(text)
        self.code = code


def is_answered(path: str) -> bool:
    """Whether somebody listens at this socket."""
    with socket.socket(socket.AF_UNIX) as found:
        return found.connect_ex(path) == 0


def unix_door(path: str, mode: int) -> Door:
    """Listens at this path; a socket that an earlier service left there is taken away."""
    if os.path.exists(path) and stat.S_ISSOCK(os.stat(path).st_mode):
        if is_answered(path):
            raise OSError(errno.EADDRINUSE, 'somebody listens there', path)
        os.unlink(path)
    listener = socket.socket(socket.AF_UNIX)
    before = os.umask(0o777 & ~mode)
    try:
        listener.bind(path)
    finally:
        os.umask(before)
    listener.listen(BACKLOG)
    return Door(listener, None)


def tls_context(certificate: str, key: str, authority: str) -> ssl.SSLContext:
    """Shows this certificate, and asks each client for one of this authority."""
    context = ssl.SSLContext(ssl.PROTOCOL_TLS_SERVER)
    context.minimum_version = ssl.TLSVersion.TLSv1_2
    context.verify_mode = ssl.CERT_REQUIRED
    context.load_verify_locations(authority)
    context.load_cert_chain(certificate, key)
    return context


def tls_door(place: str, context: ssl.SSLContext) -> Door:
    """Listens at HOST:PORT."""
    host, _, port = place.rpartition(':')
    family, _, _, _, address = socket.getaddrinfo(host.strip('[]') or None, int(port), type=socket.SOCK_STREAM, flags=socket.AI_PASSIVE)[0]
    return Door(socket.create_server(address, family=family, backlog=BACKLOG), context)


def uid_of(peer: socket.socket) -> int:
    """The user at the other end of a unix socket, as the system tells it."""
    return PEER.unpack(peer.getsockopt(socket.SOL_SOCKET, socket.SO_PEERCRED, PEER.size))[1]


def common_names(certificate: dict) -> list[str]:
    return [value for names in certificate.get('subject', ()) for key, value in names if key == 'commonName']


def place_of(peer: socket.socket) -> str:
    if peer.family == socket.AF_UNIX:
        return 'user %d' % uid_of(peer)
    return '%s:%s' % peer.getpeername()[:2]


class Doors:
    """Lets clients in, by the rights of the moment; at most so many at each door, and so many of one name."""

    def __init__(self, service: Service, rights: Rights, bounds: Bounds, most: int, most_of_name: int, tell: Callable[[str], None]) -> None:
        self.service = service
        self.rights = rights
        self.bounds = bounds
        self.most = most
        self.most_of_name = most_of_name
        self.tell = tell
        self.names: Counter[str] = Counter()
        self.guests: dict[Door, set[asyncio.Task]] = {}
        self.inside: set[Connection] = set()
        self.tasks: list[asyncio.Task] = []
        self.turned_away = 0

    def open(self, door: Door) -> None:
        door.listener.setblocking(False)
        self.guests[door] = set()
        self.tasks.append(asyncio.get_running_loop().create_task(self.accept(door)))

    async def accept(self, door: Door) -> None:
        loop = asyncio.get_running_loop()
        while True:
            try:
                peer, _ = await loop.sock_accept(door.listener)
            except OSError:
                await asyncio.sleep(PAUSE)
                continue
            if len(self.guests[door]) >= self.most:
                self.turn_away(peer)
                continue
            guest = loop.create_task(self.welcome(door, peer))
            self.guests[door].add(guest)
            guest.add_done_callback(self.guests[door].discard)

    def turn_away(self, peer: socket.socket) -> None:
        """Lets nobody in where it is full; a word of it each time that it happens a thousand times more."""
        if self.turned_away % 1000 == 0:
            self.tell('too many clients at a door: turned away')
        self.turned_away += 1
        try:
            if peer.family == socket.AF_UNIX:
                peer.send(b'refused many\n')
        except OSError:
            pass
        peer.close()

    async def welcome(self, door: Door, peer: socket.socket) -> None:
        """Serves a client from its handshake to its leave."""
        place = ''
        try:
            place = place_of(peer)
            if door.tls:
                peer.setsockopt(socket.SOL_SOCKET, socket.SO_KEEPALIVE, 1)
            reader, writer = await self.streams(door, peer)
        except (OSError, ssl.SSLError, asyncio.TimeoutError) as error:
            self.tell('%s does not come in: %s' % (place, getattr(error, 'reason', None) or type(error).__name__))
            peer.close()
            return
        try:
            await self.serve(door, peer, place, reader, writer)
        finally:
            writer.transport.abort()

    async def streams(self, door: Door, peer: socket.socket) -> tuple[asyncio.StreamReader, asyncio.StreamWriter]:
        loop = asyncio.get_running_loop()
        reader = asyncio.StreamReader(limit=1 << 16)
        protocol = asyncio.StreamReaderProtocol(reader)
        time = HANDSHAKE if door.tls else None
        transport, _ = await loop.connect_accepted_socket(lambda: protocol, peer, ssl=door.tls, ssl_handshake_timeout=time)
        return reader, asyncio.StreamWriter(transport, protocol, reader, loop)

    async def serve(self, door: Door, peer: socket.socket, place: str, reader: asyncio.StreamReader, writer: asyncio.StreamWriter) -> None:
        try:
            client = self.client_of(door, writer)
        except Refused as refused:
            self.tell('%s does not come in: %s' % (place, refused))
            writer.write(b'refused %s\n' % refused.code.encode())
            writer.close()
            await asyncio.wait([asyncio.ensure_future(writer.wait_closed())], timeout=1.0)
            return
        name = client.name
        guest = Connection(reader, writer, lambda: self.rights.clients.get(name), name, self.service, self.bounds, self.tell)
        self.names[name] += 1
        self.inside.add(guest)
        try:
            await guest.run()
        finally:
            guest.abort()
            self.inside.discard(guest)
            self.names[name] -= 1

    def client_of(self, door: Door, writer: asyncio.StreamWriter) -> Client:
        """Who it is, by the system's word or by its certificate. Raises Refused."""
        if door.tls is None:
            uid = uid_of(writer.get_extra_info('socket'))
            client, what = self.rights.of_user(uid), 'user %d' % uid
        else:
            names = common_names(writer.get_extra_info('peercert') or {})
            client, what = self.rights.of_certificate(names), 'certificate of %s' % ', '.join(map(ascii, names))
        if client is None:
            raise Refused('forbidden', '%s is not in the file of rights' % what)
        if self.names[client.name] >= self.most_of_name:
            raise Refused('many', '%s is inside %d times' % (client.name, self.names[client.name]))
        return client

    def change_rights(self, rights: Rights) -> None:
        """From now on these rights hold; who is in them no longer is let go."""
        self.rights = rights
        for guest in [guest for guest in self.inside if guest.name not in rights.clients]:
            guest.abort()

    async def close(self) -> None:
        """Lets nobody in any more, and takes no further line."""
        for task in self.tasks:
            task.cancel()
        await asyncio.gather(*self.tasks, return_exceptions=True)
        for door in self.guests:
            door.listener.close()

    async def empty(self) -> None:
        """Sends away all who are still inside."""
        guests = [guest for door in self.guests.values() for guest in door]
        for guest in guests:
            guest.cancel()
        await asyncio.gather(*guests, return_exceptions=True)
