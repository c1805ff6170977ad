"""What systemd asks of a service: sockets that it has opened already, and a word when the service is ready."""
from __future__ import annotations

import os
import socket

FIRST_SOCKET = 3


def handed_sockets() -> list[socket.socket]:
    """The listening sockets that were handed to this process."""
    if os.environ.get('LISTEN_PID') != str(os.getpid()):
        return []
    count = int(os.environ.get('LISTEN_FDS', '0'))
    for name in 'LISTEN_PID', 'LISTEN_FDS', 'LISTEN_FDNAMES':
        os.environ.pop(name, None)
    return [handed(number) for number in range(FIRST_SOCKET, FIRST_SOCKET + count)]


def handed(number: int) -> socket.socket:
    os.set_inheritable(number, False)
    return socket.socket(fileno=number)


def notify(text: str) -> None:
    """Tells systemd, where it wants to be told: a datagram to the socket that NOTIFY_SOCKET names."""
    path = os.environ.get('NOTIFY_SOCKET', '')
    if path:
        with socket.socket(socket.AF_UNIX, socket.SOCK_DGRAM | socket.SOCK_CLOEXEC) as out:
            out.sendto(text.encode(), '\0' + path[1:] if path.startswith('@') else path)
