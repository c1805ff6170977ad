"""The door at which a commit asks, before it is done, whether it would bring new errors."""
from __future__ import annotations

import contextlib
import json
import os
import socket

from .judge import Edit

PATIENCE = 5


class Guest:
    """A commit that asks: it sends its changes in one line, and gets what stands against them in one. If it goes away its commit has
    failed, which is no fault of the service."""

    def __init__(self, link: socket.socket) -> None:
        self.link = link
        self.link.settimeout(PATIENCE)
        self.file = link.makefile('rw', encoding='utf-8')

    def edits(self) -> list[Edit]:
        """The changes, of a row the last one; none where the guest has gone."""
        try:
            rows = json.loads(self.file.readline())
        except (OSError, ValueError):
            return []
        return list({(of_class, key): Edit((of_class, key), gone, wkt) for of_class, key, gone, wkt in rows}.values())

    def say(self, against: list[str]) -> None:
        """Says what stands against the changes, and ends the talk."""
        with contextlib.suppress(OSError):
            self.file.write(json.dumps(against) + '\n')
            self.file.close()
        self.link.close()


class Door:
    """A socket in the file system."""

    def __init__(self, path: str) -> None:
        self.path = path
        if os.path.exists(path):
            os.remove(path)
        self.socket = socket.socket(socket.AF_UNIX)
        self.socket.bind(path)
        os.chmod(path, 0o666)
        self.socket.listen()

    def fileno(self) -> int:
        return self.socket.fileno()

    def guest(self) -> Guest:
        return Guest(self.socket.accept()[0])

    def close(self) -> None:
        self.socket.close()
        if os.path.exists(self.path):
            os.remove(self.path)
