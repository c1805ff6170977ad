"""What the tests of `serve` share: a service in a process of its own, certificates, and clients."""
from __future__ import annotations

import os
import shlex
import signal
import socket
import ssl
import subprocess
import sys
import time
from typing import Callable, Optional

from lib.replies import ENDS
from lib.serve.command import all_groups
from lib.serve.records import Kept
from lib.serve.store import Store
from working import PROGRAM, TOOLS

HERE = os.path.dirname(os.path.abspath(__file__))
# Longer than anything takes here, in seconds.
LONG = 60.0
SHORT_CURVE = ['-newkey', 'ec', '-pkeyopt', 'ec_paramgen_curve:prime256v1', '-nodes', '-days', '2']
ENDINGS = tuple(end.encode() for end in ENDS)


def own_user() -> str:
    return str(os.getuid())


def rights_text(**clients: str) -> str:
    """A file of rights: for each client its keys, with blanks between them."""
    return ''.join('[%s]\n%s\n' % (name, '\n'.join(keys.split())) for name, keys in clients.items())


class Office:
    """An authority with a certificate of the service and one of each name, in a folder."""

    def __init__(self, folder: str, names: list[str]) -> None:
        self.folder = folder
        os.makedirs(folder, exist_ok=True)
        self.make('authority', [])
        for name in ['service', *names]:
            place = ['-addext', 'subjectAltName=IP:127.0.0.1'] if name == 'service' else []
            self.make(name, ['-CA', self.path('authority.pem'), '-CAkey', self.path('authority.key'), *place])

    def path(self, name: str) -> str:
        return os.path.join(self.folder, name)

    def make(self, name: str, words: list[str]) -> None:
        words = ['openssl', 'req', '-x509', *SHORT_CURVE, *words, '-subj', '/CN=' + name]
        subprocess.run([*words, '-keyout', self.path(name + '.key'), '-out', self.path(name + '.pem')], check=True, capture_output=True)

    def words(self, port: int) -> list[str]:
        return ['--listen', '127.0.0.1:%d' % port, '--certificate', self.path('service.pem'), '--key', self.path('service.key'),
                '--authority', self.path('authority.pem')]

    def context(self, name: Optional[str]) -> ssl.SSLContext:
        """Of a client with the certificate of this name, or with none."""
        context = ssl.SSLContext(ssl.PROTOCOL_TLS_CLIENT)
        context.load_verify_locations(self.path('authority.pem'))
        if name:
            context.load_cert_chain(self.path(name + '.pem'), self.path(name + '.key'))
        return context


def free_port() -> int:
    with socket.create_server(('127.0.0.1', 0)) as found:
        return found.getsockname()[1]


class Serving:
    """A service over a folder; what it tells goes to a file."""

    def __init__(self, folder: str, rights: str, *words: str, program: Optional[list[str]] = None) -> None:
        self.folder = folder
        self.socket = os.path.join(folder, 'socket')
        self.town = os.path.join(folder, 'town')
        self.told_path = os.path.join(folder, 'told')
        self.words = ['--rights', self.path('rights'), '--socket', self.socket, '--program', shlex.join(program or PROGRAM), *words]
        self.process: Optional[subprocess.Popen] = None
        os.makedirs(folder, exist_ok=True)
        self.write_rights(rights)

    def path(self, name: str) -> str:
        return os.path.join(self.folder, name)

    def write_rights(self, text: str) -> None:
        with open(self.path('rights'), 'w', encoding='utf-8') as out:
            out.write(text)

    def start(self, *fault: str, before: Optional[Callable[[], object]] = None) -> 'Serving':
        """Starts it, and waits until it is ready or has ended; with words of a fault, it kills itself there."""
        command = [os.path.join(HERE, 'faulty_serve'), *fault] if fault else [os.path.join(TOOLS, 'serve')]
        with open(self.told_path, 'ab') as told:
            begin = told.tell()
            self.process = subprocess.Popen([sys.executable, *command, self.town, *self.words], stderr=told, stdout=told, preexec_fn=before)
        end = time.monotonic() + LONG
        while b'ready' not in self.told(begin) and self.process.poll() is None and time.monotonic() < end:
            time.sleep(0.01)
        return self

    def told(self, begin: int = 0) -> bytes:
        with open(self.told_path, 'rb') as file:
            file.seek(begin)
            return file.read()

    def wait(self) -> int:
        return self.process.wait(LONG)

    def stop(self, how: int = signal.SIGTERM) -> int:
        self.process.send_signal(how)
        return self.wait()

    def end(self) -> None:
        """Kills it, where it is still there."""
        if self.process is not None and self.process.poll() is None:
            self.stop(signal.SIGKILL)

    def kept(self) -> list[Kept]:
        """The lines that were ever kept."""
        return [kept for group in all_groups(Store(self.town)) for kept in group.lines]

    def script(self) -> list[str]:
        return [kept.line.decode('utf-8', 'replace') for kept in self.kept()]


class Desk:
    """A client that waits for each reply."""

    def __init__(self, serving: Serving, uid: Optional[int] = None) -> None:
        self.socket = socket.socket(socket.AF_UNIX)
        self.socket.settimeout(LONG)
        if uid is not None:
            os.seteuid(uid)
        try:
            self.socket.connect(serving.socket)
        finally:
            if uid is not None:
                os.seteuid(0)
        self.lines = self.socket.makefile('rb')

    def send(self, text: bytes) -> None:
        self.socket.sendall(text)

    def reply(self) -> list[str]:
        """The next reply; what there is of it where the connection ends."""
        found: list[bytes] = []
        try:
            while not found or not found[-1].startswith(ENDINGS):
                line = self.lines.readline()
                if not line:
                    break
                found.append(line)
        except ConnectionError:
            pass
        return [line.decode().rstrip('\n') for line in found]

    def ask(self, line: str) -> list[str]:
        self.send(line.encode() + b'\n')
        return self.reply()

    def close(self) -> None:
        self.lines.close()
        self.socket.close()


class SecureDesk(Desk):
    """The same, by TLS, with the certificate of a name."""

    def __init__(self, office: Office, port: int, name: Optional[str]) -> None:
        self.socket = office.context(name).wrap_socket(socket.create_connection(('127.0.0.1', port), LONG), server_hostname='127.0.0.1')
        self.lines = self.socket.makefile('rb')
