"""Who may what: the file of rights, and whether a client may say a line.

The file has a section for each client. All its keys are optional:

    [ann]                    the client's name in the journal
    user = ann               the user, by name or number, that comes by the unix socket
    certificate = ann        the common name in the certificate that comes by TLS
    editor = ann             the one editor whose lines it may say; without it, it may only look and validate
    steward = yes            may also say `class`, `rule`, `droprule`, `version`, `in`, `reconcile`, `post`, and words that this service does not know
    mark = yes               may also say `mark`, `unmark`
"""
from __future__ import annotations

import configparser
import enum
import pwd
import re
from typing import NamedTuple, Optional

from ..replies import LISTINGS, is_skipped

NAME = re.compile('[A-Za-z0-9][A-Za-z0-9_.-]{0,63}')
EDITOR = re.compile('[A-Za-z][A-Za-z0-9_]{0,31}')
BLANKS = re.compile(rb'[ \t]+')
KEYS = {'user', 'certificate', 'editor', 'steward', 'mark'}
OF_EDITORS = {b'begin', b'end', b'discard', b'by'}
OF_MARKERS = {b'mark', b'unmark'}
OWN = {b'batch', b'last', b'status'}


class Verdict(enum.Enum):
    """What becomes of a line: it is kept and asked, only asked, answered by the service, passed over, or refused."""

    KEPT = 1
    LISTING = 2
    OWN = 3
    SKIPPED = 4
    FORBIDDEN = 5


class Client(NamedTuple):
    """A client of the file of rights."""

    name: str
    user: str
    certificate: str
    editor: bytes
    is_steward: bool
    may_mark: bool

    def may(self, words: list[bytes]) -> bool:
        """Whether it may say a line of these fields, which is no listing."""
        if words[0] in OF_EDITORS:
            return bool(self.editor) and words[1:2] == [self.editor]
        if words[0] in OF_MARKERS:
            return self.may_mark
        return words[0] == b'validate' or self.is_steward

    def verdict(self, line: bytes) -> Verdict:
        """What becomes of a line, given without its LF."""
        if is_skipped(line):
            return Verdict.SKIPPED
        words = fields(line, 2)
        if words[0].decode('ascii', 'replace') in LISTINGS:
            return Verdict.LISTING
        if words[0] in OWN:
            return Verdict.OWN
        return Verdict.KEPT if self.may(words) else Verdict.FORBIDDEN


class WrongRights(Exception):
    """A file of rights that cannot be used; its text says why."""


def fields(line: bytes, count: int) -> list[bytes]:
    """The first fields of a line that is not skipped, at most so many."""
    text = line[:-1] if line.endswith(b'\r') else line
    words = text.split(b' ', count)[:count]
    if b'' in words or any(b'\t' in word for word in words):
        words = BLANKS.split(text.strip(b' \t'), maxsplit=count)[:count]
    return words


def client_of(name: str, section: configparser.SectionProxy) -> Client:
    editor = section.get('editor', '')
    if not NAME.fullmatch(name):
        raise WrongRights('`%s` is no name of a client: letters, digits, `_`, `.` and `-`' % name)
    if editor and not EDITOR.fullmatch(editor):
        raise WrongRights('[%s] `%s` is no name of an editor' % (name, editor))
    if unknown := set(section) - KEYS:
        raise WrongRights('[%s] has no key `%s`' % (name, min(unknown)))
    try:
        return Client(name, section.get('user', ''), section.get('certificate', ''), editor.encode(),
                      section.getboolean('steward', False), section.getboolean('mark', False))
    except ValueError as error:
        raise WrongRights('[%s] %s' % (name, error)) from None


class Rights:
    """The clients that a file of rights names."""

    def __init__(self, clients: list[Client]) -> None:
        self.clients = {client.name: client for client in clients}
        for what in 'user', 'certificate', 'editor':
            told = [getattr(client, what) for client in clients if getattr(client, what)]
            if len(told) != len(set(told)):
                raise WrongRights('two clients have the same %s' % what)

    @classmethod
    def read(cls, path: str) -> 'Rights':
        """The rights of a file. Raises WrongRights, and OSError where it cannot be read."""
        parser = configparser.ConfigParser(interpolation=None, default_section='')
        try:
            with open(path, encoding='utf-8') as file:
                parser.read_file(file)
        except (configparser.Error, UnicodeDecodeError) as error:
            raise WrongRights('%s: %s' % (path, ' '.join(str(error).split()))) from None
        return cls([client_of(name, parser[name]) for name in parser.sections()])

    def of_user(self, uid: int) -> Optional[Client]:
        """The client that is this user of the system."""
        try:
            name = pwd.getpwuid(uid).pw_name
        except KeyError:
            name = str(uid)
        return next((client for client in self.clients.values() if client.user in (name, str(uid))), None)

    def of_certificate(self, names: list[str]) -> Optional[Client]:
        """The client whose certificate has these common names: exactly one."""
        if len(names) != 1 or not names[0]:
            return None
        return next((client for client in self.clients.values() if client.certificate == names[0]), None)
