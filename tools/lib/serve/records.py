"""The text of a journal: groups of kept lines, each group closed by a seal.

A file of a journal is text. Its first line is its head; then come records, one a line:

    l NUMBER TIME NAME LINE     a kept line, with its number, the time and the client that sent it
    r FIRST LAST SUM            the sum of the replies to the lines FIRST to LAST
    s LAST SUM                  a seal: the end of a group, all of which is written and synced at once

The sum of a seal is of the seal before it (in the first group, of the one that the head names) and of all bytes of the group. So each
seal answers for all lines before it.
"""
from __future__ import annotations

import hashlib
import re
from typing import BinaryIO, Iterator, NamedTuple, Optional

NO_SEAL = '0' * 32
HEAD = re.compile(rb'topo journal 1 after ([0-9]+) ([0-9a-f]{32})\n')
LINE = re.compile(rb'l ([0-9]+) (\S+) (\S+) ([^\n]*)\n')
BLOCK = re.compile(rb'r ([0-9]+) ([0-9]+) ([0-9a-f]{32})\n')
SEAL = re.compile(rb's ([0-9]+) ([0-9a-f]{32})\n')
# The end of a group whose seal was written, and whatever became of its LF or the one before it.
SEALED = re.compile(rb's [0-9]+ [0-9a-f]{32}.\Z', re.S)
# What a crash of the machine leaves of a block that was not written.
UNWRITTEN = bytes(512)


class Kept(NamedTuple):
    """A line of the journal, without its LF."""

    number: int
    time: str
    name: str
    line: bytes


class Block(NamedTuple):
    """The sum of the replies to some lines that follow one another."""

    first: int
    last: int
    sum: str


class Group(NamedTuple):
    """What was written at once, its seal, and where it ends in its file, in bytes."""

    lines: list[Kept]
    blocks: list[Block]
    seal: str
    end: int


class Damaged(Exception):
    """A journal or a project that is not what was written; its text says where."""


class Torn(Exception):
    """The end of a file is a group that was not written whole; `end` is where the last whole one ends, in bytes."""

    def __init__(self, end: int, count: int) -> None:
        super().__init__('%d bytes that were never answered' % count)
        self.end = end


def head_text(last: int, seal: str) -> bytes:
    """The head of a file whose lines come after this one, and after this seal."""
    return b'topo journal 1 after %d %s\n' % (last, seal.encode())


def seal_of(before: str, body: bytes) -> str:
    return hashlib.blake2b(before.encode() + body, digest_size=16).hexdigest()


def line_record(kept: Kept) -> bytes:
    return b'l %d %s %s %s\n' % (kept.number, kept.time.encode(), kept.name.encode(), kept.line)


def block_record(block: Block) -> bytes:
    return b'r %d %d %s\n' % (block.first, block.last, block.sum.encode())


def group_text(lines: list[Kept], blocks: list[Block], before: str) -> tuple[bytes, str]:
    """The bytes of a group with at least one line, and its seal."""
    body = b''.join(map(block_record, blocks)) + b''.join(map(line_record, lines))
    seal = seal_of(before, body)
    return body + b's %d %s\n' % (lines[-1].number, seal.encode()), seal


def kept_of(record: bytes) -> Optional[Kept]:
    found = LINE.fullmatch(record)
    return Kept(int(found[1]), found[2].decode(), found[3].decode(), found[4]) if found else None


def block_of(record: bytes) -> Optional[Block]:
    found = BLOCK.fullmatch(record)
    return Block(int(found[1]), int(found[2]), found[3].decode()) if found else None


def is_beginning(rest: bytes) -> bool:
    """Whether this is the beginning of a group: whole records, no seal, and perhaps a part of one."""
    *records, _ = rest.split(b'\n')
    return not SEALED.search(rest[-80:]) and all(kept_of(record + b'\n') or block_of(record + b'\n') for record in records)


def has_seal(rest: bytes) -> bool:
    """Whether a later group is whole: its seal fits the seal before it and what stands between."""
    seals = list(re.finditer(rb'^' + SEAL.pattern, rest, re.M))
    return any(seal_of(before[2].decode(), rest[before.end():seal.start()]) == seal[2].decode() for before, seal in zip(seals, seals[1:]))


def is_torn(rest: bytes) -> bool:
    """Whether what follows the last whole group is what a crash leaves of a group, and nothing that was ever answered."""
    return is_beginning(rest) or UNWRITTEN in rest and not has_seal(rest)


class GroupReader:
    """Reads the groups of one file of a journal, from its head on."""

    def __init__(self, file: BinaryIO, path: str) -> None:
        self.file = file
        self.path = path
        found = HEAD.fullmatch(file.readline(200))
        if found is None:
            raise Damaged('%s does not begin as a journal' % path)
        self.last, self.seal, self.end = int(found[1]), found[2].decode(), found.end()

    def group(self) -> Optional[Group]:
        """The next group; none at the end of the file. Raises Torn or Damaged."""
        lines: list[Kept] = []
        blocks: list[Block] = []
        body: list[bytes] = []
        for record in self.file:
            if seal := SEAL.fullmatch(record):
                return self.sealed(lines, blocks, b''.join(body), seal)
            body.append(record)
            if kept := kept_of(record):
                lines.append(kept)
            elif block := block_of(record):
                blocks.append(block)
            else:
                self.fail(b''.join(body) + (self.file.read() if record.endswith(b'\n') else b''))
        if body:
            self.fail(b''.join(body))
        return None

    def sealed(self, lines: list[Kept], blocks: list[Block], body: bytes, seal: re.Match[bytes]) -> Group:
        last = lines[-1].number if lines else 0
        in_order = [kept.number for kept in lines] == list(range(self.last + 1, last + 1))
        if not lines or not in_order or int(seal[1]) != last or seal_of(self.seal, body) != seal[2].decode():
            self.fail(body + seal[0] + self.file.read())
        self.last, self.seal, self.end = last, seal[2].decode(), self.end + len(body) + seal.end()
        return Group(lines, blocks, self.seal, self.end)

    def fail(self, rest: bytes) -> None:
        """Raises what the bytes after the last whole group are."""
        if is_torn(rest):
            raise Torn(self.end, len(rest))
        raise Damaged('%s is damaged after line %d, byte %d' % (self.path, self.last, self.end))

    def groups(self) -> Iterator[Group]:
        while group := self.group():
            yield group
