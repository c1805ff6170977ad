"""The commands of the documents with their outputs: blocks marked `console`, in which a line that begins with `$ ` is a command.

The blocks of a page are one session, in an empty folder with links to the tools, the examples and the program as `./topo`. What a
command writes, to both of its streams, is compared with the lines below it, but for lines of progress; a line `..` stands for any lines.
"""
from __future__ import annotations

import os
import re
import shlex
import shutil
import subprocess
import tempfile
from typing import Iterator, NamedTuple

LINKS = 'tools', 'examples'
PROGRESS = re.compile('[0-9,]+ of [0-9,]+ features')
NEEDS = {'ogr2ogr': 'gdal-bin', 'parallel': 'parallel'}


class Command(NamedTuple):
    """A command and the lines that the page shows below it."""

    text: str
    shown: list[str]


def commands_of(page: str) -> list[Command]:
    """The commands of a page in their order; one that ends with a backslash goes on in the next line."""
    found: list[Command] = []
    for block in re.findall(r'^```console\n(.*?)^```$', page, re.M | re.S):
        for line in block.replace('\\\n', '').splitlines():
            if line.startswith('$ '):
                found.append(Command(line[2:], []))
            elif found:
                found[-1].shown.append(line)
    return found


def is_shown(said: list[str], shown: list[str]) -> bool:
    """Whether the lines are those that are shown."""
    pattern = ''.join('(?:.*\n)*' if line == '..' else re.escape(line) + '\n' for line in shown)
    return re.fullmatch(pattern, ''.join(line + '\n' for line in said)) is not None


def prepare(folder: str, root: str, program: list[str]) -> None:
    """Puts into the folder what the commands find in the repository."""
    for name in LINKS:
        os.symlink(os.path.join(root, name), os.path.join(folder, name))
    words = [os.path.abspath(shutil.which(program[0]) or program[0])] + program[1:]
    launcher = os.path.join(root, 'tools', 'lib', 'launch.sh')
    lines = ['#!/bin/sh', 'called=./topo beside=tools/ pages=docs version= more=', '. ' + shlex.quote(launcher), 'launch %s "$@"' % shlex.join(words)]
    with open(os.path.join(folder, 'topo'), 'w', encoding='utf-8') as out:
        out.write('\n'.join(lines) + '\n')
    os.chmod(os.path.join(folder, 'topo'), 0o755)


def wrong_commands(root: str, program: list[str], name: str, page: str) -> Iterator[str]:
    """The commands of a page that write something else than it shows."""
    commands = commands_of(page)
    if not commands:
        return
    missing = [need for need in NEEDS if any(need in command.text for command in commands) and shutil.which(need) is None]
    if missing:
        print('%s: its commands are skipped, since %s is not installed (package %s)' % (name, missing[0], NEEDS[missing[0]]))
        return
    with tempfile.TemporaryDirectory() as folder:
        prepare(folder, root, program)
        for command in commands:
            done = subprocess.run(['bash', '-c', command.text], cwd=folder, stdout=subprocess.PIPE, stderr=subprocess.STDOUT)
            said = [line.rstrip() for line in done.stdout.decode('utf-8', 'replace').splitlines() if not PROGRESS.fullmatch(line)]
            if not is_shown(said, [line.rstrip() for line in command.shown]):
                yield '%s: `%s` writes %r' % (name, command.text, '\n'.join(said)[:600])
