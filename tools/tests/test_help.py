"""Each program of tools/ and bench/ says with `--help` how it is called, and does nothing else."""
from __future__ import annotations

import os
import subprocess
from concurrent.futures import ThreadPoolExecutor

from working import TOOLS, Place

ROOT = os.path.dirname(TOOLS)


def programs() -> list[str]:
    """The files of both folders that the system runs by their first line."""
    found = []
    for part in ('tools', 'bench'):
        for folder, folders, names in os.walk(os.path.join(ROOT, part)):
            folders[:] = [name for name in folders if name != '__pycache__']
            found += [path for path in (os.path.join(folder, name) for name in names) if os.access(path, os.X_OK) and begins_with(path, b'#!')]
    return sorted(found)


def begins_with(path: str, some: bytes) -> bool:
    with open(path, 'rb') as file:
        return file.read(len(some)) == some


def helped(path: str, folder: str) -> str:
    """What is wrong with the help of a program; nothing where it is good."""
    done = subprocess.run([path, '--help'], cwd=folder, stdin=subprocess.DEVNULL, capture_output=True, text=True)
    if (done.returncode, done.stderr) != (0, ''):
        return '%s ends with %d: %s' % (path, done.returncode, done.stderr[-300:])
    return '' if os.path.basename(path) in done.stdout else '%s does not say how it is called: %s' % (path, done.stdout[:300])


def test_each_says_how_it_is_called(place: Place) -> None:
    assert len(programs()) > 50
    with ThreadPoolExecutor(4) as pool:
        assert list(filter(None, pool.map(lambda path: helped(path, place.folder), programs()))) == []
    assert os.listdir(place.folder) == []
