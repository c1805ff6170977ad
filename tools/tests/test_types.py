"""Each function of tools/ and bench/ says what it takes and gives, and mypy finds nothing against it."""
from __future__ import annotations

import os
import subprocess
import sys
import unittest
from importlib.util import find_spec

from test_help import begins_with, programs
from working import TOOLS, Place

BENCH = os.path.join(os.path.dirname(TOOLS), 'bench')
# It imports bench/postgis.py, which has the name of a tool.
WITH_BENCH = os.path.join(TOOLS, 'tests', 'kill_postgis')


def pieces(folder: str) -> list[str]:
    """The modules that are files of a folder."""
    return sorted(os.path.join(folder, name) for name in os.listdir(folder) if name.endswith('.py'))


def scripts() -> list[str]:
    """The programs in Python that are no modules."""
    python = b'#!/usr/bin/env python3', b'#!/usr/bin/python3'
    return [path for path in programs() if not path.endswith('.py') and any(begins_with(path, line) for line in python)]


def read_by_mypy(place: Place, files: list[str]) -> str:
    """What mypy says of these files."""
    paths = os.pathsep.join([TOOLS, os.path.join(TOOLS, 'tests'), BENCH])
    done = subprocess.run([sys.executable, '-m', 'mypy', '--config-file', os.path.join(TOOLS, 'mypy.ini'), '--cache-dir', place.path('cache'), *files],
                          cwd=TOOLS, env={**os.environ, 'MYPYPATH': paths}, stdout=subprocess.PIPE, stderr=subprocess.STDOUT, text=True)
    return '' if done.returncode == 0 else done.stdout


def test_types(place: Place) -> None:
    if find_spec('mypy') is None:
        raise unittest.SkipTest('mypy is not installed (package mypy)')
    tools = [path for path in scripts() if path.startswith(TOOLS) and path != WITH_BENCH]
    ours = [*tools, os.path.join(TOOLS, 'lib'), os.path.join(TOOLS, 'qgis'), os.path.join(TOOLS, 'contracts.py'), *pieces(os.path.join(TOOLS, 'tests'))]
    assert read_by_mypy(place, ours) == ''
    assert read_by_mypy(place, [*pieces(BENCH), WITH_BENCH]) == ''
