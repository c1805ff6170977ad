"""Which python3 a tool goes on with: one that has GDAL's bindings and numpy, or other modules, where there is one."""
from __future__ import annotations

import os
import subprocess
import sys
from importlib.util import find_spec
from typing import Iterator, Sequence

# Says which way sources are read: `bindings` or `programs`. Where it is not set, the tools choose.
READER = 'TOPO_READER'
TRIED = 'TOPO_READER_TRIED'
BINDINGS = 'osgeo', 'numpy'
PROBE = ('import sys; from importlib.util import find_spec; '
         'sys.exit(not (sys.version_info >= (3, 10) and all(map(find_spec, sys.argv[1:]))))')
LONGEST = 20


def has(modules: Sequence[str]) -> bool:
    """Whether this python3 has these modules."""
    return all(find_spec(name) is not None for name in modules)


def has_bindings() -> bool:
    return has(BINDINGS)


def others() -> Iterator[str]:
    """The other programs python3 of the path."""
    seen = {os.path.realpath(sys.executable)}
    for folder in os.get_exec_path():
        path = os.path.join(folder, 'python3')
        if os.path.isabs(path) and os.access(path, os.X_OK) and os.path.realpath(path) not in seen:
            seen.add(os.path.realpath(path))
            yield path


def suits(path: str, modules: Sequence[str]) -> bool:
    try:
        return subprocess.run([path, '-c', PROBE, *modules], stdin=subprocess.DEVNULL, capture_output=True, timeout=LONGEST).returncode == 0
    except (OSError, subprocess.TimeoutExpired):
        return False


def go_on_with(*wanted: Sequence[str]) -> None:
    """Starts the tool anew in a python3 of the path that has the first of these lists of modules that this one or another has, where it is
    not this one."""
    if os.environ.pop(TRIED, None):
        return
    for modules in wanted:
        if has(modules):
            return
        path = next((path for path in others() if suits(path, modules)), None)
        if path:
            os.execve(path, [path, *sys.argv], dict(os.environ, **{TRIED: '1'}))


def go_on_with_bindings() -> None:
    """Starts the tool anew in a python3 of the path that has the bindings, where this one has not and another has."""
    if os.environ.get(READER) != 'programs':
        go_on_with(BINDINGS)
