"""What the tests of the tools share: a folder of their own, the tools, the program, sources made by ogr2ogr itself."""
from __future__ import annotations

import json
import os
import shutil
import subprocess
import tempfile
import unittest
from importlib.machinery import SourceFileLoader
from importlib.util import module_from_spec, spec_from_loader
from types import ModuleType
from typing import Iterator, NamedTuple, Sequence

TOOLS = os.path.dirname(os.path.dirname(os.path.abspath(__file__)))
PROGRAM = os.environ.get('TOPO', os.path.join(os.path.dirname(TOOLS), '.build', 'topo')).split('\n')


class Done(NamedTuple):
    """How a command ended."""

    status: int
    out: str
    told: str


class Place:
    """A folder of a test's own, and what is done in it."""

    folder: str

    def path(self, name: str) -> str:
        return os.path.join(self.folder, name)

    def run_words(self, words: list[str], given: bytes = b'') -> Done:
        done = subprocess.run(words, input=given, capture_output=True, cwd=self.folder)
        return Done(done.returncode, done.stdout.decode(), done.stderr.decode())

    def tool(self, name: str, *words: str) -> Done:
        return self.run_words([os.path.join(TOOLS, name), *words])

    def replay(self, script: str) -> list[str]:
        return self.run_words(PROGRAM + ['replay'], script.encode()).out.splitlines()

    def replayed(self, name: str, script: str) -> tuple[str, str]:
        """Keeps a script and its replies as files; their paths."""
        for end, text in (('topo', script), ('replies', '\n'.join(self.replay(script)) + '\n')):
            with open(self.path('%s.%s' % (name, end)), 'w', encoding='utf-8') as out:
                out.write(text)
        return self.path(name + '.topo'), self.path(name + '.replies')

    def source(self, name: str, geometries: list[dict], *more: str, layer: str = 'lots') -> str:
        """A source by ogr2ogr, of features with these geometries and a field `nr`; words for ogr2ogr may follow."""
        features = [{'type': 'Feature', 'properties': {'nr': 'N%d' % i}, 'geometry': of} for i, of in enumerate(geometries, 1)]
        with open(self.path('made.geojson'), 'w', encoding='utf-8') as out:
            json.dump({'type': 'FeatureCollection', 'name': layer, 'features': features}, out)
        done = self.run_words(['ogr2ogr', '-a_srs', 'EPSG:31467', '-nln', layer, *more, name, 'made.geojson'])
        assert (done.status, done.told) == (0, ''), done
        return self.path(name)

    def rows(self, source: str, asked: str) -> list[dict]:
        """The rows that a query by SQLite finds in a source."""
        done = self.run_words(['ogr2ogr', '-f', 'GeoJSONSeq', '/vsistdout/', source, '-dialect', 'SQLite', '-sql', asked])
        assert done.status == 0, done.told
        return [json.loads(line)['properties'] for line in done.out.splitlines()]


class Case(Place, unittest.TestCase):
    """A test in a folder of its own."""

    def setUp(self) -> None:
        self.folder = tempfile.mkdtemp()
        self.addCleanup(shutil.rmtree, self.folder)


def place() -> Iterator[Place]:
    """The place of a test that is a plain function, and names it as its parameter."""
    with tempfile.TemporaryDirectory() as folder:
        made = Place()
        made.folder = folder
        yield made


# What a plain function may name as a parameter: pytest gives it by conftest.py, unittest by plain.py.
GIVEN = {'place': place}


def tool_as_module(name: str) -> ModuleType:
    """A tool whose functions a test calls."""
    loader = SourceFileLoader(name.replace('-', '_'), os.path.join(TOOLS, name))
    module = module_from_spec(spec_from_loader(loader.name, loader))
    loader.exec_module(module)
    return module


def polygon(*rings: Sequence[tuple[float, float]]) -> dict:
    return {'type': 'Polygon', 'coordinates': [[list(p) for p in [*ring, *ring[:1]]] for ring in rings]}


def rectangle(x0: float, y0: float, x1: float, y1: float) -> dict:
    return polygon([(x0, y0), (x1, y0), (x1, y1), (x0, y1)])


def by_lines(*lines: str) -> str:
    return '\n'.join(lines) + '\n'
