"""The plugin for QGIS: in a window without a screen by the system's Python, by qgis_process, and in the whole QGIS on a screen of Xvfb."""
import os
import shutil
import subprocess

from test_postgis import PYTHON, missing as missing_of_postgis
from working import PROGRAM, TOOLS, Case

HERE = os.path.dirname(os.path.abspath(__file__))
LONG = 300


def missing() -> str:
    """What the tests in QGIS need and this machine has not."""
    asked = 'import sys; sys.path.insert(0, "/usr/share/qgis/python"); import qgis.core'
    if not os.path.exists(PYTHON) or subprocess.run([PYTHON, '-c', asked], capture_output=True).returncode:
        return 'QGIS (packages qgis and python3-qgis)'
    return missing_of_postgis()


def missing_of_desktop() -> str:
    """What the whole QGIS needs beside that."""
    found = [name for name in ('xvfb-run', 'xauth') if not shutil.which(name, path='/usr/bin')]
    return missing() or ('%s (packages xvfb and xauth)' % ' and '.join(found) if found else '')


def missing_parts() -> list[tuple[str, str]]:
    """The parts that are skipped here, and what is missing for them."""
    if missing():
        return [('test_qgis', missing())]
    return [('the whole desktop of test_qgis', missing_of_desktop())] if missing_of_desktop() else []


class Plugin(Case):
    def setUp(self) -> None:
        super().setUp()
        if missing():
            self.skipTest('without %s' % missing())

    def test_dock_and_algorithms(self) -> None:
        self.by_python('qgis_cases.py', 'PICTURE')

    def test_the_whole_desktop(self) -> None:
        if missing_of_desktop():
            self.skipTest('without %s' % missing_of_desktop())
        self.by_python('qgis_desktop.py', 'PICTURE_OF_DESKTOP')

    def by_python(self, cases: str, picture: str) -> None:
        """Runs cases by the system's Python; their picture goes where a variable says."""
        done = subprocess.run([PYTHON, os.path.join(HERE, cases), self.folder, *os.environ.get(picture, '').split()], stdout=subprocess.PIPE,
                              stderr=subprocess.STDOUT, text=True, timeout=LONG, env=dict(os.environ, TOPO='\n'.join(PROGRAM)))
        self.assertEqual(done.returncode, 0, done.stdout)

    def test_as_qgis_finds_it(self) -> None:
        """The algorithms of an installed plugin, from a shell."""
        home, plugins = self.path('home'), self.path('home/.local/share/QGIS/QGIS3/profiles/default/python/plugins')
        os.makedirs(plugins)
        os.symlink(os.path.join(TOOLS, 'qgis', 'topo_errors'), os.path.join(plugins, 'topo_errors'))
        os.makedirs(self.path('run'), 0o700)
        environment = dict(os.environ, HOME=home, XDG_RUNTIME_DIR=self.path('run'), QT_QPA_PLATFORM='offscreen', PATH='/usr/bin:/bin')
        os.makedirs(self.path('programs'))
        os.symlink(PROGRAM[0], self.path('programs/topo'))
        self.assertEqual(self.run_words([os.path.join(os.path.dirname(TOOLS), 'examples', 'make_parcels'), 'parcels.gpkg']).status, 0)
        checked = ['run', 'topo:check', '--', 'LAYERS=' + self.path('parcels.gpkg'), 'GRID=0.001', 'RULES=polygon_must_not_overlap parcels',
                   'TOPO=' + self.path('programs'), 'OUTPUT=' + self.path('errors.gpkg')]
        words = ['/usr/bin/qgis_process.bin' if os.path.exists('/usr/bin/qgis_process.bin') else 'qgis_process']
        for more, said in ((['plugins', 'enable', 'topo_errors'], 'topo_errors'), (['help', 'topo:check'], 'Check layers'), (checked, '3 errors in 3 polygons')):
            done = subprocess.run(words + more, capture_output=True, text=True, env=environment, timeout=LONG)
            self.assertIn(said, done.stdout + done.stderr)
