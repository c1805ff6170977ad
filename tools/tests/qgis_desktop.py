#!/usr/bin/python3
"""The whole QGIS on a screen that nobody sees, with the plugin installed and switched on as users have it, beside a real server.

usage: qgis_desktop.py FOLDER [PICTURE]      FOLDER is empty; PICTURE takes what the window shows. Run by test_qgis.py

It starts a server and topo-postgis, and QGIS with a profile of its own; `qgis_inside.py` then works in that QGIS. Needs Xvfb and xauth.
"""
from __future__ import annotations

import os
import subprocess
import sys
from typing import TYPE_CHECKING

HERE = os.path.dirname(os.path.abspath(__file__))
TOOLS = os.path.dirname(HERE)
sys.path[:0] = [HERE, TOOLS]

from lib.frame import Words

if TYPE_CHECKING:
    from postgres import Server

LONG = 240
SCREEN = '-screen 0 1440x860x24'
PROFILE = '.local/share/QGIS/QGIS3/profiles/default'
SETTINGS = '''[PythonPlugins]
topo_errors=true

[PostgreSQL]
connections\\registry\\host=%s
connections\\registry\\port=5432
connections\\registry\\database=gis
connections\\registry\\username=postgres
connections\\registry\\saveUsername=true
connections\\registry\\sslmode=SslDisable
'''


def make_home(home: str, server: Server) -> None:
    """A home whose QGIS has the plugin switched on, and knows the server as `registry`."""
    plugins = os.path.join(home, PROFILE, 'python', 'plugins')
    os.makedirs(plugins)
    os.makedirs(os.path.join(home, PROFILE, 'QGIS'))
    os.makedirs(os.path.join(home, 'run'), mode=0o700)
    os.symlink(os.path.join(TOOLS, 'qgis', 'topo_errors'), os.path.join(plugins, 'topo_errors'))
    with open(os.path.join(home, PROFILE, 'QGIS', 'QGIS3.ini'), 'w', encoding='utf-8') as out:
        out.write(SETTINGS % server.folder)


def run_qgis(home: str, server: Server, picture: str) -> str:
    """Runs QGIS until the script within it ends; what went wrong, if anything did."""
    said = os.path.join(home, 'said')
    environment = {**os.environ, 'HOME': home, 'XDG_RUNTIME_DIR': os.path.join(home, 'run'), 'PATH': '/usr/bin:/bin', 'PICTURE': picture, 'SAID': said,
                   'SERVER': server.folder}
    environment.pop('QT_QPA_PLATFORM', None)
    program = '/usr/bin/qgis.bin' if os.path.exists('/usr/bin/qgis.bin') else 'qgis'
    done = subprocess.run(['xvfb-run', '-a', '-s', SCREEN, program, '--nologo', '--noversioncheck', '--code', os.path.join(HERE, 'qgis_inside.py')],
                          env=environment, stdout=subprocess.PIPE, stderr=subprocess.STDOUT, timeout=LONG)
    if not os.path.exists(said):
        return 'QGIS ended with %d: %s' % (done.returncode, done.stdout.decode('utf-8', 'replace')[-2000:])
    with open(said, encoding='utf-8') as text:
        return text.read()


def main() -> int:
    parser = Words('qgis_desktop.py', __doc__)
    parser.add_argument('folder')
    parser.add_argument('picture', nargs='?')
    given = parser.parse_args()
    from beside import PARCELS, SETUP, Client, Service
    from postgres import Server
    folder = os.path.abspath(given.folder)
    picture = os.path.abspath(given.picture or os.path.join(folder, 'picture.png'))
    server = Server()
    try:
        server.sql(PARCELS)
        subprocess.run([sys.executable, os.path.join(TOOLS, 'postgis'), 'setup', server.dsn(), *SETUP, '--validate', 'asked'], check=True, stdout=subprocess.DEVNULL)
        service = Service(server.dsn())
        try:
            service.said('judged after')
            client = Client(server.dsn())
            client.rows('update parcels set geom = st_translate(geom, 4, 3) where id = 3')
            client.rows('update parcels set geom = st_translate(geom, 3, 0) where id = 6')
            home = os.path.join(folder, 'home')
            make_home(home, server)
            wrong = run_qgis(home, server, picture)
        finally:
            service.end()
    finally:
        server.close()
    print(wrong, end='')
    return 1 if wrong else 0


if __name__ == '__main__':
    sys.exit(main())
