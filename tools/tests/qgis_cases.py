#!/usr/bin/python3
"""The plugin for QGIS in a window without a screen: the dock beside tables and beside layers, and the algorithms.

usage: qgis_cases.py FOLDER [PICTURE]      FOLDER is empty; PICTURE takes what the window shows. Run by test_qgis.py

It ends with os._exit: a QGIS that ends as it should crashes once it has had a canvas.
"""
from __future__ import annotations

import os
import signal
import subprocess
import sys
import time
import traceback
from typing import TYPE_CHECKING, Any, Callable

os.environ['QT_QPA_PLATFORM'] = 'offscreen'
HERE = os.path.dirname(os.path.abspath(__file__))
TOOLS = os.path.dirname(HERE)
FOLDER = sys.argv[1]
for name, part in (('HOME', 'home'), ('XDG_RUNTIME_DIR', 'run')):
    os.environ[name] = os.path.join(FOLDER, part)
    os.makedirs(os.environ[name], mode=0o700, exist_ok=True)
sys.path[:0] = ['/usr/share/qgis/python', '/usr/share/qgis/python/plugins', os.path.join(TOOLS, 'qgis'), HERE, TOOLS]

from qgis.core import QgsApplication, QgsProject, QgsRectangle, QgsSettings, QgsVectorLayer
from qgis.gui import QgsMapCanvas
from qgis.PyQt.QtCore import QEventLoop, Qt, QTimer
from qgis.PyQt.QtGui import QColor
from qgis.PyQt.QtTest import QTest
from qgis.PyQt.QtWidgets import QDockWidget, QMainWindow, QPushButton

if TYPE_CHECKING:
    from beside import Client, Service
    from postgres import Server

LONG = 60
PROGRAM = os.environ['TOPO'].split('\n')[0]


class Face:
    """As much of QgisInterface as the plugin uses."""

    def __init__(self) -> None:
        self.window, self.canvas = QMainWindow(), QgsMapCanvas()
        self.window.setCentralWidget(self.canvas)
        self.window.resize(1180, 640)

    def mapCanvas(self) -> QgsMapCanvas:
        return self.canvas

    def mainWindow(self) -> QMainWindow:
        return self.window

    def addDockWidget(self, area: int, dock: QDockWidget) -> None:
        self.window.addDockWidget(area, dock)

    def removeDockWidget(self, dock: QDockWidget) -> None:
        self.window.removeDockWidget(dock)


def turn(milliseconds: int) -> None:
    """Lets the event loop turn."""
    loop = QEventLoop()
    QTimer.singleShot(milliseconds, loop.quit)
    loop.exec_()


def until(is_so: Callable[[], object], what: str) -> None:
    end = time.monotonic() + LONG
    while not is_so():
        if time.monotonic() > end:
            raise AssertionError('not so after %d s: %s' % (LONG, what))
        turn(50)


def rendered(canvas: QgsMapCanvas) -> None:
    loop = QEventLoop()
    canvas.mapCanvasRefreshed.connect(loop.quit)
    QTimer.singleShot(LONG * 1000, loop.quit)
    canvas.refresh()
    loop.exec_()


def share_of(canvas: QgsMapCanvas, colour: str) -> float:
    """Which share of the map has nearly this colour."""
    image, of = canvas.grab().toImage(), QColor(colour)
    near = lambda x, y: max(abs(a - b) for a, b in zip(QColor(image.pixel(x, y)).getRgb(), of.getRgb())) < 40
    spots = [(x, y) for x in range(0, image.width(), 5) for y in range(0, image.height(), 5)]
    return sum(near(*spot) for spot in spots) / len(spots)


class Window:
    """A window with the plugin, as QGIS would load it."""

    def __init__(self) -> None:
        import topo_errors
        self.face = Face()
        self.plugin = topo_errors.classFactory(self.face)
        self.plugin.initGui()
        self.dock, self.canvas = self.plugin.dock, self.face.canvas
        self.face.window.show()
        self.face.window.resizeDocks([self.dock], [560], Qt.Horizontal)

    def texts(self, name: str) -> list[tuple]:
        return [row.texts for row in self.dock.models[name].rows]

    def click_row(self, name: str, row: int) -> None:
        self.dock.tabs.setCurrentIndex(list(self.dock.models).index(name))
        turn(50)
        view = self.dock.views[name]
        spot = view.visualRect(view.model().index(row, 0)).center()
        QTest.mouseClick(view.viewport(), Qt.LeftButton, Qt.NoModifier, spot)

    def press(self, text: str) -> None:
        button = next(button for button in self.dock.findChildren(QPushButton) if button.text() == text)
        QTest.mouseClick(button, Qt.LeftButton)

    def show_layers(self, *more: QgsVectorLayer) -> None:
        """Puts the layers on the map, errors above the others."""
        QgsProject.instance().addMapLayers([layer for layer in more if not QgsProject.instance().mapLayer(layer.id())])
        layers = [*self.dock.source.layers(), *more]
        self.canvas.setDestinationCrs(more[0].crs())
        self.canvas.setLayers(layers)
        self.canvas.setExtent(more[0].extent())
        turn(50)


def background(path: str, name: str, provider: str) -> QgsVectorLayer:
    layer = QgsVectorLayer(path, name, provider)
    assert layer.isValid(), path
    layer.renderer().symbol().setColor(QColor('#dfe8d8'))
    return layer


# ---- the algorithms, and the dock beside what they wrote

def algorithms() -> None:
    import processing
    from processing.core.Processing import Processing
    Processing.initialize()
    made = subprocess.run([os.path.join(os.path.dirname(TOOLS), 'examples', 'make_parcels'), os.path.join(FOLDER, 'parcels.gpkg')])
    assert made.returncode == 0
    parcels = QgsVectorLayer(os.path.join(FOLDER, 'parcels.gpkg'), 'parcels', 'ogr')
    asked: dict[str, Any] = {'LAYERS': [parcels], 'GRID': '0.001', 'RULES': 'polygon_must_not_overlap parcels', 'ID': 'parcel', 'TOPO': folder_of_topo()}
    out = lambda name: os.path.join(FOLDER, name)
    processing.run('topo:check', {**asked, 'OUTPUT': out('errors.gpkg')})
    assert count(out('errors.gpkg')) == 3, count(out('errors.gpkg'))
    processing.run('topo:from_ogr', {**asked, 'OUTPUT': out('s.topo')})
    processing.run('topo:replay', {'SCRIPT': out('s.topo'), 'TOPO': asked['TOPO'], 'OUTPUT': out('s.replies')})
    processing.run('topo:to_gis', {'SCRIPT': out('s.topo'), 'REPLIES': out('s.replies'), 'OUTPUT': out('steps.gpkg')})
    assert count(out('steps.gpkg')) == 3
    wrong(processing, 'topo:check', {**asked, 'RULES': 'polygon_must_not_overlap lots', 'OUTPUT': out('none.gpkg')}, 'there is no class `lots`')
    wrong(processing, 'topo:check', {**asked, 'RULES': '', 'OUTPUT': out('none.gpkg')}, 'name a rule')
    wrong(processing, 'topo:replay', {'SCRIPT': out('s.topo'), 'TOPO': FOLDER, 'OUTPUT': out('s.replies')}, 'there is no program topo in')


def folder_of_topo() -> str:
    """A folder with the program that is tested, under its name."""
    folder = os.path.join(FOLDER, 'programs')
    os.makedirs(folder)
    os.symlink(PROGRAM, os.path.join(folder, 'topo'))
    return folder


def count(path: str) -> int:
    return QgsVectorLayer(path + '|layername=error_polygons', 'errors', 'ogr').featureCount()


def wrong(processing: Any, name: str, parameters: dict, text: str) -> None:
    """An algorithm ends with these words."""
    from qgis.core import QgsProcessingException
    try:
        processing.run(name, parameters)
    except QgsProcessingException as fault:
        assert text in str(fault), fault
    else:
        raise AssertionError('no fault: ' + text)


def beside_layers(window: Window) -> None:
    dock, path = window.dock, os.path.join(FOLDER, 'errors.gpkg')
    dock.choice.setCurrentIndex(dock.choice.count() - 1)
    window.press('Connect')
    assert 'no layer error_polygons' in dock.state.text(), dock.state.text()
    QgsProject.instance().addMapLayer(QgsVectorLayer(path + '|layername=error_polygons', 'error_polygons', 'ogr'))
    window.press('Connect')
    window.show_layers(background(os.path.join(FOLDER, 'parcels.gpkg'), 'parcels', 'ogr'))
    assert [texts[1:3] for texts in window.texts('Errors')] == [('parcels 03/06', 'parcels 03/07'), ('parcels 10/13', 'parcels 10/13a'), ('parcels 19/18', 'parcels 19/19')]
    window.click_row('Errors', 1)
    assert zoomed(window, 1)
    dock.mark('exception', '')
    assert window.texts('Errors')[1][3] == 'exception' and dock.state.text().startswith('append '), dock.state.text()
    with open(os.path.join(FOLDER, 'errors.marks'), encoding='ascii') as lines:
        assert lines.read() == 'mark 1 414 1000\n'
    window.press('Validate window')
    assert 'only a service can validate' in dock.state.text()
    QgsProject.instance().clear()
    turn(50)
    assert dock.source is None and dock.state.text() == 'not connected'


def zoomed(window: Window, row: int) -> bool:
    """Whether the map shows the places of an error, and not much more."""
    layer, number = window.dock.models['Errors'].rows[row].spots[0]
    box = layer.getFeature(number).geometry().boundingBox()
    return window.canvas.extent().contains(box) and window.canvas.extent().width() < 40 * max(box.width(), box.height())


# ---- the dock beside tables

def beside_tables(window: Window, picture: str) -> None:
    from beside import PARCELS, SETUP, Client, Service
    from postgres import Server
    server = Server()
    try:
        server.sql(PARCELS)
        done = subprocess.run([sys.executable, os.path.join(TOOLS, 'postgis'), 'setup', server.dsn(), *SETUP, '--validate', 'asked'], capture_output=True, text=True)
        assert done.returncode == 0, done.stderr
        service = Service(server.dsn())
        try:
            service.said('judged after')
            in_tables(window, server, Client(server.dsn()), service, picture)
        finally:
            service.end()
    finally:
        server.close()


def connect(window: Window, server: Server, name: str, user: str) -> None:
    """Makes a connection that QGIS knows, and presses Connect."""
    for key, value in (('host', server.folder), ('port', '5432'), ('database', 'gis'), ('username', user), ('saveUsername', 'true')):
        QgsSettings().setValue('PostgreSQL/connections/%s/%s' % (name, key), value)
    window.dock.choice.insertItem(0, name)
    window.dock.choice.setCurrentIndex(0)
    window.press('Connect')


def in_tables(window: Window, server: Server, client: Client, service: Service, picture: str) -> None:
    dock = window.dock
    uri = "dbname='gis' host=%s user='postgres' sslmode=disable" % server.folder
    connect(window, server, 'registry', 'postgres')
    assert dock.source, dock.state.text()
    parcels = background(uri + ' key=\'id\' srid=25832 type=Polygon table="public"."parcels" (geom)', 'parcels', 'postgres')
    window.show_layers(parcels)
    assert dock.state.text().startswith('0 errors, 0 exceptions, 0 dirty areas; judged as of'), dock.state.text()
    client.rows('update parcels set geom = st_translate(geom, 4, 3) where id = 3')
    client.rows('update parcels set geom = st_translate(geom, 3, 0) where id = 6')
    until(lambda: window.texts('Dirty'), 'dirty areas, by a notification')
    window.canvas.setExtent(QgsRectangle(500050, 5699980, 500110, 5700040))
    window.press('Validate window')
    until(lambda: len(window.texts('Errors')) == 1, 'the errors of the window')
    assert len(window.texts('Dirty')) == 2, window.texts('Dirty')
    held(window, server)
    client.rows("insert into parcels values (30, 'SRID=25832;POLYGON((500230 5700000,500250 5700020,500250 5700000,500230 5700020,500230 5700000))')")
    until(lambda: client.rows('select 1 from topo.refused'), 'a row left out')
    window.click_row('Errors', 0)
    window.dock.tabs.setCurrentIndex(3)
    assert window.texts('Left out') == [('parcels', '30', 'its segments 0 and 2 cross at 500240 5700010')], window.texts('Left out')
    client.rows("insert into wells values ('a', 'SRID=25832;POINT(500090 5700012)'), ('b', 'SRID=25832;POINT(500090 5700012)')")
    client.rows('select topo.validate(500080, 5699990, 500110, 5700015)')
    until(lambda: len(window.texts('Errors')) == 2, 'the error of two wells')
    marks(window, client)
    pictured(window, parcels, picture)
    by_a_layer(window, client)
    window.canvas.setExtent(QgsRectangle(5e5, 57e5, 5e5 + 1, 57e5 + 1))
    window.click_row('Errors', 0)
    assert zoomed(window, 0)
    says_no(window, client, server)
    waits(window, client)
    broken(window, service, server)


def held(window: Window, server: Server) -> None:
    from beside import Client
    other = Client(server.dsn(), False)
    other.rows("set application_name = 'a map'")
    other.rows('select from parcels where id = 9 for update')
    window.click_row('Held', 0)
    assert [texts[:4] for texts in window.texts('Held')] == [('parcels', '9', 'postgres', 'a map')], window.texts('Held')
    window.click_row('Held', 0)
    assert window.canvas.extent().contains(QgsRectangle(500180, 5700000, 500200, 5700020))
    other.db.rollback()
    window.dock.refresh()
    assert window.texts('Held') == []


def marks(window: Window, client: Client) -> None:
    row = next(number for number, texts in enumerate(window.texts('Errors')) if texts[0] == 'point_must_be_disjoint')
    window.click_row('Errors', row)
    window.dock.mark('exception', "the well's shaft")
    until(lambda: window.texts('Errors')[row][3:] == ('exception', "the well's shaft"), 'an exception')
    assert client.rows('select subject, note from topo.exception') == [('a', "the well's shaft")]


def by_a_layer(window: Window, client: Client) -> None:
    """The column mark is edited as any other attribute of a layer."""
    layer = window.dock.source.errors['points']
    feature = next(layer.getFeatures())
    assert layer.startEditing() and layer.changeAttributeValue(feature.id(), layer.fields().indexOf('mark'), 'error')
    assert layer.commitChanges(), layer.commitErrors()
    until(lambda: not client.rows('select 1 from topo.exception'), 'no exception')


def pictured(window: Window, parcels: QgsVectorLayer, picture: str) -> None:
    """The picture shows an error in red, an exception in grey, dirt in yellow."""
    client = window.dock.source
    client.sql('update parcels set geom = st_translate(geom, 0, 4) where id = 9')
    until(lambda: len(window.texts('Dirty')) == 4, 'dirty areas')
    window.dock.tabs.setCurrentIndex(0)
    window.canvas.setExtent(QgsRectangle(500040, 5699960, 500220, 5700060))
    rendered(window.canvas)
    assert share_of(window.canvas, '#c8102e') > 0.001, 'no red'
    assert share_of(window.canvas, '#a87900') > 0.001, 'no dirt'
    assert window.face.window.grab().save(picture)


def says_no(window: Window, client: Client, server: Server) -> None:
    """What the database refuses stands in the line below the buttons, and nothing is marked."""
    dock, registry = window.dock, window.dock.source
    client.rows('create role guest login')
    connect(window, server, 'guest', 'guest')
    assert dock.source is registry and 'permission denied for schema topo' in dock.state.text(), dock.state.text()
    client.rows('grant usage on schema topo to guest; grant select on all tables in schema topo to guest')
    window.press('Connect')
    assert dock.source is not registry, dock.state.text()
    window.click_row('Errors', 0)
    window.press('Error again')
    assert 'permission denied for' in dock.state.text(), dock.state.text()
    dock.choice.setCurrentText('registry')
    window.press('Connect')
    assert dock.state.text().startswith('2 errors, 0 exceptions'), dock.state.text()


def waits(window: Window, client: Client) -> None:
    """A column that the service follows gets another name: the dock says what it waits for, and what was shown stays."""
    shown = window.texts('Errors')
    client.rows('alter table parcels rename geom to shape')
    until(lambda: 'it waits: class parcels: parcels has no column geom any more' in window.dock.state.text(), 'what the service waits for')
    assert window.texts('Errors') == shown
    client.rows('alter table parcels rename shape to geom')
    until(lambda: 'it waits' not in window.dock.state.text(), 'a service that goes on')


def broken(window: Window, service: Service, server: Server) -> None:
    """Without a service, and without a database: it is said, and what was shown stays."""
    service.end()
    window.dock.look()
    assert 'NO SERVICE RUNS' in window.dock.state.text(), window.dock.state.text()
    shown = window.texts('Errors')
    server.stop(signal.SIGQUIT)
    window.dock.look()
    assert window.dock.state.text().startswith('no answer from the database'), window.dock.state.text()
    assert window.texts('Errors') == shown


def main() -> None:
    application = QgsApplication([], True)
    application.initQgis()
    window = Window()
    algorithms()
    beside_layers(window)
    beside_tables(window, sys.argv[2] if len(sys.argv) > 2 else os.path.join(FOLDER, 'picture.png'))
    window.plugin.unload()
    assert QgsApplication.processingRegistry().providerById('topo') is None


try:
    main()
    status = 0
except BaseException:
    traceback.print_exc()
    status = 1
sys.stdout.flush()
sys.stderr.flush()
os._exit(status)
