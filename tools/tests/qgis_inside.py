"""What qgis_desktop.py has done in the whole QGIS: the dock is connected by its buttons, a window is validated, an error is gone to.

QGIS runs it at its start by --code. It writes to the file SAID what went wrong, and ends QGIS at once: its own end asks whether to save.
"""
from __future__ import annotations

import os
import time
import traceback
from typing import Any, Callable

from qgis.core import QgsApplication, QgsProject, QgsRectangle, QgsVectorLayer
from qgis.PyQt.QtCore import QEventLoop, Qt, QTimer
from qgis.PyQt.QtGui import QColor
from qgis.PyQt.QtTest import QTest
from qgis.PyQt.QtWidgets import QPushButton
from qgis.utils import iface, plugins

SECONDS = 90
ALGORITHMS = 'topo:check', 'topo:from_ogr', 'topo:replay', 'topo:to_gis'
PARCELS = "dbname='gis' host=%s user='postgres' sslmode=disable key='id' srid=25832 type=Polygon table=\"public\".\"parcels\" (geom)"


def turn(milliseconds: int) -> None:
    loop = QEventLoop()
    QTimer.singleShot(milliseconds, loop.quit)
    loop.exec_()


def until(is_so: Callable[[], object], what: str) -> None:
    end = time.monotonic() + SECONDS
    while not is_so():
        assert time.monotonic() < end, 'not so: ' + what
        turn(100)


def texts(dock: Any, name: str) -> list:
    return [row.texts for row in dock.models[name].rows]


def press(dock: Any, text: str) -> None:
    button = next(button for button in dock.findChildren(QPushButton) if button.text() == text)
    assert button.isVisible(), text
    QTest.mouseClick(button, Qt.LeftButton)


def show_parcels() -> None:
    """The table of parcels, below all that the dock has added."""
    layer = QgsVectorLayer(PARCELS % os.environ['SERVER'], 'parcels', 'postgres')
    assert layer.isValid()
    layer.renderer().symbol().setColor(QColor('#dfe8d8'))
    QgsProject.instance().addMapLayer(layer, False)
    QgsProject.instance().layerTreeRoot().addLayer(layer)
    QgsProject.instance().setCrs(layer.crs())


def go_to(dock: Any, row: int) -> None:
    view = dock.views['Errors']
    QTest.mouseClick(view.viewport(), Qt.LeftButton, Qt.NoModifier, view.visualRect(view.model().index(row, 0)).center())


def work() -> None:
    assert 'topo_errors' in plugins, 'QGIS has not loaded the plugin: %s' % sorted(plugins)
    assert all(QgsApplication.processingRegistry().algorithmById(name) for name in ALGORITHMS)
    dock = plugins['topo_errors'].dock
    assert dock.isVisible() and dock.choice.currentText() == 'registry', dock.choice.currentText()
    press(dock, 'Connect')
    assert dock.source, dock.state.text()
    show_parcels()
    until(lambda: len(texts(dock, 'Dirty')) == 4, 'dirty areas')
    canvas = iface.mapCanvas()
    canvas.setExtent(QgsRectangle(500040, 5699960, 500160, 5700060))
    turn(500)
    press(dock, 'Validate window')
    until(lambda: len(texts(dock, 'Errors')) == 2 and not texts(dock, 'Dirty'), 'the errors of the window')
    go_to(dock, 1)
    dock.mark('exception', 'the old wall')
    until(lambda: [row[3] for row in texts(dock, 'Errors')] == ['error', 'exception'], 'an exception')
    assert canvas.extent().contains(QgsRectangle(500140, 5700000, 500143, 5700020)) and canvas.extent().width() < 200
    dock.source.sql('update parcels set geom = st_translate(geom, 0, 5) where id = 9')
    until(lambda: texts(dock, 'Dirty'), 'dirty areas again')
    go_to(dock, 0)
    dock.views['Errors'].clearSelection()
    iface.mainWindow().resize(1400, 820)
    canvas.setExtent(QgsRectangle(500030, 5699940, 500230, 5700080))
    until(lambda: not canvas.isDrawing(), 'a drawn map')
    turn(1500)
    assert iface.mainWindow().grab().save(os.environ['PICTURE'])


def begin() -> None:
    try:
        work()
        said = ''
    except BaseException:
        said = traceback.format_exc()
    with open(os.environ['SAID'], 'w', encoding='utf-8') as out:
        out.write(said)
    os._exit(0)


QTimer.singleShot(1500, begin)
