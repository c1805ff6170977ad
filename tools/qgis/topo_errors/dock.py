"""The dock: errors, dirty areas, who holds what, rows left out; each row leads to its place on the map."""
from __future__ import annotations

from typing import Callable, Optional

from qgis.core import QgsCoordinateTransform, QgsProject, QgsRectangle
from qgis.gui import QgsMapCanvas
from qgis.PyQt.QtCore import QTimer
from qgis.PyQt.QtWidgets import (QAbstractItemView, QComboBox, QDockWidget, QHBoxLayout, QInputDialog, QLabel, QPushButton, QTableView, QTabWidget, QVBoxLayout,
                                 QWidget)

from .rows import Row, Rows
from .source import DIRTY, ERRORS, HELD, LEFT_OUT, Source, SourceError, Tables, Written, connection_names, connection_of

LAYERS = 'layers of this project'
# How often the dock looks by itself, in milliseconds: a notification may be lost with its link.
LOOK = 5000
GROUP = 'topo'
ROOM, WORD_WIDTH, COLUMN_WIDTH = 5, 150, 94


def counted(number: int, what: str) -> str:
    return '%d %s%s' % (number, what, '' if number == 1 else 's')


class ErrorDock(QDockWidget):
    def __init__(self, canvas: QgsMapCanvas, parent: Optional[QWidget] = None) -> None:
        super().__init__('topo errors', parent)
        self.setObjectName('topo_errors_dock')             # so that QGIS keeps its place
        self.canvas = canvas
        self.source: Optional[Source] = None
        self.said = ''
        self.models = {'Errors': Rows(ERRORS), 'Dirty': Rows(DIRTY), 'Held': Rows(HELD), 'Left out': Rows(LEFT_OUT)}
        self.views: dict[str, QTableView] = {}
        self.build()
        self.timer = QTimer(self)
        self.timer.timeout.connect(self.look)

    # ---- its parts

    def build(self) -> None:
        self.choice, self.state, self.tabs = QComboBox(), QLabel('not connected'), QTabWidget()
        self.choice.addItems(connection_names() + [LAYERS])
        self.state.setWordWrap(True)
        for name, model in self.models.items():
            self.tabs.addTab(self.view(name, model), name)
        self.views['Errors'].setColumnWidth(0, WORD_WIDTH)
        self.tabs.currentChanged.connect(lambda _: self.refresh())
        box = QVBoxLayout()
        box.addLayout(self.line(self.choice, self.button('Connect', self.connect_chosen), self.button('Refresh', self.refresh)))
        box.addWidget(self.state)
        box.addWidget(self.tabs)
        box.addLayout(self.line(self.button('Exception ..', self.ask_exception), self.button('Error again', lambda: self.mark('error', '')),
                                self.button('Validate window', self.validate_window)))
        inside = QWidget()
        inside.setLayout(box)
        self.setWidget(inside)

    def view(self, name: str, model: Rows) -> QTableView:
        view = self.views[name] = QTableView()
        view.setModel(model)
        view.setSelectionBehavior(QAbstractItemView.SelectRows)
        view.horizontalHeader().setStretchLastSection(True)
        view.horizontalHeader().setDefaultSectionSize(COLUMN_WIDTH)
        view.clicked.connect(lambda index: self.zoom_to(model.rows[index.row()]))
        return view

    def button(self, text: str, do: Callable[[], None]) -> QPushButton:
        button = QPushButton(text)
        button.clicked.connect(lambda _: self.attempt(do))
        return button

    def line(self, *parts: QWidget) -> QHBoxLayout:
        line = QHBoxLayout()
        for part in parts:
            line.addWidget(part)
        return line

    def attempt(self, do: Callable[[], None]) -> None:
        """Does what a button asks for; what goes wrong stands in the line of the state."""
        try:
            do()
        except SourceError as fault:
            self.state.setText(str(fault))

    # ---- connected

    def connect_chosen(self) -> None:
        name = self.choice.currentText()
        self.connect_to(Written() if name == LAYERS else Tables(connection_of(name)))

    def connect_to(self, source: Source) -> None:
        """Shows a source; layers that the project has not yet come into a group of their own."""
        self.disconnect_source()
        self.source = source
        group = None
        for layer in source.layers():
            if not QgsProject.instance().mapLayer(layer.id()):
                group = group or QgsProject.instance().layerTreeRoot().insertGroup(0, GROUP)
                QgsProject.instance().addMapLayer(layer, False)
                group.addLayer(layer)
        for layer in source.layers():
            layer.willBeDeleted.connect(self.disconnect_source)
        self.listen(source)
        self.refresh()
        self.timer.start(LOOK)

    def listen(self, source: Source) -> None:
        """Looks when a service has written: it notifies the channel to which layers of PostGIS listen."""
        if isinstance(source, Tables):
            for layer in source.layers():
                layer.setRefreshOnNotifyEnabled(True)
                layer.setRefreshOnNofifyMessage('topo')    # so is it spelled
            source.errors['polygons'].dataProvider().notify.connect(lambda _: QTimer.singleShot(0, self.refresh))

    def disconnect_source(self) -> None:
        self.timer.stop()
        self.source, self.said = None, ''
        for model in self.models.values():
            model.show([])
        self.state.setText('not connected')

    # ---- what it shows

    def look(self) -> None:
        """Looks whether something has changed, in case no notification came."""
        if self.source is None:
            return
        try:
            said = self.source.status()
        except SourceError as fault:
            self.state.setText('no answer from the database: %s' % fault)
            self.said = ''
            return
        if said != self.said:
            self.refresh()

    def refresh(self) -> None:
        """Reads the source again: errors and dirt always, what is held or left out while it is shown, since that looks at all rows."""
        source, tab = self.source, self.tabs.tabText(self.tabs.currentIndex())
        if source is None:
            return
        try:
            self.said = source.status()
        except SourceError as fault:
            self.state.setText('no answer from the database: %s' % fault)
            return
        self.models['Errors'].show(source.error_rows())
        self.models['Dirty'].show([Row(('%d' % number,), row.spots) for number, row in enumerate(source.plain_rows('dirty', ['number']), 1)])
        if tab == 'Held':
            self.models['Held'].show(source.plain_rows('held', ['class', 'key', 'who', 'application', 'since']))
        if tab == 'Left out':
            self.models['Left out'].show(source.plain_rows('refused', ['class', 'key', 'why']))
        rows = self.models['Errors'].rows
        marked = sum(row.is_exception for row in rows)
        counts = ', '.join([counted(len(rows) - marked, 'error'), counted(marked, 'exception'), counted(len(self.models['Dirty'].rows), 'dirty area')])
        self.state.setText(counts + ('; ' + self.said if self.said else ''))

    def chosen(self) -> list[Row]:
        """The rows of errors that are selected."""
        indexes = self.views['Errors'].selectionModel().selectedRows()
        return [self.models['Errors'].rows[index.row()] for index in indexes]

    def zoom_to(self, row: Row) -> None:
        """Shows the places of a row, with some room round them."""
        box = QgsRectangle()
        box.setMinimal()
        for layer, number in row.spots:
            geometry = layer.getFeature(number).geometry()
            if not geometry.isNull():
                transform = QgsCoordinateTransform(layer.crs(), self.canvas.mapSettings().destinationCrs(), QgsProject.instance())
                box.combineExtentWith(transform.transformBoundingBox(geometry.boundingBox()))
        if box.isNull() and box.xMinimum() > box.xMaximum():
            self.state.setText('it has no place on the map')
            return
        if box.width() == 0 and box.height() == 0:
            box.grow(self.canvas.extent().width() / ROOM ** 2 or 1)
        self.canvas.setExtent(box.buffered(max(box.width(), box.height()) * (ROOM - 1) / 2))
        self.canvas.refresh()

    # ---- what it does

    def ask_exception(self) -> None:
        rows = self.chosen()
        if not rows:
            raise SourceError('select errors first')
        note, is_wanted = QInputDialog.getText(self, 'Exception', 'Why may this stand?')
        if is_wanted:
            self.mark('exception', note)

    def mark(self, mark: str, note: str) -> None:
        """Marks the selected errors; the service does it, and the dock shows it then."""
        rows = self.chosen()
        if not rows or self.source is None:
            raise SourceError('select errors first')
        told = self.source.mark(rows, mark, note)
        self.refresh()
        if told:
            self.state.setText(told)

    def validate_window(self) -> None:
        """Asks for a validation of what the map shows."""
        if self.source is None:
            raise SourceError('not connected')
        layer = self.source.layers()[0]
        transform = QgsCoordinateTransform(self.canvas.mapSettings().destinationCrs(), layer.crs(), QgsProject.instance())
        self.source.validate(transform.transformBoundingBox(self.canvas.extent()))
