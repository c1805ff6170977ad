"""Tables of rows as Qt shows them."""
from __future__ import annotations

from typing import Any, NamedTuple, Optional

from qgis.core import QgsVectorLayer
from qgis.PyQt.QtCore import QAbstractTableModel, QModelIndex, Qt
from qgis.PyQt.QtGui import QColor

GREY = QColor('#808080')


class Spot(NamedTuple):
    """A feature of a layer."""

    layer: QgsVectorLayer
    number: int


class Row(NamedTuple):
    """The texts of a row, the features that it stands for, whether it is an exception, and by what its source knows it."""

    texts: tuple[str, ...]
    spots: list[Spot]
    is_exception: bool = False
    name: Any = None


class Rows(QAbstractTableModel):
    """Rows under a head; many of them take no time until they are seen."""

    def __init__(self, head: list[str]) -> None:
        super().__init__()
        self.head = head
        self.rows: list[Row] = []

    def show(self, rows: list[Row]) -> None:
        self.beginResetModel()
        self.rows = rows
        self.endResetModel()

    def rowCount(self, parent: QModelIndex = QModelIndex()) -> int:
        return 0 if parent.isValid() else len(self.rows)

    def columnCount(self, parent: QModelIndex = QModelIndex()) -> int:
        return 0 if parent.isValid() else len(self.head)

    def headerData(self, section: int, orientation: Qt.Orientation, role: int = Qt.DisplayRole) -> Optional[str]:
        return self.head[section] if role == Qt.DisplayRole and orientation == Qt.Horizontal else None

    def data(self, index: QModelIndex, role: int = Qt.DisplayRole) -> Any:
        row = self.rows[index.row()]
        if role == Qt.DisplayRole:
            return row.texts[index.column()]
        return GREY if role == Qt.ForegroundRole and row.is_exception else None
