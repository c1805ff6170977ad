"""What QGIS calls: adds the dock and the algorithms, and takes them away."""
from __future__ import annotations

from typing import Optional

from qgis.core import QgsApplication
from qgis.gui import QgisInterface
from qgis.PyQt.QtCore import Qt

from .dock import ErrorDock
from .provider import Provider


class Plugin:
    def __init__(self, iface: QgisInterface) -> None:
        self.iface = iface
        self.dock: Optional[ErrorDock] = None
        self.provider: Optional[Provider] = None

    def initProcessing(self) -> None:
        """Called alone by qgis_process, which has no window."""
        self.provider = Provider()
        QgsApplication.processingRegistry().addProvider(self.provider)

    def initGui(self) -> None:
        self.initProcessing()
        self.dock = ErrorDock(self.iface.mapCanvas(), self.iface.mainWindow())
        self.iface.addDockWidget(Qt.RightDockWidgetArea, self.dock)

    def unload(self) -> None:
        if self.dock:
            self.dock.disconnect_source()
            self.iface.removeDockWidget(self.dock)
            self.dock.deleteLater()
        QgsApplication.processingRegistry().removeProvider(self.provider)
