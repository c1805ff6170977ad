"""The algorithms of topo under Processing."""
from __future__ import annotations

from qgis.core import QgsProcessingProvider

from .algorithms import Check, FromOgr, Replay, ToGis


class Provider(QgsProcessingProvider):
    def id(self) -> str:
        return 'topo'

    def name(self) -> str:
        return 'topo'

    def loadAlgorithms(self) -> None:
        for algorithm in (Check, FromOgr, Replay, ToGis):
            self.addAlgorithm(algorithm())
