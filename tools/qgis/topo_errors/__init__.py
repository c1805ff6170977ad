"""A plugin for QGIS: the errors of topo in a dock, and topo's tools as processing algorithms."""
from __future__ import annotations

from typing import Any



def classFactory(iface: Any) -> Any:
    from .plugin import Plugin
    return Plugin(iface)
