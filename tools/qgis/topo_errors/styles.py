"""How the layers look: errors red, exceptions grey, dirt hatched, what is held blue, what is left out violet."""
from __future__ import annotations

from qgis.core import (QgsCategorizedSymbolRenderer, QgsFillSymbol, QgsLineSymbol, QgsMarkerSymbol, QgsRendererCategory, QgsSingleSymbolRenderer,
                       QgsSymbol, QgsVectorLayer, QgsWkbTypes)

COLOURS = {'error': '#c8102e', 'exception': '#808080'}


def symbol_of(layer: QgsVectorLayer, colour: str) -> QgsSymbol:
    """A symbol of a colour, wide enough to be seen where the error is thin."""
    if layer.geometryType() == QgsWkbTypes.PointGeometry:
        return QgsMarkerSymbol.createSimple({'name': 'circle', 'color': colour, 'outline_color': '#ffffff', 'size': '3.2'})
    if layer.geometryType() == QgsWkbTypes.LineGeometry:
        return QgsLineSymbol.createSimple({'color': colour, 'width': '1.2'})
    return QgsFillSymbol.createSimple({'color': colour, 'outline_color': colour, 'outline_width': '0.8'})


def style_errors(layer: QgsVectorLayer) -> None:
    categories = [QgsRendererCategory(mark, symbol_of(layer, colour), mark) for mark, colour in COLOURS.items()]
    layer.setRenderer(QgsCategorizedSymbolRenderer('mark', categories))


def style_area(layer: QgsVectorLayer, colour: str, style: str) -> None:
    """Areas of one colour; style is how Qt fills them."""
    if layer.geometryType() == QgsWkbTypes.PolygonGeometry:
        symbol = QgsFillSymbol.createSimple({'color': colour, 'style': style, 'outline_color': colour, 'outline_width': '0.5'})
        layer.setRenderer(QgsSingleSymbolRenderer(symbol))
