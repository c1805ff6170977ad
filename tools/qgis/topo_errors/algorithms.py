"""Algorithms of Processing: layers become a script, a script has replies, replies become layers of errors; and all three at once."""
from __future__ import annotations

import os
import shlex
import tempfile
from typing import Any

from qgis.core import (QgsProcessing, QgsProcessingAlgorithm, QgsProcessingContext, QgsProcessingException, QgsProcessingFeedback,
                       QgsProcessingParameterFile, QgsProcessingParameterFileDestination, QgsProcessingParameterMultipleLayers, QgsProcessingParameterString,
                       QgsVectorFileWriter, QgsVectorLayer)

from .programs import ProgramError, program, run, tool

ERRORS = 'error_polygons', 'error_lines', 'error_points', 'dirty'
RULES = 'Rules, one on a line: WORD CLASS [CLASS]'


def write_layers(layers: list[QgsVectorLayer], path: str, context: QgsProcessingContext) -> None:
    """Writes layers as QGIS has them, with their filters, into one GeoPackage."""
    for number, layer in enumerate(layers):
        options = QgsVectorFileWriter.SaveVectorOptions()
        options.layerName = layer.name()
        if number:
            options.actionOnExistingFile = QgsVectorFileWriter.CreateOrOverwriteLayer
        code, said, *_ = QgsVectorFileWriter.writeAsVectorFormatV3(layer, path, context.transformContext(), options)
        if code:
            raise ProgramError('the layer %s cannot be written: %s' % (layer.name(), said))


class Algorithm(QgsProcessingAlgorithm):
    """What the algorithms share: they need no group, and a program that fails ends them with its words."""

    NAME = TITLE = HELP = ''

    def name(self) -> str:
        return self.NAME

    def displayName(self) -> str:
        return self.TITLE

    def shortHelpString(self) -> str:
        return self.HELP

    def group(self) -> str:
        return ''

    def groupId(self) -> str:
        return ''

    def createInstance(self) -> 'Algorithm':
        return type(self)()

    def add_folder(self) -> None:
        self.addParameter(QgsProcessingParameterFile('TOPO', 'Folder of topo, if it is not on the path', QgsProcessingParameterFile.Folder, optional=True))

    def add_layers(self) -> None:
        """The parameters that make a script."""
        self.addParameter(QgsProcessingParameterMultipleLayers('LAYERS', 'Layers; each becomes a class', QgsProcessing.TypeVectorAnyGeometry))
        self.addParameter(QgsProcessingParameterString('GRID', 'Grid, in units of the layers', '0.001'))
        self.addParameter(QgsProcessingParameterString('RULES', RULES, '', multiLine=True, optional=True))
        self.addParameter(QgsProcessingParameterString('ID', 'Field by which a feature is known', '', optional=True))

    def processAlgorithm(self, parameters: dict, context: QgsProcessingContext, feedback: QgsProcessingFeedback) -> dict[str, Any]:
        try:
            return self.do(parameters, context, feedback)
        except ProgramError as fault:
            raise QgsProcessingException(str(fault)) from None

    def do(self, parameters: dict, context: QgsProcessingContext, feedback: QgsProcessingFeedback) -> dict[str, Any]:
        raise NotImplementedError

    def folder(self, parameters: dict, context: QgsProcessingContext) -> str:
        return self.parameterAsString(parameters, 'TOPO', context)

    # ---- the three steps

    def from_ogr(self, parameters: dict, context: QgsProcessingContext, feedback: QgsProcessingFeedback, script: str) -> None:
        """Makes a script of the layers."""
        rules = [shlex.split(line) for line in self.parameterAsString(parameters, 'RULES', context).splitlines() if line.strip()]
        field = self.parameterAsString(parameters, 'ID', context)
        with tempfile.TemporaryDirectory() as folder:
            source = os.path.join(folder, 'layers.gpkg')
            write_layers(self.parameterAsLayerList(parameters, 'LAYERS', context), source, context)
            words = [tool(self.folder(parameters, context), 'from-ogr'), source, '--grid', self.parameterAsString(parameters, 'GRID', context)]
            for rule in rules:
                words += ['--rule', *rule]
            if run(words + (['--id', field] if field else []), feedback, (0, 1), target=script) == 1:
                feedback.pushWarning('features were left out; the lines above name them')

    def replay(self, parameters: dict, context: QgsProcessingContext, feedback: QgsProcessingFeedback, script: str, replies: str) -> None:
        if run([program(self.folder(parameters, context)), 'replay'], feedback, (0, 1), script, replies) == 1:
            feedback.pushWarning('lines were refused; topo-answers SCRIPT REPLIES --refused says why')

    def to_gis(self, parameters: dict, context: QgsProcessingContext, feedback: QgsProcessingFeedback, script: str, replies: str, out: str) -> None:
        """Makes layers of the errors, and loads those that have something."""
        run([tool(self.folder(parameters, context), 'to-gis'), script, replies, out], feedback, (0, 1))
        for name in ERRORS:
            path = '%s|layername=%s' % (out, name)
            if context.project() and QgsVectorLayer(path, name, 'ogr').featureCount():
                context.addLayerToLoadOnCompletion(path, QgsProcessingContext.LayerDetails(name, context.project(), name))


class FromOgr(Algorithm):
    NAME, TITLE = 'from_ogr', 'Script of layers'
    HELP = 'Makes a script of layers, as topo-from-ogr does. It reports what it moved to the grid, and names what it left out.'

    def initAlgorithm(self, configuration: Any = None) -> None:
        self.add_layers()
        self.add_folder()
        self.addParameter(QgsProcessingParameterFileDestination('OUTPUT', 'Script', 'Scripts (*.topo)'))

    def do(self, parameters: dict, context: QgsProcessingContext, feedback: QgsProcessingFeedback) -> dict[str, Any]:
        out = self.parameterAsFileOutput(parameters, 'OUTPUT', context)
        self.from_ogr(parameters, context, feedback, out)
        return {'OUTPUT': out}


class Replay(Algorithm):
    NAME, TITLE = 'replay', 'Replay a script'
    HELP = 'Lets topo answer the lines of a script, on the empty project.'

    def initAlgorithm(self, configuration: Any = None) -> None:
        self.addParameter(QgsProcessingParameterFile('SCRIPT', 'Script'))
        self.add_folder()
        self.addParameter(QgsProcessingParameterFileDestination('OUTPUT', 'Replies', 'Replies (*.replies)'))

    def do(self, parameters: dict, context: QgsProcessingContext, feedback: QgsProcessingFeedback) -> dict[str, Any]:
        out = self.parameterAsFileOutput(parameters, 'OUTPUT', context)
        self.replay(parameters, context, feedback, self.parameterAsFile(parameters, 'SCRIPT', context), out)
        return {'OUTPUT': out}


class ToGis(Algorithm):
    NAME, TITLE = 'to_gis', 'Errors of replies'
    HELP = 'Makes layers of the errors and dirty areas that replies list, as topo-to-gis does, and loads those that are not empty.'

    def initAlgorithm(self, configuration: Any = None) -> None:
        self.addParameter(QgsProcessingParameterFile('SCRIPT', 'Script'))
        self.addParameter(QgsProcessingParameterFile('REPLIES', 'Replies'))
        self.add_folder()
        self.addParameter(QgsProcessingParameterFileDestination('OUTPUT', 'Errors', 'GeoPackage (*.gpkg)'))

    def do(self, parameters: dict, context: QgsProcessingContext, feedback: QgsProcessingFeedback) -> dict[str, Any]:
        out = self.parameterAsFileOutput(parameters, 'OUTPUT', context)
        script, replies = (self.parameterAsFile(parameters, name, context) for name in ('SCRIPT', 'REPLIES'))
        self.to_gis(parameters, context, feedback, script, replies, out)
        return {'OUTPUT': out}


class Check(Algorithm):
    NAME, TITLE = 'check', 'Check layers'
    HELP = 'Judges layers by rules: makes a script of them, replays it, and makes layers of the errors. The three steps are algorithms of their own.'

    def initAlgorithm(self, configuration: Any = None) -> None:
        self.add_layers()
        self.add_folder()
        self.addParameter(QgsProcessingParameterFileDestination('OUTPUT', 'Errors', 'GeoPackage (*.gpkg)'))

    def do(self, parameters: dict, context: QgsProcessingContext, feedback: QgsProcessingFeedback) -> dict[str, Any]:
        out = self.parameterAsFileOutput(parameters, 'OUTPUT', context)
        if not self.parameterAsString(parameters, 'RULES', context).strip():
            raise ProgramError('name a rule')
        with tempfile.TemporaryDirectory() as folder:
            script, replies = (os.path.join(folder, name) for name in ('script', 'replies'))
            self.from_ogr(parameters, context, feedback, script)
            feedback.setProgress(30)
            self.replay(parameters, context, feedback, script, replies)
            feedback.setProgress(60)
            self.to_gis(parameters, context, feedback, script, replies, out)
        return {'OUTPUT': out}
