"""topo and its tools as programs that are run: where they are, and how a run goes."""
from __future__ import annotations

import os
import shutil
import subprocess
import tempfile
from typing import TYPE_CHECKING, Optional

if TYPE_CHECKING:
    from qgis.core import QgsFeedback

HERE = os.path.dirname(os.path.realpath(__file__))
# Where the tools are beside this folder: in the repository, and where `make install` puts them.
BESIDE = os.path.join(HERE, '..', '..'), os.path.join(HERE, '..', '..', '..', '..', '..', 'lib', 'topo')
PAUSE = 0.2


class ProgramError(Exception):
    """A program that is missing or fails; the text says how."""


def first(paths: list[Optional[str]]) -> Optional[str]:
    return next((path for path in paths if path and os.access(path, os.X_OK) and os.path.isfile(path)), None)


def program(folder: str) -> str:
    """The program topo: in the folder that is named, on the path, or beside the plugin."""
    found = first([os.path.join(folder, name) for name in ('topo', 'bin/topo') if folder] or
                  [shutil.which('topo'), *[os.path.join(place, '..', '..', 'bin', 'topo') for place in BESIDE[1:]]])
    if found is None:
        raise ProgramError('there is no program topo %s' % ('in ' + folder if folder else 'on the path: name its folder'))
    return found


def tool(folder: str, name: str) -> str:
    """A tool beside it."""
    found = first([os.path.join(folder, *place, name) for place in ((), ('tools',), ('lib', 'topo')) if folder] +
                  [shutil.which('topo-' + name), *[os.path.join(place, name) for place in BESIDE]])
    if found is None:
        raise ProgramError('there is no tool %s' % name)
    return found


def run(words: list[str], feedback: QgsFeedback, fine: tuple[int, ...] = (0,), source: str = os.devnull, target: str = os.devnull) -> int:
    """Runs a program from a file into a file until it ends or somebody cancels it; its words go to the feedback. The status, which has to
    be a fine one."""
    with open(source, 'rb') as given, open(target, 'wb') as out, tempfile.TemporaryFile() as told:
        process = subprocess.Popen(words, stdin=given, stdout=out, stderr=told)
        while process.poll() is None:
            if feedback.isCanceled():
                process.kill()
            try:
                process.wait(PAUSE)
            except subprocess.TimeoutExpired:
                pass
        told.seek(0)
        said = told.read().decode('utf-8', 'replace').strip()
    for line in said.splitlines():
        feedback.pushInfo(line)
    if feedback.isCanceled():
        raise ProgramError('cancelled')
    if process.returncode not in fine:
        raise ProgramError('%s ended with status %d: %s' % (os.path.basename(words[0]), process.returncode, said[-300:]))
    return process.returncode
