"""Steps of a way from a source to errors, each measured by itself; and what the layers of errors say."""
from __future__ import annotations

import csv
import os
import subprocess
import sys
from typing import IO, Any, Iterable, NamedTuple, Optional

OVERLAPS, GAPS = 'polygon_must_not_overlap', 'polygon_must_not_have_gaps'
FRAME = 'ST_MinX(geom), ST_MinY(geom), ST_MaxX(geom), ST_MaxY(geom)'

Place = tuple[float, float]
Frame = tuple[float, float, float, float]


class Found(NamedTuple):
    """What was found: pairs of parcels, and the rectangles round gaps."""

    pairs: set[tuple[str, str]]
    frames: list[Frame]


class Step(NamedTuple):
    """What a step took: its name, processor seconds, the peak of memory in MiB, and seconds by the clock."""

    name: str
    seconds: float
    memory: float
    clock: float = 0.0


def measured(name: str, words: list[str], source: Optional[IO] = None, out: Optional[IO] = None, **more: Any) -> Step:
    """Runs a step; a status that is not 0 ends the measurement."""
    since = os.times().elapsed
    process: subprocess.Popen[bytes] = subprocess.Popen(words, stdin=source or subprocess.DEVNULL, stdout=out or subprocess.DEVNULL, stderr=subprocess.PIPE, **more)
    assert process.stderr
    told = process.stderr.read().decode('utf-8', 'replace')
    _, status, used = os.wait4(process.pid, 0)
    process.returncode = os.waitstatus_to_exitcode(status)
    if process.returncode:
        sys.exit('pipeline: %s ended with %d: %s' % (' '.join(words)[:200], process.returncode, told[-1000:]))
    return Step(name, used.ru_utime + used.ru_stime, used.ru_maxrss / 1024, os.times().elapsed - since)


def asked(path: str, text: str) -> list[list[str]]:
    """The rows that a query by SQLite finds in a source."""
    words = ['ogr2ogr', '-f', 'CSV', '/vsistdout/', path, '-dialect', 'SQLite', '-sql', text]
    return list(csv.reader(subprocess.run(words, capture_output=True, check=True).stdout.decode().splitlines()))[1:]


def frames_of(rows: Iterable[list[str]]) -> list[Frame]:
    return [(float(x0), float(y0), float(x1), float(y1)) for x0, y0, x1, y1 in rows]


def found_by_topo(path: str) -> Found:
    """What the layers of errors say: an overlap is a polygon, and the border of a gap a line."""
    pairs = asked(path, "SELECT subject_id, other_id FROM error_polygons WHERE word = '%s'" % OVERLAPS)
    return Found({(a, b) for a, b in pairs}, frames_of(asked(path, "SELECT %s FROM error_lines WHERE word = '%s'" % (FRAME, GAPS))))


def print_steps(name: str, steps: list[Step], said: str, has_sum: bool = True) -> None:
    """A table of steps, with their sum, and what is said below it."""
    print('%s\n\n| Step | Processor seconds | Seconds by the clock | Peak, MiB |\n|---|---:|---:|---:|' % name)
    total = [Step('all', sum(step.seconds for step in steps), max(step.memory for step in steps), sum(step.clock for step in steps))] if has_sum else []
    for step in steps + total:
        print('| %s | %.1f | %.1f | %.0f |' % (step.name, step.seconds, step.clock, step.memory))
    print('\n%s\n' % said, flush=True)
