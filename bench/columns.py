#!/usr/bin/env python3
"""How long the cells inside a polygon take, and those outside, how much memory, and how many there are.

usage: bench/columns.py [--sizes N,..] [--baseline WORDS]

A ring lies between two parabolas; a comb has slanted teeth that lie above one another; a spiral goes out and comes back beside itself;
a zigzag goes from side to side and comes back beside itself. Build `crates/bench_columns` first: `rt run -- 1 < stdin` in its folder.

Beside another program of the same words and texts, where one is given, two questions are asked of both: the cells inside, and
the inside of a rectangle round the polygon carved by the cells outside. The other program is asked by a script with the rule
that one class covers another, validated; the same script without that line is taken off its time, and not off its memory.
"""
from __future__ import annotations

import argparse
import os
import subprocess
import sys
import tempfile

from polygons import comb, ring, spiral, zigzag
from programs import Ring, make_measured, program_of, timing_program

SCRIPT = """class zones polygon
class covers polygon
rule polygon_must_be_covered_by_feature_class_of zones covers
begin ann
"""


def frame_of(vertices: Ring) -> Ring:
    xs, ys = [x for x, _ in vertices], [y for _, y in vertices]
    x0, y0, x1, y1 = min(xs) - 1, min(ys) - 1, max(xs) + 1, max(ys) + 1
    return [(x0, y0), (x1, y0), (x1, y1), (x0, y1)]


def segments_of(vertices: Ring) -> str:
    ends = vertices[1:] + vertices[:1]
    return ''.join('%d %d %d %d\n' % (a + b) for a, b in zip(vertices, ends))


def added(name: str, vertices: Ring) -> str:
    places = ', '.join('%d %d' % place for place in vertices + vertices[:1])
    return 'by ann add %s POLYGON ((%s))\n' % (name, places)


class Meter:
    """Runs programs three times each, and takes the least time in s and the least peak of memory in MiB."""

    def __init__(self, folder: str, program: str) -> None:
        self.tool, self.report, self.program = os.path.join(folder, 'measured'), os.path.join(folder, 'report'), program
        make_measured(folder)

    def run(self, words: list[str], text: str) -> tuple[float, float, str]:
        runs = []
        for _ in range(3):
            done = subprocess.run([self.tool, self.report, '300'] + words, input=text, capture_output=True, text=True)
            with open(self.report) as lines:
                status, microseconds, kilobytes = map(int, lines.read().split())
            if done.returncode or status:
                sys.exit('a program ended with %d: %s' % (status, done.stdout[-200:]))
            runs.append((microseconds / 1e6, kilobytes / 1024))
        return min(r[0] for r in runs), min(r[1] for r in runs), done.stdout

    def made(self, wanted: str, text: str) -> tuple[float, float, int]:
        seconds, memory, told = self.run([self.program, '1', wanted], text)
        return seconds, memory, int(told.split()[2])

    def validated(self, words: list[str], lines: str) -> tuple[float, float]:
        without = self.run(words, SCRIPT + lines)[0]
        seconds, memory, _ = self.run(words, SCRIPT + lines + 'validate all\n')
        return seconds - without, memory


def row(meter: Meter, baseline: list[str], name: str, vertices: Ring) -> None:
    segments, frame = segments_of(vertices), frame_of(vertices)
    figures = [name, str(len(vertices))]
    for wanted, text in (('inside', segments), ('outside', segments), ('carved', segments_of(frame) + segments)):
        figures += ['%.3f s, %.1f MiB, %d cells' % meter.made(wanted, text)]
    if baseline:
        for lines in (added('zones', vertices), added('zones', frame) + added('covers', vertices)):
            figures += ['%.3f s, %.1f MiB' % meter.validated(baseline, lines)]
    print('| ' + ' | '.join(figures) + ' |', flush=True)


def main() -> None:
    parser = argparse.ArgumentParser(description=__doc__, formatter_class=argparse.RawDescriptionHelpFormatter, usage=argparse.SUPPRESS)
    parser.add_argument('--sizes', default='100,500,2000')
    parser.add_argument('--baseline', type=program_of)
    options = parser.parse_args()
    program = timing_program('bench_columns')
    heads = ['polygon', 'vertices', 'inside', 'outside', 'carved by outside']
    if options.baseline:
        options.baseline += ['replay']
        heads += ['the other: inside', 'the other: carved by outside']
    print('| ' + ' | '.join(heads) + ' |\n' + '|---' * len(heads) + '|')
    with tempfile.TemporaryDirectory() as folder:
        meter = Meter(folder, program)
        for name, make in (('ring', ring), ('comb', comb), ('spiral', spiral), ('zigzag', zigzag)):
            for n in map(int, options.sizes.split(',')):
                row(meter, options.baseline, name, make(n))


if __name__ == '__main__':
    main()
