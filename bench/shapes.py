#!/usr/bin/env python3
"""How long `Shape::polygon` takes to accept a polygon or to refuse it, and what comes of it.

usage: bench/shapes.py [--sizes N,..] [--baseline WORDS]

A ring lies between two parabolas; a comb has slanted teeth that lie above one another; a spiral goes out and comes back beside itself;
a star has spikes, and its last pair of segments crosses, and that alone; in a rosette nearly all pairs cross. Build
`crates/bench_shapes` first: `rt run -- 1 < stdin` in its folder.

The polygon is made once and then many times over, and the difference counts: processor time for one. Of the baseline, another
program of the same words and texts, a script with many `add` lines of the polygon is timed in the same way, minus one with a
single line; so its time holds the reading of the text too.
"""
from __future__ import annotations

import argparse
import math
import os
import subprocess
import sys
import tempfile

from polygons import comb, ring, spiral
from programs import Place, Ring, make_measured, program_of, timing_program

TURNS = 3


def on_circle(radius: int, turn: float) -> Place:
    return int(radius * math.cos(2 * math.pi * turn)), int(radius * math.sin(2 * math.pi * turn))


def star(n: int) -> Ring:
    spikes = [on_circle(4000000 if i % 2 == 0 or i > n - 5 else 2000000, i / n) for i in range(n)]
    return spikes[:-2] + [spikes[-1], spikes[-2]]


def rosette(n: int) -> Ring:
    step = n // 2 - 1
    while math.gcd(step, n) != 1:
        step -= 1
    return [on_circle(4000000, i * step / n) for i in range(n)]


def timed(folder: str, words: list[str], text: str) -> tuple[float, str]:
    """The least processor time in s of some runs, and what was written."""
    report, best = os.path.join(folder, 'report'), math.inf
    for _ in range(TURNS):
        done = subprocess.run([os.path.join(folder, 'measured'), report, '300'] + words, input=text, capture_output=True, text=True)
        with open(report) as lines:
            status, microseconds, _ = map(int, lines.read().split())
        if done.returncode or status not in (0, 1):
            sys.exit('%s ended with %d' % (words[0], status))
        best = min(best, microseconds / 1e6)
    return best, done.stdout


def own_time(folder: str, program: str, vertices: Ring, times: int) -> tuple[float, str]:
    text = ''.join('%d %d\n' % v for v in vertices)
    once, _ = timed(folder, [program, '1'], text)
    many, said = timed(folder, [program, str(times + 1)], text)
    return (many - once) / times, said.split(', ', 1)[1].strip()


def baseline_time(folder: str, words: list[str], vertices: Ring, times: int) -> tuple[float, str]:
    listed = ', '.join('%d %d' % v for v in vertices + vertices[:1])
    head = 'class lots polygon\nbegin ann\n'
    line = 'by ann add lots POLYGON ((%s))\n' % listed
    once, _ = timed(folder, words + ['replay'], head + line)
    many, said = timed(folder, words + ['replay'], head + line * (times + 1))
    return (many - once) / times, said.splitlines()[-1]


def main() -> None:
    parser = argparse.ArgumentParser(description=__doc__, formatter_class=argparse.RawDescriptionHelpFormatter, usage=argparse.SUPPRESS)
    parser.add_argument('--sizes', default='100,500,2000')
    parser.add_argument('--times', type=int, default=50)
    parser.add_argument('--baseline', type=program_of)
    given = parser.parse_args()
    program, other = timing_program('bench_shapes'), given.baseline
    head = ['polygon', 'vertices', 'what came', 'time in ms'] + (['baseline: what came', 'baseline: time in ms, with its text'] if other else [])
    print('| ' + ' | '.join(head) + ' |\n|' + '---|' * len(head))
    with tempfile.TemporaryDirectory() as folder:
        make_measured(folder)
        for make in (ring, comb, spiral, star, rosette):
            for n in map(int, given.sizes.split(',')):
                vertices = make(n)
                seconds, came = own_time(folder, program, vertices, given.times)
                cells = [make.__name__, str(len(vertices)), came, '%.3f' % (seconds * 1000)]
                if other:
                    theirs, said = baseline_time(folder, other, vertices, given.times)
                    cells += [said, '%.3f' % (theirs * 1000)]
                print('| ' + ' | '.join(cells) + ' |', flush=True)


if __name__ == '__main__':
    main()
