#!/usr/bin/env python3
"""How long `Cell::is_empty` takes, in nanoseconds a call, beside the same elimination in C without proofs.

usage: bench/cells.py [--times N]

Random cells have half-planes of every direction round the origin, of which a few exclude each other; nearly empty ones are polygons
whose sides all pass within two units of the origin, so that no two sides alone exclude each other.
"""
from __future__ import annotations

import argparse
import math
import os
import random
import subprocess
import tempfile
import time

from programs import HERE, timing_program

Cell = list[tuple[int, int, int, int]]
SIZES = (4, 8, 12, 16, 32)
CELLS = 400


def random_cell(r: random.Random, n: int) -> Cell:
    return [(r.randint(-900, 900) or 1, r.randint(-900, 900), r.randint(-20000, 60000), r.choice((0, 0, 1))) for _ in range(n)]


def nearly_empty(r: random.Random, n: int) -> Cell:
    out = []
    turn = r.random()
    for i in range(n):
        angle = 2 * math.pi * (i + turn) / n
        a, b = round(1000 * math.cos(angle)), round(1000 * math.sin(angle))
        out.append((a or 1, b, r.randint(-1, 2000), 0))
    return out


def text_of(cells: list[Cell]) -> str:
    return ''.join(' '.join('%d %d %d %d' % h for h in c) + '\n' for c in cells)


def seconds(command: list[str], times: int, text: str) -> tuple[float, str]:
    best, answer = math.inf, ''
    for _ in range(3):
        start = time.perf_counter()
        done = subprocess.run(command + [str(times)], input=text, capture_output=True, text=True, check=True)
        spent = time.perf_counter() - start
        best = min(best, spent)
        answer = done.stdout.strip()
    return best, answer


def main() -> None:
    parser = argparse.ArgumentParser(description=__doc__, formatter_class=argparse.RawDescriptionHelpFormatter, usage=argparse.SUPPRESS)
    parser.add_argument('--times', type=int, default=400)
    times = parser.parse_args().times
    mine = timing_program('bench_cells')
    plain = os.path.join(tempfile.mkdtemp(), 'plain_cells')
    subprocess.run(['cc', '-O2', '-o', plain, os.path.join(HERE, 'plain_cells.c')], check=True)
    print('| cells | half-planes | ns a call | in C: ns a call | ratio | equal answers |')
    print('|---|---|---|---|---|---|')
    for name, make in (('random', random_cell), ('nearly empty', nearly_empty)):
        for n in SIZES:
            r = random.Random(name + str(n))
            text = text_of([make(r, n) for _ in range(CELLS)])
            row = []
            for command in ([mine], [plain]):
                once, _ = seconds(command, 1, text)
                many, answer = seconds(command, times + 1, text)
                row.append((max(many - once, 1e-9) / times / CELLS * 1e9, answer))
            (a, mine_says), (b, plain_says) = row
            print('| %s | %d | %.0f | %.0f | %.2f | %s |' % (name, n, a, b, a / b, 'yes' if mine_says == plain_says else 'NO'))


if __name__ == '__main__':
    main()
