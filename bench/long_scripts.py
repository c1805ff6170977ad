#!/usr/bin/env python3
"""How much memory and time a long script takes over a small project; it is written into a pipe while it is replayed.

usage: bench/long_scripts.py [--baseline WORDS] [--sizes N,N,..] [--turns N] [--seconds N] [--instructions] [--program WORDS]

  --sizes N,..   how many MiB the script has: 16,256 where it is left out; a script has at most 256
  the others     as in bench/run.py

The script validates windows, lists features, errors, cells and dirt, and has remarks; it changes nothing, so that the project stays small.
"""
from __future__ import annotations

import argparse
import os
import sys

from programs import Table, beyond, measure_piped, measure_saved, measure_words, print_sizes
from town import HEAD, Town, founding

ROWS = 5
BLOCK = 65536
WINDOWS = 100
REMARK = '# ' + 'x' * 997 + '\n'
LISTINGS = ['features', 'errors', 'cells', 'dirty']


def block_of(number: int) -> bytes:
    """The lines of one block of the script, as bytes: windows here and there, the listings, and remarks that fill it."""
    lines = []
    for i in range(WINDOWS):
        x, y = (number * 7 + i * 13) % 500, (number * 11 + i * 17) % 500
        lines.append('validate %d %d %d %d\n' % (x, y, x + 40, y + 40))
        if i % (WINDOWS // len(LISTINGS)) == 0:
            lines.append(LISTINGS[i * len(LISTINGS) // WINDOWS] + '\n')
    text = ''.join(lines)
    text += REMARK * ((BLOCK - len(text) - 2) // len(REMARK))
    return (text + '#' * (BLOCK - len(text) - 1) + '\n').encode()


def write_script(mebibytes: int) -> None:
    """Writes a script of so many MiB to standard output, or as much of it as is read."""
    blocks = [block_of(number) for number in range(16)]
    try:
        for number in range(mebibytes * 1024 ** 2 // BLOCK):
            sys.stdout.buffer.write(blocks[number % len(blocks)])
        sys.stdout.flush()
    except BrokenPipeError:
        os.dup2(os.open(os.devnull, os.O_WRONLY), sys.stdout.fileno())


def print_rows(table: Table, folder: str, mebibytes: int, programs: list[list[str]], given: argparse.Namespace) -> None:
    """The rows of the table on a script of this size."""
    project = measure_saved(folder, 'small', HEAD + founding(Town(ROWS)) + ['validate all'], ['replay', '-'], programs, given)[0].target
    opened = measure_words(folder, ['replay', project], programs, given)
    maker = [sys.executable, os.path.abspath(__file__), '--write', str(mebibytes)]
    long = measure_piped(folder, maker, ['replay', project], programs, given)
    name = 'a script of %d MiB over %d parcels' % (mebibytes, ROWS * ROWS)
    table.row(name + ': time', 's', [opened, long], beyond(long, opened, 1))
    table.row(name + ': memory', 'MiB', [long], lambda i: long[i].kilobytes / 1024)


def main() -> int:
    if sys.argv[1:2] == ['--write']:
        write_script(int(sys.argv[2]))
        return 0
    return print_sizes(__doc__, 'script', '--sizes', '16,256', print_rows)


if __name__ == '__main__':
    sys.exit(main())
