#!/usr/bin/env python3
"""Lists the lines of a run of bench/all.py that miss their aims, as a table for docs/performance.md.

usage: bench/misses.py [--counted FILE] < FILE      FILE is what bench/all.py --baseline printed

  --counted FILE   what bench commands printed with --instructions: each line of time has its ratio there beside it

The aims are ratios to the baseline: of time 1.5, and 2.0 for a lake and for covering and gaps; of memory 1.0, and 1.5 for covering and
gaps. Below the table stands how many lines have a ratio, how many of them miss, and how many have none, since a run was stopped or a figure
is below the noise. The tables of shapes, columns and cells have no aims.
"""
from __future__ import annotations

import argparse
import re
import sys
from typing import Iterable, Iterator, Optional

WITHOUT_AIMS = {'shapes.py', 'columns.py', 'cells.py'}
# The columns that have a ratio, and whether it is one of memory; None: as the line's name says.
RATIOS = {'ratio': None, 'ratio of times': False, 'ratio of memory': True}


def aim_of(command: str, name: str, is_memory: bool) -> float:
    """The greatest ratio that such a line may have."""
    if command == 'coverings.py':
        return 1.5 if is_memory else 2.0
    if is_memory:
        return 1.0
    return 2.0 if name.startswith('lake') else 1.5


def rows_of(lines: Iterable[str]) -> Iterator[tuple[str, dict[str, str], str]]:
    """The rows of all tables: the command, and each cell by the head of its column."""
    command, head = None, None
    for line in lines:
        named = re.match(r'`bench/(\w+\.py)', line)
        if named:
            command, head = named[1], None
        elif line.startswith('|'):
            cells = [cell.strip() for cell in line.strip().strip('|').split('|')]
            if head is None:
                head = cells
            elif not set(line) <= set('|-: \n'):
                yield command, dict(zip(head, cells)), head[0]


def ratios_of(command: str, row: dict[str, str], first: str) -> Iterator[tuple[str, bool, Optional[float]]]:
    """The ratios of a row: the line's name, whether it is one of memory, and the ratio, None where there is none."""
    for column, of_memory in RATIOS.items():
        if column in row:
            name = row[first]
            is_memory = 'memory' in name if of_memory is None else of_memory
            if of_memory is not None:
                name += ': memory' if of_memory else ': time'
            text = row[column]
            yield name, is_memory, float(text) if re.fullmatch(r'[0-9.]+', text) else None


def all_ratios(lines: Iterable[str]) -> Iterator[tuple[str, str, bool, Optional[float]]]:
    """Each ratio of all tables that have aims: the command, the line's name, whether it is one of memory, and the ratio."""
    for command, row, first in rows_of(lines):
        if command not in WITHOUT_AIMS:
            for name, is_memory, ratio in ratios_of(command, row, first):
                yield command, name, is_memory, ratio


def counted_in(path: Optional[str]) -> dict[tuple[str, str], float]:
    """The ratios of counted instructions, by command and line."""
    if not path:
        return {}
    with open(path) as lines:
        return {(command, name): ratio for command, name, is_memory, ratio in all_ratios(lines) if ratio is not None}


def main() -> int:
    parser = argparse.ArgumentParser(usage=__doc__.split('\n\n')[1][7:])
    parser.add_argument('--counted')
    counted = counted_in(parser.parse_args().counted)
    missed: dict[tuple[str, float, bool], list[str]] = {}
    judged = without = 0
    for command, name, is_memory, ratio in all_ratios(sys.stdin):
        aim = aim_of(command, name, is_memory)
        if ratio is None:
            without += 1
            continue
        judged += 1
        if ratio > aim:
            beside = ' (%.2f)' % counted[command, name] if not is_memory and (command, name) in counted else ''
            missed.setdefault((command, aim, is_memory), []).append('%s: %.2f%s' % (name, ratio, beside))
    print('| Of bench/ | Line, and its ratio%s | Aim |\n|---|---|---|' % (' (of counted instructions)' if counted else ''))
    for (command, aim, is_memory), lines in missed.items():
        print('| `%s` | %s | %s%.1f |' % (command, '; '.join(lines), 'memory ' if is_memory else '', aim))
    print('\n%d lines have a ratio, %d miss; %d have none' % (judged, sum(len(lines) for lines in missed.values()), without))
    return 0


if __name__ == '__main__':
    sys.exit(main())
