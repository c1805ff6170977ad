#!/usr/bin/env python3
"""Takes all figures in one run: a heading that says when, where and of what, and then the table of each measuring command.

usage: bench/all.py [--baseline WORDS] [--commands NAME,..] [--turns N] [--seconds N] [--instructions] [--program WORDS]

  --commands NAME,..   these alone, in this order: all of them where it is left out
  the others           as in bench/run.py; without a baseline the ratios are left out

Run it on an idle machine, in a clean clone. The output is Markdown, as it stands in docs/measured.md. The status is 1 where a
command failed; those whose timing program is not built are named and left out.
"""
from __future__ import annotations

import argparse
import datetime
import os
import shlex
import subprocess
import sys

from programs import HERE, ROOT, parser_of, timing_path

COMMANDS = [
    'run.py', 'features.py', 'late.py', 'moved.py', 'together.py', 'town.py', 'town_words.py', 'projects.py', 'long_scripts.py',
    'borders.py', 'coverings.py', 'roads.py', 'wells.py', 'shapes.py', 'columns.py', 'cells.py',
]
TIMING = {'shapes.py': 'bench_shapes', 'columns.py': 'bench_columns', 'cells.py': 'bench_cells'}
WITHOUT_BASELINE = {'cells.py'}


def line_with(path: str, word: str) -> str:
    """What stands behind the colon in the first line of this file that begins with the word."""
    with open(path) as lines:
        return next((line.split(':', 1)[1].strip() for line in lines if line.startswith(word)), 'unknown')


def heading() -> str:
    commit = subprocess.run(['git', '-C', ROOT, 'describe', '--always', '--dirty'], capture_output=True, text=True).stdout.strip()
    memory = int(line_with('/proc/meminfo', 'MemTotal').split()[0]) / 1024 ** 2
    machine = '%d processors, %s, %.0f GiB' % (os.cpu_count() or 1, line_with('/proc/cpuinfo', 'model name'), memory)
    busy = 'load %.1f when it began' % os.getloadavg()[0]
    return '%s, %s, %s; commit %s' % (datetime.date.today(), machine, busy, commit)


def is_built(command: str) -> bool:
    return command not in TIMING or os.path.isfile(timing_path(TIMING[command]))


def words_for(command: str, given: argparse.Namespace) -> list[str]:
    """What is handed on to a command; those with a timing program of their own take a baseline at most."""
    names = [] if command in WITHOUT_BASELINE else ['baseline'] if command in TIMING else ['baseline', 'turns', 'seconds', 'program']
    words = [word for name in names if getattr(given, name) for word in ('--' + name, str(getattr(given, name)))]
    return words + ['--instructions'] * (given.instructions and command not in TIMING)


def run(command: str, given: argparse.Namespace) -> bool:
    """Prints the table of a command, and answers whether it went well."""
    words = words_for(command, given)
    shown = ['bench/' + command] + (['--baseline ..'] if '--baseline' in words else []) + [word for word in words if word == '--instructions']
    print('\n`%s`\n' % ' '.join(shown), flush=True)
    if not is_built(command):
        print('not taken: `crates/%s` is not built' % TIMING[command], flush=True)
        return True
    return subprocess.run([os.path.join(HERE, command)] + words).returncode == 0


def main() -> int:
    parser = parser_of(__doc__)
    parser.add_argument('--commands', default=','.join(COMMANDS))
    given = parser.parse_args()
    commands = given.commands.split(',')
    if given.baseline and not shlex.split(given.baseline):
        parser.error('the baseline has no words')
    if not set(commands) <= set(COMMANDS):
        parser.error('the commands are ' + ', '.join(COMMANDS))
    print(heading(), flush=True)
    results = [run(command, given) for command in commands]
    return 0 if all(results) else 1


if __name__ == '__main__':
    sys.exit(main())
