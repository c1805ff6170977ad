"""Two programs, or one, that are tried on the same scripts; each is called with its words."""
from __future__ import annotations

import argparse
import subprocess
import sys

from .frame import Words


def replies(command: list[str], text: str) -> tuple[int, str]:
    """How a program ends that replays a script, and what it says."""
    done = subprocess.run(command + ['replay'], input=text.encode(), capture_output=True)
    return done.returncode, done.stdout.decode()


def seeds_of(text: str) -> range:
    """The seeds of `FIRST..LAST`, both with them."""
    first, last = map(int, text.split('..'))
    return range(first, last + 1)


def with_programs(parser: Words, is_one_enough: bool = False) -> argparse.Namespace:
    """The words of a tool that ends with `PROGRAM [WORD..] -- OTHER [WORD..]`: the programs are `ours` and `other`."""
    words = sys.argv[1:]
    at = words.index('--') if '--' in words else len(words)
    parser.add_argument('ours', nargs=argparse.REMAINDER)
    given = parser.parse_args(words[:at])
    given.other = words[at + 1:]
    if not given.ours:
        parser.error('name a program')
    if not given.other and not is_one_enough:
        parser.error('name two programs, with -- between them')
    return given
