"""The crates of the repository, as crates.txt lists them."""
from __future__ import annotations

import os

ROOT = os.path.dirname(os.path.dirname(os.path.dirname(os.path.abspath(__file__))))


def dependencies() -> dict[str, list[str]]:
    """The crates in their order, each with those of them that it names."""
    named: dict[str, list[str]] = {}
    with open(os.path.join(ROOT, 'crates.txt'), encoding='utf-8') as file:
        for line in file:
            if ':' in line and not line.startswith('#'):
                name, _, rest = line.partition(':')
                named[name.split()[0]] = rest.split()
    return {name: [it for it in deps if it in named] for name, deps in named.items()}
