"""What a new rule costs: the lines that tools/new_rule writes for a made-up rule, and how many in shared files are left to write by hand."""
from __future__ import annotations

import glob
import os
import re
import shutil
import subprocess
import sys
import tempfile
import unittest

TOOLS = os.path.dirname(os.path.dirname(os.path.abspath(__file__)))
ROOT = os.path.dirname(TOOLS)
BEFORE = 'point_must_be_covered_by_endpoint_of'
MADE_UP = 'point_must_rest'
TABLE = 'docs/rules/table.ini'
MOST_BY_HAND = 10

ENTRY = '''
[%s]
classes = point, line
name = Must Rest
sentence = Each point is on a line of the second class.
marked = the point
repair = move it
subject = the point
other = 0
cells = the point
broken = the point is on no line
''' % MADE_UP

# Files of the rule before it alone, worked rows, cases and the fixes, which a rule may be without, are none of these.
SHARED = ('crates/*/src/*.rt', 'crates/*/specs/*.antt', 'crates/*/proofs/*.antt', 'crates/test_cases/args', 'tools/lib/*.py')


def camel(word: str) -> str:
    return ''.join(part.capitalize() for part in word.split('_'))


def shared_files(root: str) -> list[str]:
    found = [path for pattern in SHARED for path in glob.glob(os.path.join(root, pattern))]
    return [path for path in found if os.path.basename(path) not in (BEFORE + '.rt', 'fixing.py')]


def naming(root: str, word: str) -> dict[str, int]:
    """How often each shared file names the rule."""
    name = re.compile(r'\b(%s|%s)\b' % (word, camel(word)))
    counts = {}
    for path in shared_files(root):
        with open(path, encoding='utf-8') as file:
            counts[os.path.relpath(path, root)] = len(name.findall(file.read()))
    return {path: count for path, count in counts.items() if count}


class NewRule(unittest.TestCase):
    def setUp(self) -> None:
        self.root = tempfile.mkdtemp()
        self.addCleanup(shutil.rmtree, self.root)
        for path in [os.path.join(ROOT, TABLE)] + [path for path in shared_files(ROOT) if 'proofs/Rows' not in path]:
            copy = os.path.join(self.root, os.path.relpath(path, ROOT))
            os.makedirs(os.path.dirname(copy), exist_ok=True)
            shutil.copy(path, copy)
        with open(os.path.join(self.root, TABLE), 'a', encoding='utf-8') as table:
            table.write(ENTRY)

    def run_tool(self, *words: str) -> subprocess.CompletedProcess[str]:
        return subprocess.run([os.path.join(TOOLS, 'new_rule'), '--root', self.root, *words], capture_output=True, text=True, check=False)

    def test_few_shared_lines_are_left(self) -> None:
        ended = self.run_tool(MADE_UP)
        self.assertEqual((ended.returncode, ended.stderr), (0, ''))
        by_hand = [line.split(':')[0] for line in ended.stdout.splitlines()]
        self.assertLessEqual(len(by_hand), MOST_BY_HAND)
        before, new = naming(self.root, BEFORE), naming(self.root, MADE_UP)
        missing = {path for path in before if before[path] > new.get(path, 0)}
        self.assertEqual(missing, set(by_hand) - {'CHANGES.md'})

    def test_lines_are_written_once(self) -> None:
        self.run_tool(MADE_UP)
        first = naming(self.root, MADE_UP)
        self.run_tool(MADE_UP)
        self.assertEqual(naming(self.root, MADE_UP), first)

    def test_a_rule_without_an_entry(self) -> None:
        ended = self.run_tool('point_must_fly')
        self.assertEqual((ended.returncode, ended.stdout), (1, ''))
        self.assertEqual(ended.stderr, 'new_rule: docs/rules/table.ini: no entry point_must_fly behind another rule\n')


if __name__ == '__main__':
    unittest.main()
