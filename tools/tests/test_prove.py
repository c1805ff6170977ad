"""tools/prove with a prover that only waits: what runs side by side, what is proved again, how a failure and an interrupt end."""
from __future__ import annotations

import os
import shutil
import signal
import subprocess
import time
import unittest

from working import TOOLS, Case

LIST = 'low:\nleft: low\nright: low std\nfar: right\nabove: left far\ntopo: above\n'
PROVED = ['low', 'left', 'right', 'far', 'above']
# Takes the locks that rt takes, waits, writes a library over those below, and notes when it began and ended.
PROVER = r'''#!/usr/bin/env python3
import fcntl, os, sys, time
if sys.argv[1] == 'version':
    sys.exit(print('a kit'))
name, began = os.path.basename(os.getcwd()), time.time()
below = {'left': ['low'], 'right': ['low'], 'far': ['low', 'right'], 'above': ['low', 'left', 'right', 'far']}.get(name, [])
for it in below + [name]:
    fcntl.flock(os.open('../' + it, os.O_RDONLY), fcntl.LOCK_EX | fcntl.LOCK_NB)
assert os.path.isfile('../../crates.txt') and all(os.path.isfile('../%s/out/rlib/stamp' % it) for it in below)
time.sleep(float(os.environ.get('WAIT_' + name, '0.3')))
if os.environ.get('WRONG') == name:
    print('not proved: ' + name)
    sys.exit(3)
os.makedirs('out/rlib', exist_ok=True)
open('out/rlib/stamp', 'w').write(name + '-stamp')
with open(os.environ['NOTES'], 'a') as notes:
    notes.write('%s %s %f %f\n' % (name, sys.argv[-1], began, time.time()))
'''


class Proves(Case):
    def setUp(self) -> None:
        super().setUp()
        shutil.copy2(os.path.join(TOOLS, 'prove'), self.made('tools', 'prove'))
        shutil.copytree(os.path.join(TOOLS, 'lib'), self.made('tools', 'lib'))
        for name in PROVED + ['topo']:
            self.write(name, 'crates', name, 'src', 'lib.rt')
        self.write(LIST, 'crates.txt')
        self.write('', 'HANDLES')
        self.write(PROVER, 'bin', 'rt')
        os.chmod(self.path('bin/rt'), 0o755)
        os.mkdir(self.path('kept'))

    def made(self, *parts: str) -> str:
        path = self.path(os.path.join(*parts))
        os.makedirs(os.path.dirname(path), exist_ok=True)
        return path

    def write(self, text: str, *parts: str) -> None:
        with open(self.made(*parts), 'w', encoding='utf-8') as out:
            out.write(text)

    def start(self, **more: str) -> subprocess.Popen[bytes]:
        self.write('', 'notes')
        known = {'PATH': self.path('bin') + ':' + os.environ['PATH'], 'NOTES': self.path('notes')}
        words = [self.path('tools/prove'), self.path('kept')]
        return subprocess.Popen(words, env={**os.environ, **known, **more}, stderr=subprocess.PIPE)

    def proves(self, status: int, **more: str) -> dict[str, tuple[str, float, float]]:
        """Runs it to its end, and answers what was proved, each with the last word of its run, its begin and its end."""
        with self.start(**more) as run:
            self.told = run.communicate()[1].decode()
        self.assertEqual(run.returncode, status, self.told)
        left = [name for _, _, names in os.walk(self.path('kept/lanes')) for name in names]
        self.assertFalse([name for name in left if name.endswith(('.rt', '.antt')) or name in ('crates.txt', 'HANDLES')])
        with open(self.path('notes'), encoding='utf-8') as file:
            rows = [line.split() for line in file]
        return {name: (last, float(began), float(ended)) for name, last, began, ended in rows}

    @unittest.skipUnless(len(os.sched_getaffinity(0)) > 1, 'one processor')
    def test_side_by_side(self) -> None:
        found = self.proves(0)
        self.assertEqual(sorted(found), sorted(PROVED + ['topo']))
        self.assertLess(found['right'][1], found['left'][2])
        self.assertGreaterEqual(int(found['low'][0]), int(found['right'][0]))
        self.assertIn('topo: above is proved: 5 of 6 crates are proved; building the program\n', self.told)

    def test_only_what_changed(self) -> None:
        self.proves(0)
        self.assertEqual(list(self.proves(0)), ['topo'])
        self.write('other', 'crates', 'far', 'src', 'lib.rt')
        self.assertEqual(list(self.proves(0)), ['far', 'above', 'topo'])

    def test_failure(self) -> None:
        found = self.proves(3, WRONG='right', WAIT_left='9')
        self.assertEqual(list(found), ['low'])
        with open(self.path('kept/log'), encoding='utf-8') as file:
            self.assertTrue(file.read().endswith('== right\nnot proved: right\n'))
        self.assertEqual(sorted(self.proves(0)), sorted(['left', 'right', 'far', 'above', 'topo']))

    def test_interrupt(self) -> None:
        with self.start(WAIT_left='9', WAIT_far='9') as run:
            while not os.path.exists(self.path('crates/right/out/rlib/stamp')):
                time.sleep(0.05)
            time.sleep(0.5)
            run.send_signal(signal.SIGINT)
            run.communicate()
        self.assertEqual(run.returncode, 130)
        self.assertEqual(sorted(self.proves(0)), sorted(['left', 'far', 'above', 'topo']))
