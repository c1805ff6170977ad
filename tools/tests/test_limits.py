"""Limits of docs/limits.md that are too long for a worked case, each on both of its sides."""
from __future__ import annotations

import os
import unittest

from working import PROGRAM, Case, Done

LINE = 1048576
SCRIPT = 268435456
FILE = 1073741824

# A line of 65,536 bytes with its LF.
REMARK = b'#' * 65535 + b'\n'


class Limits(Case):
    def replayed_bytes(self, script: bytes) -> tuple[int, str]:
        done = self.run_words(PROGRAM + ['replay'], script)
        return done.status, done.out

    def test_bytes_of_a_line(self) -> None:
        for end in b'', b'\n', b'\r\n', b'\ndirty', b'\r\ndirty\n':
            later = 'total 0\n' if b'dirty' in end else ''
            with self.subTest(end=end):
                self.assertEqual(self.replayed_bytes(b'x' * LINE + end), (1, 'refused E01\n' + later))
                self.assertEqual(self.replayed_bytes(b'x' * (LINE + 1) + end), (1, 'refused E02\n' + later))
                self.assertEqual(self.replayed_bytes(b'#' * LINE + end), (0, later))
                self.assertEqual(self.replayed_bytes(b'#' * (LINE + 1) + end), (1, 'refused E02\n' + later))
                self.assertEqual(self.replayed_bytes(b' ' * LINE + end), (0, later))
                self.assertEqual(self.replayed_bytes(b' ' * (LINE + 1) + end), (1, 'refused E02\n' + later))
                self.assertEqual(self.replayed_bytes(b'dirty'.ljust(LINE) + end), (0, 'total 0\n' + later))
                self.assertEqual(self.replayed_bytes(b'dirty'.ljust(LINE + 1) + end), (1, 'refused E02\n' + later))

    def test_a_cr_within_a_line_counts(self) -> None:
        self.assertEqual(self.replayed_bytes(b'x' * (LINE - 1) + b'\r\r\n'), (1, 'refused E01\n'))
        self.assertEqual(self.replayed_bytes(b'x' * LINE + b'\r\r\n'), (1, 'refused E02\n'))

    def test_bytes_of_a_script(self) -> None:
        whole = REMARK * (SCRIPT // len(REMARK) - 1) + b'#'.ljust(len(REMARK) - 7, b'#') + b'\ndirty\n'
        self.assertEqual(len(whole), SCRIPT)
        self.assertEqual(self.replayed_bytes(whole), (0, 'total 0\n'))
        self.assertEqual(self.replayed_bytes(whole[:-1]), (0, 'total 0\n'))
        self.assertEqual(self.replayed_bytes(whole + b'\n'), (10, 'total 0\n'))
        self.assertEqual(self.replayed_bytes(whole[:-1] + b'  '), (10, ''))

    def town(self, seed: str, rows: str) -> Done:
        return self.run_words(PROGRAM + ['town', seed, rows])

    def test_rows_and_seed_of_a_town(self) -> None:
        for seed, rows in ('7', '60'), ('7', '1'), ('0', '1'), ('18446744073709551615', '1'):
            self.assertEqual(self.town(seed, rows).status, 0, (seed, rows))
        for seed, rows in ('7', '61'), ('7', '0'), ('18446744073709551616', '1'), ('-1', '1'):
            done = self.town(seed, rows)
            self.assertEqual((done.status, done.out[:12]), (2, 'usage: topo '), (seed, rows))

    def test_bytes_of_a_projects_file(self) -> None:
        """A file of NULs, which take no room on the disk: the longest is read, and is no project; one byte more is not read."""
        for size, status, said in (FILE, 6, 'project refused line 1 short\n'), (FILE + 1, 7, ''):
            with open(self.path('town'), 'wb') as file:
                os.truncate(file.fileno(), size)
            done = self.run_words(PROGRAM + ['check', 'town'])
            self.assertEqual((done.status, done.out), (status, said), size)


if __name__ == '__main__':
    unittest.main()
