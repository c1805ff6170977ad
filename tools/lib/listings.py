"""The listings of the documents: tables of lines and replies, each of which is a script.

One begins with the head `| Line | Reply |`; one with the head `| Next line | Reply |` goes on where the one before it on the page ended.
`class c1 point` to `class c9 point` stands for the nine lines, or replies, and `x`, 9 of it in one line for one line that is as long.
"""
from __future__ import annotations

import glob
import os
import re
from typing import Iterator

TIMES = {'': 1, 'twice': 2, 'three times': 3}
FIRST, NEXT = '| Line | Reply |', '| Next line | Reply |'


def pages(root: str) -> Iterator[tuple[str, str]]:
    """Each document, by its path from the root, with its text."""
    paths = glob.glob(os.path.join(root, '*.md')) + glob.glob(os.path.join(root, 'docs', '**', '*.md'), recursive=True)
    for folder in ('bench', 'tools'):
        paths += glob.glob(os.path.join(root, folder, '*.md'))
    for path in sorted(paths):
        with open(path, encoding='utf-8') as page:
            yield os.path.relpath(path, root), page.read()


def counted(first: str, last: str) -> list[str]:
    """The lines from the first to the last, which differ in one number alone."""
    one, other = re.split(r'(\d+)', first), re.split(r'(\d+)', last)
    at = next(i for i in range(len(one)) if one[i] != other[i])
    return [''.join(one[:at] + [str(n)] + one[at + 1:]) for n in range(int(one[at]), int(other[at]) + 1)]


def lines_of(cell: str) -> list[str]:
    """The lines, or replies, that a cell of a listing stands for."""
    lines = []
    for first, last, behind in re.findall(r'`([^`]*)`(?: to `([^`]*)`)?([^`]*)', cell):
        behind = behind.strip(', ')
        long = re.fullmatch(r'([\d,]+) of it in one line', behind)
        if last:
            lines += counted(first, last)
        elif long:
            lines.append(first * int(long[1].replace(',', '')))
        else:
            lines += [first] * TIMES[behind]
    return lines


def listings(text: str) -> Iterator[tuple[list[str], list[str]]]:
    """The scripts of a page with their replies, each as two lists of lines."""
    lines = text.split('\n')
    script: list[str] = []
    replies: list[str] = []
    for start in [i for i, line in enumerate(lines) if line in (FIRST, NEXT)]:
        if lines[start] == FIRST:
            script, replies = [], []
        for line in lines[start + 2:]:
            if not line.startswith('|'):
                break
            asked, said = [cell.strip() for cell in line.strip('|').split('|')]
            script = script + lines_of(asked)
            replies = replies + lines_of(said)
        yield script, replies
