"""Lanes: copies of the crates in which runs of `rt lib` prove crates side by side.

A run of rt keeps others out of its crate and of those below it in the same checkout. So each goes on in a lane: a copy of the crates
that takes the libraries that are built by links, and hands on its own so. What a check keeps for the next one stays in the lane.
"""
from __future__ import annotations

import contextlib
import fcntl
import glob
import os
import shutil
import subprocess
import sys
from typing import Iterable, Iterator, TextIO

from lib.crates import ROOT, dependencies

CRATES = os.path.join(ROOT, 'crates')
PARTS = 'src', 'specs', 'proofs'
LISTS = 'crates.txt', 'HANDLES'


def library_in(crates: str, name: str) -> str:
    """The folder of a crate's library."""
    return os.path.join(crates, name, 'out', 'rlib')


def stamp_in(crates: str, name: str) -> str:
    """The file that rt writes beside a crate's library, once the crate is proved."""
    return os.path.join(library_in(crates, name), 'stamp')


def link_or_copy(source: str, target: str) -> None:
    try:
        os.link(source, target)
    except OSError:
        shutil.copy2(source, target)


def hand_on(name: str, source: str, target: str) -> None:
    """Gives the crates of one checkout the library that was built in another."""
    if os.path.exists(stamp_in(target, name)) and os.path.samefile(stamp_in(source, name), stamp_in(target, name)):
        return
    library = library_in(target, name)
    shutil.rmtree(library + '.new', ignore_errors=True)
    shutil.copytree(library_in(source, name), library + '.new', copy_function=link_or_copy)
    shutil.rmtree(library, ignore_errors=True)
    os.rename(library + '.new', library)


def start(words: list[str], folder: str, log: TextIO, behind: bool = False) -> subprocess.Popen[bytes]:
    """Starts rt in the folder, behind other programs where that is said; what it says goes to the log."""
    nice = ['nice', '-n', '10'] if behind and shutil.which('nice') else []
    return subprocess.Popen([*nice, 'rt', *words], cwd=folder, stdin=subprocess.DEVNULL, stdout=log, stderr=subprocess.STDOUT)


def lock(held: int) -> None:
    """Waits until no other rt works in this folder."""
    try:
        fcntl.flock(held, fcntl.LOCK_EX | fcntl.LOCK_NB)
    except BlockingIOError:
        sys.stderr.write('topo: waiting for another run of rt to end\n')
        fcntl.flock(held, fcntl.LOCK_EX)


@contextlib.contextmanager
def alone(names: Iterable[str]) -> Iterator[None]:
    """Keeps other runs of rt out of these crates, as rt itself does."""
    held = [os.open(os.path.join(CRATES, name), os.O_RDONLY) for name in sorted(names)]
    try:
        for it in held:
            # (some file systems have no locks)
            with contextlib.suppress(OSError):
                lock(it)
        yield
    finally:
        for it in held:
            os.close(it)


class Lane:
    """A copy of the crates, in which one crate at a time is proved."""

    def __init__(self, folder: str) -> None:
        self.folder, self.crates, self.log = folder, os.path.join(folder, 'crates'), os.path.join(folder, 'log')
        for name in dependencies():
            for part in PARTS:
                source, copy = os.path.join(CRATES, name, part), os.path.join(self.crates, name, part)
                shutil.rmtree(copy, ignore_errors=True)
                if os.path.isdir(source):
                    shutil.copytree(source, copy)
        for name in LISTS:
            shutil.copy2(os.path.join(ROOT, name), folder)

    def kept_work(self, name: str) -> str:
        """What a check of the crate keeps for the next one."""
        return os.path.join(self.crates, name, 'out', 'incremental')

    def take_work(self, name: str, other: Lane) -> None:
        """Takes over what a check of the crate kept in another lane."""
        if os.path.isdir(other.kept_work(name)):
            shutil.rmtree(self.kept_work(name), ignore_errors=True)
            os.makedirs(os.path.dirname(self.kept_work(name)), exist_ok=True)
            os.rename(other.kept_work(name), self.kept_work(name))


def clear(lane: str) -> None:
    """Takes the lists, the sources and the libraries out of a lane. The next build copies and links them again."""
    for name in LISTS:
        with contextlib.suppress(OSError):
            os.remove(os.path.join(lane, name))
    for crate in glob.glob(os.path.join(lane, 'crates', '*')):
        for part in (*PARTS, os.path.join('out', 'rlib'), os.path.join('out', 'rlib.new')):
            shutil.rmtree(os.path.join(crate, part), ignore_errors=True)


class Run:
    """A crate that is being proved by so many jobs, behind others or not."""

    def __init__(self, name: str, lane: Lane, jobs: int, behind: bool) -> None:
        self.name, self.lane, self.jobs, self.behind = name, lane, jobs, behind
        with open(lane.log, 'w', encoding='utf-8') as log:
            self.process = start(['lib', '--jobs', str(jobs)], os.path.join(lane.crates, name), log, behind)

    def said(self) -> str:
        with open(self.lane.log, encoding='utf-8', errors='replace') as file:
            return '== %s\n%s' % (self.name, file.read())

    def end(self) -> None:
        self.process.terminate()
        self.process.wait()


class Lanes:
    """The crates that are being proved, each in a lane of its own. The folder keeps the lanes for the next build."""

    def __init__(self, folder: str, below: dict[str, set[str]], processors: int, jobs: int) -> None:
        os.makedirs(folder, exist_ok=True)
        self.folder, self.below, self.processors, self.jobs = folder, below, processors, jobs
        self.lanes: list[Lane] = []
        self.runs: list[Run] = []

    def free_lane(self) -> Lane:
        """A lane in which nothing runs."""
        busy = [run.lane for run in self.runs]
        for lane in self.lanes:
            if lane not in busy:
                return lane
        self.lanes.append(Lane(os.path.join(self.folder, str(len(self.lanes) + 1))))
        return self.lanes[-1]

    def begin(self, name: str, jobs: int, behind: bool) -> None:
        lane = self.free_lane()
        for it in self.below[name]:
            hand_on(it, CRATES, lane.crates)
        for other in self.lanes:
            if other is not lane:
                lane.take_work(name, other)
        self.runs.append(Run(name, lane, jobs, behind))

    def jobs_for(self, behind: bool, others: int) -> int:
        """How many jobs the next run gets, where so many others wait to begin."""
        taken = sum(run.jobs for run in self.runs)
        idle = self.processors - taken
        wanted = max(1, -(-idle // (others + 1))) if behind else self.processors
        return min(wanted, self.jobs - taken)

    def begin_all(self, ready: list[str], chain: dict[str, float]) -> list[str]:
        """Begins these crates in their order, as long as there are lanes and jobs. Answers which.

        The one with the longest chain above it gets all processors, before the others; those fill what it leaves idle.
        """
        begun: list[str] = []
        for name in ready:
            longest = max((chain[run.name] for run in self.runs if not run.behind), default=0.0)
            behind = chain[name] < longest
            jobs = self.jobs_for(behind, len(ready) - len(begun) - 1)
            if len(self.runs) < self.processors and jobs > 0:
                self.begin(name, jobs, behind)
                begun.append(name)
        return begun

    def take_ended(self) -> list[Run]:
        """The runs that have ended since the last call; a library that was built is handed on."""
        ended = [run for run in self.runs if run.process.poll() is not None]
        self.runs = [run for run in self.runs if run not in ended]
        for run in ended:
            if run.process.returncode == 0:
                hand_on(run.name, run.lane.crates, CRATES)
        return ended

    def close(self) -> None:
        """Ends what runs. Of each lane only what a check keeps for the next one stays: `rt ci` wants no source beside those of the crates."""
        for run in self.runs:
            run.end()
        for lane in os.listdir(self.folder):
            clear(os.path.join(self.folder, lane))
