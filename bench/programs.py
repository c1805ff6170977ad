"""Programs that are measured over scripts: the built one, and another beside it where one is named."""
from __future__ import annotations

import argparse
import contextlib
import hashlib
import math
import os
import random
import re
import shlex
import shutil
import subprocess
import sys
import tempfile
from typing import IO, Any, Callable, ContextManager, Iterable, Iterator, Optional, Sequence, TypeVar, Union

from polygons import Place, Ring

HERE = os.path.dirname(os.path.abspath(__file__))
ROOT = os.path.dirname(HERE)
LONG = 5
# Short runs take more turns, till all of a script have taken so long together, in s, or so many were taken.
ENOUGH, MOST = 2, 25
MEMORY_UNITS = {'MiB', 'bytes'}
# Two runs of one script differ by as much: a difference of two runs that is a smaller part of the longer one says nothing.
NOISE = 0.03

# A row asks it for the figure of each program, by its place.
Figure = Callable[[int], float]


class Measure:
    """The least time and memory of a program's runs on one script, and how it ended and what it wrote.

    Where instructions are counted, a thousand of them stand for a microsecond, one run tells, nothing is noise, and the memory is not known.
    """

    counts = False

    def __init__(self, words: list[str]) -> None:
        self.words = words
        self.spent = 0.0
        self.seconds = self.kilobytes = math.inf
        self.has_run, self.status, self.digest = False, 0, b''

    def take(self, folder: str, limit: int) -> None:
        """One run over the script in the folder; none where an earlier one was long, or was stopped at the limit, in s."""
        if self.has_run and (self.status < 0 or self.seconds > LONG):
            return
        written = os.path.join(folder, 'written')
        with self.source(folder) as source, open(written, 'wb') as out:
            run = self.counted if self.counts else self.measured
            self.status, microseconds, kilobytes = run(folder, limit, source, out)
        self.has_run = True
        self.spent += microseconds / 1e6
        self.seconds = min(self.seconds, microseconds / 1e6)
        self.kilobytes = min(self.kilobytes, kilobytes)
        self.digest = self.digest_of(written)

    def measured(self, folder: str, limit: int, source: IO[bytes], out: IO[bytes]) -> tuple[int, float, float]:
        """One run: how it ended, its time in microseconds, and its memory in kilobytes."""
        report = os.path.join(folder, 'report')
        subprocess.run([os.path.join(folder, 'measured'), report, str(limit)] + self.words, stdin=source, stdout=out, check=True)
        with open(report) as told:
            status, microseconds, kilobytes = map(int, told.read().split())
        return status, microseconds, kilobytes

    def counted(self, folder: str, limit: int, source: IO[bytes], out: IO[bytes]) -> tuple[int, float, float]:
        """The same of a run whose instructions are counted."""
        ended, count = instructions(self.words, source, out)
        return ended, count / 1e3, 0

    def source(self, folder: str) -> ContextManager[IO[bytes]]:
        """What a run reads: the script in the folder."""
        return open(os.path.join(folder, 'script'), 'rb')

    def digest_of(self, written: str) -> bytes:
        """What stands for the output of a run in a comparison."""
        return digest_of_file(written)


class SavingMeasure(Measure):
    """The same of runs that save a project: its text is a part of the output."""

    def __init__(self, words: list[str], target: str) -> None:
        super().__init__(words + [target])
        self.target = target

    def digest_of(self, written: str) -> bytes:
        saved = digest_of_file(self.target) if os.path.exists(self.target) else b''
        return super().digest_of(written) + saved


class PipedMeasure(Measure):
    """The same of runs that read what another program, called with these words, writes into a pipe."""

    def __init__(self, words: list[str], maker: list[str]) -> None:
        super().__init__(words)
        self.maker = maker

    @contextlib.contextmanager
    def source(self, folder: str) -> Iterator[IO[bytes]]:
        with subprocess.Popen(self.maker, stdout=subprocess.PIPE) as maker:
            assert maker.stdout
            yield maker.stdout


Measures = Sequence[Measure]
M = TypeVar('M', bound=Measure)
# Measures the lines of a script.
Taking = Callable[[list[str]], list[Measure]]
# The names of maps, with what makes each.
Maps = Callable[[], Iterable[tuple[str, Any]]]


def instructions(words: list[str], source: IO[bytes], out: Union[int, IO[bytes]]) -> tuple[int, int]:
    """How a program ends that reads the source, and how many instructions it takes, as valgrind counts them."""
    counting = ['valgrind', '--tool=callgrind', '--callgrind-out-file=/dev/null'] + words
    run = subprocess.run(counting, stdin=source, stdout=out, stderr=subprocess.PIPE, text=True)
    return run.returncode, int(re.findall(r'Collected *: *(\d+)', run.stderr)[0])


def digest_of_file(path: str) -> bytes:
    with open(path, 'rb') as file:
        return hashlib.sha256(file.read()).digest()


def program_of(text: str) -> list[str]:
    """The words of a program, the first of them its full path."""
    words = shlex.split(text)
    return [os.path.abspath(shutil.which(words[0]) or words[0])] + words[1:]


def programs_of(given: argparse.Namespace) -> list[list[str]]:
    """The words of the measured program, and of the baseline where one is given."""
    Measure.counts = given.instructions
    if given.instructions and not shutil.which('valgrind'):
        sys.exit('valgrind is not found: it counts the instructions')
    if given.program:
        own = program_of(given.program)
    else:
        subprocess.run([os.path.join(ROOT, 'topo'), '--prove'], stdin=subprocess.DEVNULL, check=True)
        own = [os.path.join(ROOT, '.build', 'topo')]
    return [own] + ([program_of(given.baseline)] if given.baseline else [])


def parser_of(usage: Optional[str]) -> argparse.ArgumentParser:
    """A parser of the words that each of these commands takes; the command may add its own."""
    parser = argparse.ArgumentParser(usage=(usage or '').split('\n\n')[1][7:])
    parser.add_argument('--baseline')
    parser.add_argument('--program')
    parser.add_argument('--turns', type=int, default=3)
    parser.add_argument('--seconds', type=int, default=600)
    parser.add_argument('--instructions', action='store_true')
    return parser


def add_kinds(parser: argparse.ArgumentParser, kinds: Iterable[str]) -> None:
    """The word `--kinds`: some of these, with commas between them, and all of them where it is left out."""

    def chosen(text: str) -> list[str]:
        if not set(text.split(',')) <= set(kinds):
            raise argparse.ArgumentTypeError('the kinds are ' + ', '.join(kinds))
        return text.split(',')

    parser.add_argument('--kinds', type=chosen, default=list(kinds))


def timing_path(name: str) -> str:
    """Where the timing program of this crate stands once it is built."""
    return os.path.join(ROOT, 'crates', name, 'out', name)


def timing_program(name: str) -> str:
    """The timing program of this crate; the command ends where it is not built."""
    path = timing_path(name)
    if not os.path.isfile(path):
        sys.exit('build crates/%s first: `rt run -- 1 < stdin` in its folder' % name)
    return path


def make_measured(folder: str) -> None:
    """Puts into the folder the program that runs another and tells what it used."""
    measured = os.path.join(folder, 'measured')
    subprocess.run(['cc', '-O2', '-o', measured, os.path.join(HERE, 'measured.c')], check=True)


def take_turns(measures: list[M], folder: str, given: argparse.Namespace) -> list[M]:
    """Lets these take turns on the script in the folder, more than were asked for where runs are short, and answers them."""
    if given.instructions:
        for measure in measures:
            measure.take(folder, given.seconds)
        return measures
    turns = 0
    while turns < given.turns or turns < MOST and sum(measure.spent for measure in measures) < ENOUGH:
        for measure in measures:
            measure.take(folder, given.seconds)
        turns += 1
    return measures


def measure_script(folder: str, programs: list[list[str]], given: argparse.Namespace, more: Iterable[str] = ('replay',)) -> list[Measure]:
    """Lets the programs, called with more words, take turns on the script in the folder; one measure for each."""
    return take_turns([Measure(words + list(more)) for words in programs], folder, given)


def write_lines(folder: str, lines: list[str]) -> None:
    """Makes these lines the script in the folder."""
    with open(os.path.join(folder, 'script'), 'w') as out:
        out.writelines(line + '\n' for line in lines)


def measure_lines(folder: str, lines: list[str], programs: list[list[str]], given: argparse.Namespace) -> list[Measure]:
    """The same on a script of these lines."""
    write_lines(folder, lines)
    return measure_script(folder, programs, given)


def measure_saved(folder: str, name: str, lines: list[str], more: Iterable[str], programs: list[list[str]], given: argparse.Namespace) -> list[SavingMeasure]:
    """The same of programs that are called with more words and save a project, each under this name with its number behind it."""
    write_lines(folder, lines)
    targets = [os.path.join(folder, '%s-%d' % (name, number)) for number in range(len(programs))]
    return take_turns([SavingMeasure(words + list(more), target) for words, target in zip(programs, targets)], folder, given)


def measure_piped(folder: str, maker: list[str], more: Iterable[str], programs: list[list[str]], given: argparse.Namespace) -> list[PipedMeasure]:
    """The same of programs that are called with more words and read what another program writes, which is called with the words `maker`."""
    return take_turns([PipedMeasure(words + list(more), maker) for words in programs], folder, given)


def measure_words(folder: str, words: list[str], programs: list[list[str]], given: argparse.Namespace) -> list[Measure]:
    """The same of programs that are called with these words, over an empty script."""
    with open(os.path.join(folder, 'script'), 'w'):
        return measure_script(folder, programs, given, words)


def has_ended(measures: Measures) -> bool:
    return all(measure.status >= 0 for measure in measures)


def are_same(measures: Measures) -> bool:
    """Whether the programs wrote the same and ended alike."""
    return len({(measure.status, measure.digest) for measure in measures}) == 1


def stride_of(count: int) -> int:
    """A step that visits all numbers below `count`, in no plain order."""
    stride = int(count * 0.618) | 1
    while math.gcd(stride, count) != 1:
        stride += 2
    return stride


def spread(count: int, some: int) -> list[int]:
    """So many of the numbers below `count`, each once, over the whole range and in no plain order."""
    stride = stride_of(count)
    return [i * stride % count for i in range(some)]


def point(place: Place) -> str:
    return 'POINT (%d %d)' % place


def polygon(ring: Ring) -> str:
    return 'POLYGON ((%s))' % ', '.join('%d %d' % place for place in ring + ring[:1])


def line(places: Iterable[Place]) -> str:
    return 'LINESTRING (%s)' % ', '.join('%d %d' % place for place in places)


def added(name: str, shapes: Iterable[Any], text: Callable[[Any], str] = polygon) -> list[str]:
    """The lines that add these shapes to the class."""
    return ['by ann add %s %s' % (name, text(shape)) for shape in shapes]


def edits(shapes: Sequence[Any], times: int, text: Callable[[Any], str] = polygon) -> list[str]:
    """So many edits of these shapes, the first of which has the handle 1: each moves a vertex, and validates a window round its shape."""
    lot, lines = random.Random(times), []
    for number in spread(len(shapes), min(times, len(shapes))) * -(-times // len(shapes)):
        shape = list(shapes[number])
        k = lot.randrange(len(shape))
        shape[k] = shape[k][0] + lot.randint(-5, 5), shape[k][1] + lot.randint(-5, 5)
        (x0, x1), (y0, y1) = [(min(part) - 40, max(part) + 40) for part in zip(*shape)]
        lines += ['by ann change %d %s' % (number + 1, text(shape)), 'validate %d %d %d %d' % (x0, y0, x1, y1)]
    return lines[:2 * times]


def beyond(after: Measures, before: Measures, factor: float) -> Figure:
    """What a script takes beyond one that ends earlier, in s times the factor, of each program by its place; 0 where it is noise."""

    def figure_of(i: int) -> float:
        more = after[i].seconds - before[i].seconds
        return more * factor if Measure.counts or more > NOISE * after[i].seconds else 0

    return figure_of


class Table:
    """A table of figures: what the program takes, what the baseline takes, the ratio, and whether their outputs are equal."""

    def __init__(self, first: str, has_other: bool) -> None:
        self.has_other = has_other
        self.good = True
        names = [first, 'of the program']
        if has_other:
            names += ['of the baseline', 'ratio', 'equal output']
        print('| ' + ' | '.join(names) + ' |\n|' + '---|' * len(names), flush=True)

    def row(self, name: str, unit: str, measures: Sequence[Measures], figure_of: Figure) -> None:
        """A row: `figure_of` is asked for the figure of each program, by its place; `measures` hold the runs of all scripts.
        There is none of memory where instructions are counted."""
        if Measure.counts and unit in MEMORY_UNITS:
            return
        good = all(are_same(runs) and has_ended(runs) and runs[0].status == 0 for runs in measures)
        self.good = self.good and good
        if not all(has_ended(runs) for runs in measures):
            figures, ratio = ['stopped'] * len(measures[0]), ''
        else:
            values = [figure_of(i) for i in range(len(measures[0]))]
            figures = ['%.3f %s' % (value, unit) if value > 0 else 'below the noise' for value in values]
            ratio = '%.2f' % (values[0] / values[-1]) if min(values) > 0 else ''
        cells = [name] + figures
        if self.has_other:
            ended = all(has_ended(runs) for runs in measures)
            cells += [ratio, '' if not ended else 'yes' if all(are_same(runs) for runs in measures) else 'NO']
        print('| ' + ' | '.join(cells) + ' |', flush=True)


def print_validated(table: Table, name: str, take: Taking, founding: list[str], editing: list[str], before: Measures) -> list[Measure]:
    """The rows of a map: validated whole, and then after each of its edits. Answers the measures of the whole validation.

    `take` measures the lines of a script; `before` has the measures of those that found the map.
    """
    validated, edited = take(founding + ['validate all']), take(founding + ['validate all'] + editing)
    table.row(name + ', validated whole: time', 'ms', [before, validated], beyond(validated, before, 1e3))
    table.row(name + ', validated whole: memory', 'MiB', [validated], lambda i: validated[i].kilobytes / 1024)
    table.row(name + ', an edit with its window', 'µs', [validated, edited], beyond(edited, validated, 2e6 / len(editing)))
    return validated


def print_table(title: str, given: argparse.Namespace, print_rows: Callable[[Table, str, list[list[str]]], None]) -> int:
    """A table, whose rows `print_rows` prints of the programs, with a folder for their scripts. Answers the status."""
    programs = programs_of(given)
    table = Table(title, len(programs) == 2)
    with tempfile.TemporaryDirectory() as folder:
        make_measured(folder)
        print_rows(table, folder, programs)
    return 0 if table.good else 1


def print_maps(usage: Optional[str], maps: Maps, print_one: Callable[[Table, str, Taking, Any], None]) -> int:
    """The whole of a command that has maps by their names: reads its words, and has each map print its rows. Answers the status."""
    parser = parser_of(usage)
    parser.add_argument('--lines', nargs='+', default=[''])
    given = parser.parse_args()

    def print_rows(table: Table, folder: str, programs: list[list[str]]) -> None:
        take = lambda lines: measure_lines(folder, lines, programs, given)
        for name, make in maps():
            if name.startswith(tuple(given.lines)):
                print_one(table, name, take, make)

    return print_table('map', given, print_rows)


def print_edited_maps(usage: Optional[str], maps: Maps) -> int:
    """The same where each map makes the lines that found it, and its edits: validated whole, and then after each edit."""

    def print_map(table: Table, name: str, take: Taking, make: Callable[[], tuple[list[str], list[str]]]) -> None:
        founding, editing = make()
        print_validated(table, name, take, founding, editing, take(founding))

    return print_maps(usage, maps, print_map)


def print_sizes(usage: Optional[str], title: str, option: str, sizes: str, print_one: Callable[[Table, str, int, list[list[str]], argparse.Namespace], None], add_words: Callable[[argparse.ArgumentParser], object] = lambda parser: None) -> int:
    """The whole of a command that takes sizes: reads its words, and has each size print its rows. Answers the status."""
    parser = parser_of(usage)
    parser.add_argument(option, dest='sizes', default=sizes)
    add_words(parser)
    given = parser.parse_args()

    def print_rows(table: Table, folder: str, programs: list[list[str]]) -> None:
        for size in map(int, given.sizes.split(',')):
            print_one(table, folder, size, programs, given)

    return print_table(title, given, print_rows)


def print_kinds(usage: Optional[str], title: str, kinds: Iterable[str], print_one: Callable[[Table, str, str, list[list[str]], argparse.Namespace], None], add_words: Callable[[argparse.ArgumentParser], object] = lambda parser: None) -> int:
    """The whole of a command that takes kinds: reads its words, and has each kind print its rows. Answers the status."""
    parser = parser_of(usage)
    add_words(parser)
    add_kinds(parser, list(kinds))
    given = parser.parse_args()

    def print_rows(table: Table, folder: str, programs: list[list[str]]) -> None:
        for kind in given.kinds:
            print_one(table, folder, kind, programs, given)

    return print_table(title, given, print_rows)
