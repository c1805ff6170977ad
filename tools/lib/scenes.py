"""What stands at the end of a script, for a map: features, errors, dirt, and where each comes from."""
from __future__ import annotations

import contextlib
import os
import re
import subprocess
import threading
from typing import IO, Iterator, NamedTuple, Optional, Sequence

from .asked import with_closures
from .cells import Cover, cover_and_stops
from .gaps import WORD, Ground, ground_of
from .grid import REACH, Place
from .names import NO_NAMES, Names
from .outlines import Point
from .replies import Ending, Error, Frame, ReplyError, each_error, frame_of, is_skipped, named_by
from .spans import Segment

LISTS = re.compile(r'\(([-0-9 ,]+)\)')
KINDS = {'POINT': 'point', 'LINESTRING': 'line', 'MULTILINESTRING': 'line', 'POLYGON': 'polygon', 'MULTIPOLYGON': 'polygon'}

# The listings that are asked for behind the lines of a script.
LISTED = 'features', 'cells', 'dirty'
# So many bytes at the end of a script are looked at for listings of its own.
TAIL = 4096


class Drawn(NamedTuple):
    """A feature, with the text of its shape: numbers take ten times the room of their text, so they are read when they are asked for."""

    handle: int
    of_class: str
    kind: str
    text: str
    subtype: int = 0

    @property
    def numbers(self) -> list[list[int]]:
        """Its lists of places, each as x, y, x, y and so on: rings that end where they begin, parts of a line, or one place."""
        return [list(map(int, each.replace(',', '').split())) for each in LISTS.findall(self.text)]

    @property
    def lists(self) -> list[list[Place]]:
        return [list(zip(each[::2], each[1::2])) for each in self.numbers]

    @property
    def frame(self) -> Frame:
        xs, ys = ([number for each in self.numbers for number in each[at::2]] for at in (0, 1))
        return min(xs), min(ys), max(xs), max(ys)


class Marked(NamedTuple):
    """An error with what its cells cover, or its frame where it is of a whole feature; and the ends of its cells that lie on lines."""

    error: Error
    cover: Cover
    stops: set[Point]

    @property
    def rings(self) -> list[list[Point]]:
        """The rings of its polygons; their inside follows from the even-odd count."""
        return [ring for outline in self.cover.polygons for ring in [outline.shell] + outline.holes]


class ShownFix(NamedTuple):
    """A fix of tools/fixes: its number, what it does, its lines, how far it moves a vertex in units of the source, what it leaves, its frame and the
    numbers of its ways."""

    number: int
    how: str
    lines: str
    distance: float
    leaves: str
    frame: Frame
    ways: list[list[int]]


class Scene(NamedTuple):
    features: list[Drawn]
    errors: list[Marked]
    dirt: list[Frame]
    ending: Ending
    names: Names = NO_NAMES
    fixes: tuple[ShownFix, ...] = ()

    def name_of(self, handle: int) -> str:
        """The id of a feature in its source, or its handle."""
        if not self.names.by_handle:
            return self.ending.origins.id_of(handle) or str(handle)
        return self.names.origin(handle, self.ending).id or str(handle)

    def grounds(self) -> dict[int, Ground]:
        """The ground of each coverage, by the rule whose errors tell of it."""
        rules = [number for number, rule in self.ending.rules.items() if rule.word == WORD]
        return {rule: ground_by([marked for marked in self.errors if marked.error.rule == rule]) for rule in rules}


def ground_by(errors: list[Marked]) -> Ground:
    borders: dict[Segment, set[int]] = {}
    points: set[Point] = set()
    for marked in errors:
        points.update(marked.stops)
        for side in marked.cover.lines:
            borders.setdefault(side, set()).add(marked.error.subject)
    return ground_of(borders, points)


def drawn_of(line: str) -> Drawn:
    _, handle, side, word, text = line.split(' ', 4)
    of_class, subtype = named_by(side)
    return Drawn(int(handle), of_class, KINDS[word], text, subtype)


def checked(script: bytes) -> bytes:
    """The same bytes. A ReplyError where they can be of no script."""
    if b'\0' in script:
        raise ReplyError('this is no script: it has bytes that no script has')
    return script


def listed_last(script: str) -> list[str]:
    """The listings behind the last line of a script that is none: they say what stands at its end, and are not asked for again."""
    with open(script, 'rb') as file:
        start = max(0, file.seek(0, os.SEEK_END) - TAIL)
        file.seek(start)
        lines = file.read().split(b'\n')[1 if start else 0:]
    found: list[str] = []
    for line in reversed(lines):
        word = line.removesuffix(b'\r').strip(b' \t').decode('ascii', 'replace')
        if word in LISTED:
            found.append(word)
        elif not is_skipped(line):
            break
    return found


def asked_of(script: str, listed: Sequence[str] = LISTED) -> Iterator[bytes]:
    """What is asked: the lines of a script, and behind them these listings."""
    last = b'\n'
    with open(script, 'rb') as lines:
        for line in lines:
            yield (last := line)
    yield from [b'\n'] * (not last.endswith(b'\n')) + [b'%s\n' % word.encode() for word in listed]


def feed(script: str, pipe: IO[bytes], listed: Sequence[str]) -> None:
    """Hands all that is asked to the program. It may end before; then its replies say so."""
    with contextlib.suppress(BrokenPipeError), pipe:
        pipe.writelines(asked_of(script, listed))


@contextlib.contextmanager
def replies_to(program: list[str], script: str, listed: Sequence[str] = LISTED) -> Iterator[IO[bytes]]:
    """The replies to a script and behind its lines to these listings, as they come. A ReplyError where it is no script."""
    with open(script, 'rb') as pieces:
        for piece in iter(lambda: pieces.read(1 << 20), b''):
            checked(piece)
    with subprocess.Popen(program + ['replay'], stdin=subprocess.PIPE, stdout=subprocess.PIPE) as process:
        feeder = threading.Thread(target=feed, args=(script, process.stdin, listed), daemon=True)
        feeder.start()
        try:
            yield process.stdout
        finally:
            process.stdout.close()
            process.wait()
            feeder.join()


def ending_after(script: str, replies: IO[bytes], listed: Sequence[str] = LISTED) -> Ending:
    """What stands at the end. A ReplyError where no line could be done, or where there is none: a drawing of nothing would look as if all
    were well."""
    ending = Ending()
    if ending.take_all(asked_of(script, listed), replies) == len(listed):
        raise ReplyError('the script has no lines')
    if ending.refused and not ending.changes:
        raise ReplyError('this is no script: none of its lines could be done')
    return ending


def bytes_of(script: str) -> bytes:
    with open(script, 'rb') as lines:
        return lines.read()


def drained(lines: list[str]) -> Iterator[str]:
    """Lines in their order, each of which is given up when it has been taken."""
    lines.reverse()
    while lines:
        yield lines.pop()


def errors_of(program: list[str], script: str, listed: Iterator[Error], asks: bool) -> Iterator[Error]:
    """The errors of a listing; where the program is asked, with the corners of their cells."""
    return with_closures(program, bytes_of(script), list(listed)) if asks else listed


def scene_of(program: list[str], script: str, names: Names = NO_NAMES, asks: bool = False) -> Scene:
    """What the script leaves behind; the program is asked for the corners of cells, too, where they are not to be computed."""
    own = listed_last(script)
    asked = [word for word in LISTED if word not in own]
    with replies_to(program, script, asked) as replies:
        ending = ending_after(script, replies, asked)
    features = list(map(drawn_of, drained(ending.listings['features'].lines)))
    listed = each_error(drained(ending.listings['cells'].lines))
    errors = [Marked(error, *cover_and_stops(error)) for error in errors_of(program, script, listed, asks)]
    dirt = [frame_of(line.split()[1:]) for line in ending.listings['dirty'].lines]
    return Scene(features, errors, dirt, ending, names)


def around(frames: list[Frame]) -> Frame:
    """The least rectangle that holds these, of which there is one at least."""
    x0, y0, x1, y1 = zip(*frames)
    return min(x0), min(y0), max(x1), max(y1)


def box_of(scene: Scene, of_features: Optional[list[Frame]] = None) -> Frame:
    """The least rectangle that holds the features and the errors, and the dirt that does not reach the border of the grid. The frames of the
    features may be known already, or one round them."""
    frames = [feature.frame for feature in scene.features] if of_features is None else list(of_features)
    frames += [marked.error.frame for marked in scene.errors] + [frame for frame in scene.dirt if -REACH < min(frame) and max(frame) < REACH]
    return around(frames) if frames else (-REACH, -REACH, REACH, REACH)


def meet(a: Frame, b: Frame) -> bool:
    return a[0] <= b[2] and b[0] <= a[2] and a[1] <= b[3] and b[1] <= a[3]
