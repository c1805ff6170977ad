"""The places of the grid on segments, and of points, that are nearest to a place: exactly, and without looking at all of them."""
from __future__ import annotations

from math import gcd, isqrt
from typing import Container, Iterable, Iterator, NamedTuple, Optional

from .grid import Place

Square = tuple[int, int]
# A segment that meets more squares is looked at each time.
MOST_SQUARES = 256


class Spot(NamedTuple):
    """A place, by the square of its distance, and the feature that has it."""

    square: int
    place: Place
    handle: int


class Stretch(NamedTuple):
    """A segment of a feature; a point where both ends are one place."""

    first: Place
    last: Place
    handle: int


def nearest_on(stretch: Stretch, p: Place) -> Place:
    """The place of the grid on a segment that is nearest to p; of two at one distance that nearer to its last end."""
    (ax, ay), (bx, by) = stretch.first, stretch.last
    steps = gcd(bx - ax, by - ay)
    if steps == 0:
        return ax, ay
    dx, dy = (bx - ax) // steps, (by - ay) // steps
    along, whole = (p[0] - ax) * dx + (p[1] - ay) * dy, dx * dx + dy * dy
    at = min(max((2 * along + whole) // (2 * whole), 0), steps)
    return ax + at * dx, ay + at * dy


def squared(p: Place, q: Place) -> int:
    return (p[0] - q[0]) ** 2 + (p[1] - q[1]) ** 2


class Nearest:
    """Answers which places on some segments are nearest."""

    def __init__(self, stretches: Iterable[Stretch]):
        self.all = list(stretches)
        self.side = self.side_of()
        self.squares: dict[Square, list[Stretch]] = {}
        self.large: list[Stretch] = []
        for stretch in self.all:
            self.put(stretch)
        xs, ys = [x for x, _ in self.squares] or [0], [y for _, y in self.squares] or [0]
        self.bounds = min(xs), min(ys), max(xs), max(ys)

    def side_of(self) -> int:
        """The side of a square, so that there are about as many as segments."""
        if not self.all:
            return 1
        xs = [x for stretch in self.all for x, _ in stretch[:2]]
        ys = [y for stretch in self.all for _, y in stretch[:2]]
        return max(1, isqrt((max(xs) - min(xs) + 1) * (max(ys) - min(ys) + 1) // len(self.all)))

    def put(self, stretch: Stretch) -> None:
        (x0, x1), (y0, y1) = (sorted((a // self.side, b // self.side)) for a, b in zip(*stretch[:2]))
        if (x1 - x0 + 1) * (y1 - y0 + 1) > MOST_SQUARES:
            self.large.append(stretch)
            return
        for x in range(x0, x1 + 1):
            for y in range(y0, y1 + 1):
                self.squares.setdefault((x, y), []).append(stretch)

    def ring(self, middle: Square, radius: int) -> Iterator[Stretch]:
        """What stands in the squares at this distance from one."""
        x, y = middle
        if radius == 0:
            yield from self.squares.get(middle, ())
        for step in range(-radius, radius) if radius else ():
            for square in ((x + step, y - radius), (x + radius, y + step), (x - step, y + radius), (x - radius, y - step)):
                yield from self.squares.get(square, ())

    def to(self, p: Place, but: int = 0, is_other: bool = False, taken: Container[Place] = ()) -> Optional[Spot]:
        """The nearest place of another feature than `but`, which is not taken, and where `is_other` is said not p itself; none where there is none
        at all."""
        middle = p[0] // self.side, p[1] // self.side
        x0, y0, x1, y1 = self.bounds
        furthest = max(abs(x0 - middle[0]), abs(y0 - middle[1]), abs(x1 - middle[0]), abs(y1 - middle[1]))
        best = self.best(None, self.large, p, but, is_other, taken)
        # What stands in a ring is at least so far away, in sides: its radius and one less.
        for radius in range(max(x0 - middle[0], middle[0] - x1, y0 - middle[1], middle[1] - y1, 0), furthest + 1):
            if best and best.square < ((radius - 1) * self.side) ** 2 and radius > 0:
                break
            best = self.best(best, self.ring(middle, radius), p, but, is_other, taken)
        return best

    def best(self, best: Optional[Spot], stretches: Iterable[Stretch], p: Place, but: int, is_other: bool, taken: Container[Place]) -> Optional[Spot]:
        for stretch in stretches:
            if stretch.handle == but:
                continue
            place = nearest_on(stretch, p)
            spot = Spot(squared(place, p), place, stretch.handle)
            if (spot.square or not is_other) and (best is None or spot < best) and place not in taken:
                best = spot
        return best
