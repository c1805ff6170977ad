"""What topo has, by handles: each feature's class, its shape as a line has it, and its envelope; and which envelopes meet a place."""
from __future__ import annotations

import re
from typing import Iterable, NamedTuple, Optional

from ..replies import Frame, meet

NUMBER = re.compile(r'-?\d+')
# An envelope that meets more squares stands apart.
MOST_SQUARES = 256


class Feature(NamedTuple):
    of_class: str
    text: str
    envelope: Frame


def envelope_of(text: str) -> Frame:
    """The least rectangle that holds a shape, by its text in grid units; of a text without places the place (0, 0)."""
    numbers = list(map(int, NUMBER.findall(text))) or [0, 0]
    xs, ys = numbers[::2], numbers[1::2]
    return min(xs), min(ys), max(xs), max(ys)


class Mirror:
    """The features by handles, and by squares of the plane that their envelopes meet."""

    def __init__(self) -> None:
        self.features: dict[int, Feature] = {}
        self.size = 0
        self.squares: dict[tuple[int, int], set[int]] = {}
        self.wide: set[int] = set()

    def settle(self) -> None:
        """Chooses the size of the squares by what is there, and sorts the features into them."""
        envelopes = [feature.envelope for feature in self.features.values()]
        extents = sum(x1 - x0 + y1 - y0 for x0, y0, x1, y1 in envelopes)
        self.size = max(1, extents // max(1, len(envelopes)))
        for handle in self.features:
            self.sort_in(handle)

    def met_squares(self, envelope: Frame) -> Optional[list[tuple[int, int]]]:
        """The squares that an envelope meets; none where they are too many."""
        x0, y0, x1, y1 = (number // self.size for number in envelope)
        if (x1 - x0 + 1) * (y1 - y0 + 1) > MOST_SQUARES:
            return None
        return [(x, y) for x in range(x0, x1 + 1) for y in range(y0, y1 + 1)]

    def sort_in(self, handle: int) -> None:
        squares = self.met_squares(self.features[handle].envelope)
        if squares is None:
            self.wide.add(handle)
        for square in squares or ():
            self.squares.setdefault(square, set()).add(handle)

    def put(self, handle: int, of_class: str, text: str) -> None:
        """A feature has this shape now."""
        if handle in self.features:
            self.drop(handle)
        self.features[handle] = Feature(of_class, text, envelope_of(text))
        if self.size:
            self.sort_in(handle)

    def drop(self, handle: int) -> None:
        """A feature is gone."""
        envelope = self.features.pop(handle).envelope
        self.wide.discard(handle)
        for square in (self.met_squares(envelope) if self.size else None) or ():
            self.squares[square].discard(handle)

    def meeting(self, frames: Iterable[Frame]) -> set[int]:
        """The features whose envelopes meet one of the frames."""
        found: set[int] = set()
        for frame in frames:
            squares = self.met_squares(frame)
            near = self.features if squares is None else self.wide.union(*(self.squares.get(square, ()) for square in squares))
            found.update(handle for handle in near if meet(self.features[handle].envelope, frame))
        return found
