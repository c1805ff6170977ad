"""The listing of errors as blocks of text, and what has changed from some errors to others."""
from __future__ import annotations

from typing import NamedTuple

from ..replies import Error, errors_of

Key = tuple[int, int, int]


class Block(NamedTuple):
    """An error as a listing has it: its rule, subject and partner, its mark, and the text of extent, frame and cells."""

    key: Key
    mark: str
    text: str

    def error(self) -> Error:
        """The error with its cells."""
        return errors_of(('%s %d %d %d %s' % (self.mark, *self.key, self.text)).split('\n'))[0]


class Difference(NamedTuple):
    """The errors that came or have other cells, those that went, and those of which the mark alone is another; in order of keys."""

    come: list[Block]
    gone: list[Block]
    marked: list[Block]


def block_of(text: str) -> Block:
    mark, rule, subject, other, rest = text.split(' ', 4)
    return Block((int(rule), int(subject), int(other)), mark, rest)


def blocks_of(listing: bytes) -> list[Block]:
    """All errors of a listing without its total: the first line of each begins with an e, and the line of a cell does not."""
    texts = listing.decode('ascii')[:-1].split('\ne') if listing else []
    return [block_of('e' * (number > 0) + text) for number, text in enumerate(texts)]


def difference_of(old: dict[Key, Block], new: dict[Key, Block]) -> Difference:
    """What has changed from some errors to others."""
    both = {key for key in new if key in old}
    same = {key for key in both if old[key].text == new[key].text}
    return Difference([new[key] for key in sorted(new) if key not in same], [old[key] for key in sorted(old) if key not in same],
                      [new[key] for key in sorted(same) if old[key].mark != new[key].mark])


def joined(first: Difference, then: Difference) -> Difference:
    """Two differences, one after the other, as one: what came and went again is left out."""
    went = {block.key for block in then.gone}
    come = {block.key for block in first.come}
    return Difference([block for block in first.come if block.key not in went] + then.come,
                      first.gone + [block for block in then.gone if block.key not in come],
                      [block for block in first.marked if block.key not in went] + then.marked)
