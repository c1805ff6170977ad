"""Sums over the replies to kept lines: a recovery gives the replies again, and its sums must be those that were kept."""
from __future__ import annotations

import hashlib
from typing import Iterable, Optional

from .records import Block

# So many lines have a sum together.
EACH = 1000


class Different(Exception):
    """The replies are not those that were given before."""


class Sums:
    """Takes the replies to the lines after line `start`, in their order; compares them with the sums that are known."""

    def __init__(self, start: int, known: Iterable[Block] = ()) -> None:
        self.known = {block.last: block for block in known if block.last > start}
        self.first = start + 1
        self.next = start + 1
        self.hash = self.new_hash()

    @staticmethod
    def new_hash() -> 'hashlib._Hash':
        return hashlib.blake2b(digest_size=16)

    def add(self, reply: bytes) -> Optional[Block]:
        """Takes the reply to the next line; the block that ends with it, where it is a new one. Raises Different."""
        self.hash.update(reply)
        number, self.next = self.next, self.next + 1
        if number in self.known:
            self.compare(self.known.pop(number), self.close())
        elif self.next - self.first == EACH and not self.known:
            return self.close()
        return None

    def compare(self, known: Block, found: Optional[Block]) -> None:
        if known != found:
            raise Different('the replies to lines %d to %d are not those that were given: the program or the journal is another one'
                            % (known.first, known.last))

    def close(self) -> Optional[Block]:
        """Ends the block with the last line that was taken; none where that ended one."""
        if self.next == self.first:
            return None
        block = Block(self.first, self.next - 1, self.hash.hexdigest())
        self.first, self.hash = self.next, self.new_hash()
        return block

    def is_as(self, other: 'Sums') -> bool:
        """Whether both have taken the same replies since the same line."""
        return (self.first, self.next, self.hash.digest()) == (other.first, other.next, other.hash.digest())
