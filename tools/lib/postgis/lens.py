"""The errors near a place: of the features there, by a second run of topo that has only these and what they meet.

What a rule says of a feature depends on the features whose envelopes meet its own, and on nothing else; tools/tiles rests on the same.
So this run lists of these features the same errors with the same cells as the whole does, and its listing is short.
"""
from __future__ import annotations

from .blocks import Block, blocks_of
from .mirror import Feature
from .run import Run

# A new run begins before this one has taken as many lines as it may.
MOST_BYTES = 200 << 20


class Lens:
    """A run that is given some features, and forgets them."""

    def __init__(self, program: list[str], head: list[str]) -> None:
        self.program, self.head = program, head
        self.run = self.begun()

    def begun(self) -> Run:
        run = Run(self.program)
        run.ask(self.head)
        return run

    def look(self, features: dict[int, Feature]) -> tuple[list[Block], dict[int, str]]:
        """The errors of features, by their handles, and the replies to those that are refused. Right is what it lists of features of which
        all that they meet is there."""
        if self.run.sent > MOST_BYTES:
            self.run.close()
            self.run = self.begun()
        handles = sorted(features)
        adds = ['by lens add %s %s' % features[handle][:2] for handle in handles]
        replies = self.run.ask(['begin lens', *adds, 'validate all'])[1:-1]
        raw = self.run.listing('cells')
        self.run.ask(['discard lens'])
        refused = {handle: reply for handle, reply in zip(handles, replies) if not reply.startswith('ok')}
        known = {int(reply.split()[1]): handle for handle, reply in zip(handles, replies) if reply.startswith('ok')}
        known[0] = 0
        return [block._replace(key=(block.key[0], known[block.key[1]], known[block.key[2]])) for block in blocks_of(raw)], refused

    def close(self) -> None:
        self.run.close()
