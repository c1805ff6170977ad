"""What kept lines and their replies tell: the open sessions, the versions beside `default`, and what was kept of each client last."""
from __future__ import annotations

import time

from .rights import fields
from .store import Last


class Ledger:
    """Stands after a line; takes the kept lines that follow, each with its reply."""

    def __init__(self, line: int, names: dict[str, Last]) -> None:
        self.line = line
        self.names = dict(names)
        self.sessions: dict[bytes, float] = {}
        self.drafts: list[bytes] = []

    def take(self, name: str, line: bytes, reply: bytes) -> None:
        """Takes the next kept line, of the client of this name."""
        self.line += 1
        said = reply.rstrip(b'\n').rpartition(b'\n')[2]
        count = self.names[name].lines if name in self.names else 0
        self.names[name] = Last(count + 1, self.line, said.decode('utf-8', 'replace'))
        words = fields(line, 2)
        if len(words) < 2:
            return
        if words[0] == b'begin' and said == b'ok' or words[0] == b'by' and words[1] in self.sessions:
            self.sessions[words[1]] = time.monotonic()
        elif words[0] in (b'end', b'discard') and said == b'ok':
            self.sessions.pop(words[1], None)
        elif words[0] == b'version' and said == b'ok':
            self.drafts.append(words[1])

    def is_quiet(self) -> bool:
        """Whether no session is open and no version stands beside `default`: a saved project would keep neither."""
        return not self.sessions and not self.drafts

    def idle_since(self, moment: float) -> list[bytes]:
        """The editors whose sessions are open and had no line since then."""
        return [editor for editor, last in self.sessions.items() if last < moment]
