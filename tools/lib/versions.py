"""Versions of a project, as far as lines and replies tell of them: their names, what was disputed last, and the subtypes of features in each."""
from __future__ import annotations

from dataclasses import dataclass, field
from typing import Optional

from .forms import conflicts_in

DEFAULT = 'default'


@dataclass
class Version:
    """A version: the subtypes of its features where they are not 0, which features its own lines named since it was equal to `default`, and
    which were disputed last: the conflicts of its last reconcile, or of `default` the feature for which a post was refused."""

    subtypes: dict[int, int] = field(default_factory=dict)
    edited: set[int] = field(default_factory=set)
    disputed: list[int] = field(default_factory=list)


class Versions:
    """All versions by their names, and which is the current one."""

    def __init__(self) -> None:
        self.current = DEFAULT
        self.by_name = {DEFAULT: Version()}

    @property
    def now(self) -> Version:
        return self.by_name[self.current]

    def named(self, name: str) -> Version:
        """The version of a name; a new one where the script began with more than it tells."""
        return self.by_name.setdefault(name, Version())

    def edit(self, handle: int, subtype: Optional[int] = None) -> None:
        """Takes an edit of a feature in the current version, which may give it a subtype."""
        if self.current != DEFAULT:
            self.now.edited.add(handle)
        if subtype:
            self.now.subtypes[handle] = subtype
        elif subtype == 0:
            self.now.subtypes.pop(handle, None)

    def create(self, name: str) -> None:
        self.by_name[name] = Version(dict(self.by_name[DEFAULT].subtypes))

    def go(self, name: str) -> bool:
        """Makes this version the current one; whether another one was."""
        is_other = name != self.current
        self.named(name)
        self.current = name
        return is_other

    def reconcile(self, name: str, reply: list[str]) -> bool:
        """Takes over what `default` has where this version has no edit of its own; whether the current version has changed."""
        version, root = self.named(name), self.by_name[DEFAULT].subtypes
        version.disputed, self.by_name[DEFAULT].disputed = conflicts_in(reply), []
        edited = version.edited.union(version.disputed)
        own = {handle: subtype for handle, subtype in version.subtypes.items() if handle in edited}
        version.subtypes = {**{handle: subtype for handle, subtype in root.items() if handle not in edited}, **own}
        return name == self.current and count_in(reply, 'taken') > 0

    def post(self, name: str, reply: list[str]) -> bool:
        """Gives `default` what this version has; whether the current version has changed."""
        version, root = self.named(name), self.by_name[DEFAULT]
        root.subtypes = dict(version.subtypes)
        root.disputed, version.disputed = [], []
        version.edited.clear()
        return self.current == DEFAULT and count_in(reply, 'posted') > 0

    def refused(self, words: list[str], reply: list[str]) -> None:
        """Takes a line that was refused: a post tells of a feature that `default` has otherwise."""
        if words[:1] == ['post'] and reply[-1].startswith('refused E31 '):
            self.by_name[DEFAULT].disputed = [int(reply[-1].split()[2])]


def count_in(reply: list[str], word: str) -> int:
    """The number behind a word of the last line of a reply."""
    words = reply[-1].split()
    return int(words[words.index(word) + 1])


def of_version(name: str) -> str:
    """What a tool says of a version behind the name of something; nothing of `default`, which all are of where there is no other."""
    return '' if name == DEFAULT else ' of the version `%s`' % name
