"""What a walk saw: directories, and files that have to be looked at.

A file whose status is the known one is its node itself: there are very many of them.
"""

from collections.abc import Iterator
from dataclasses import dataclass, field

from .nodes import Identity, Node, Rights
from .reasons import Reason


@dataclass(slots=True, eq=False)
class SeenDirectory:
    """A directory that was seen there, at the end of the way that `above` begins.

    `changed` is a ctime at which it had these rights. `number` is 0 until it has one.
    `is_forgotten` is set where it turns out that it wasn't all this at one moment.
    """

    above: "SeenDirectory | None"
    name: bytes
    identity: Identity
    rights: Rights
    changed: int
    number: int
    entries: "dict[bytes, Entry]" = field(default_factory=dict)
    is_forgotten: bool = False

    def way(self) -> "list[SeenDirectory]":
        """The directories from `/` down to this one."""
        found = [self]
        while (above := found[-1].above) is not None:
            found.append(above)
        return found[::-1]

    def path(self) -> bytes:
        """Its path; empty for `/`, so that a name can follow a slash."""
        return b"".join(b"/" + one.name for one in self.way()[1:])


@dataclass(slots=True, eq=False)
class FreshFile:
    """A file that has to be looked at: a new one, or one whose status isn't the known one.

    `names` is how many of its names were seen. It is torn where two of them showed two statuses.
    It is young where its status is the known one, but was looked at too soon. `known` is the node
    of one that is as it is known, and is looked at only to tell its kind.
    """

    identity: Identity
    owner: int
    group: int
    changed: int
    size: int
    number: int
    is_young: bool = False
    names: int = 0
    is_torn: bool = False
    known: Node | None = None


@dataclass(frozen=True, slots=True)
class Kept:
    """A name behind which nothing was seen: the node that was known there is kept, and is shut."""

    number: int
    why: Reason


Entry = Node | FreshFile | SeenDirectory | Kept


def directories_of(top: SeenDirectory) -> Iterator[SeenDirectory]:
    """The directories from the top down, each before those in it."""
    waiting = [top]
    while waiting:
        directory = waiting.pop()
        yield directory
        for child in directory.entries.values():
            if isinstance(child, SeenDirectory):
                waiting.append(child)
