"""Files and directories as the program has them: rights, nodes, and the tree of their names."""

import os
from collections.abc import Iterator
from dataclasses import dataclass, field
from typing import NamedTuple

ROOT = 1
CLOSED = 2  # the mirror's own directory, mode 000: what moves goes through it
MARK = 3  # the directory in it whose name tells which batch was the last
FIRST = 4  # the least number of a node that stands for a real one

Identity = int  # of a device and an inode: one small object, where very many are kept


def identity_of(status: os.stat_result) -> Identity:
    """Tells the node of this status from any other one that is there at the same time."""
    return status.st_dev << 64 | status.st_ino


def identity_at(device: int, inode: int) -> Identity:
    """The identity of this inode of this device; an inode's number has at most 64 bits."""
    return device << 64 | inode


def device_of(identity: Identity) -> int:
    """The device."""
    return identity >> 64


def inode_of(identity: Identity) -> int:
    """The inode's number."""
    return identity & (1 << 64) - 1


class Rights(NamedTuple):
    """Who may use a node: mode, owner, group, and the access list as the line `acl` has it."""

    mode: int
    owner: int
    group: int
    entries: bytes = b""

    def shut(self) -> "Rights":
        """The same owner and group, and nobody but user 0 may use the node."""
        return Rights(0, self.owner, self.group)


class Origin(NamedTuple):
    """What a document's text is made from, and by what.

    `source` is a digest of the document's bytes. `by` is the fingerprint of the filter that made
    the text, or that found that it has none; it is empty as long as nothing was made. `length` is
    that of the text, in bytes.
    """

    kind: str
    source: bytes
    by: str = ""
    length: int = 0

    def is_same(self, other: "Origin | None") -> bool:
        """Whether the other is the same document: the same bytes, of the same kind."""
        return other is not None and self[:2] == other[:2]


@dataclass(slots=True)
class Node:
    """A node as the program has it, and the status of the real one that it was made from.

    `digest` is that of the text that the program has, empty for the empty text. `changed` is the
    real node's ctime in nanoseconds: 0 where it has to be looked at again, and negative where it
    was looked at so soon after that moment that its text may change under the same ctime. `origin`
    is that of a document; other files are their text themselves, or have none.
    """

    number: int
    is_directory: bool
    rights: Rights
    digest: bytes
    identity: Identity
    changed: int
    size: int
    origin: Origin | None = None

    @property
    def kind(self) -> str:
        """As which kind of document it is known; empty where it is none."""
        return self.origin.kind if self.origin is not None else ""

    @property
    def text_bytes(self) -> int:
        """How many bytes of text the program has of it."""
        if not self.digest:
            return 0
        return self.origin.length if self.origin is not None else self.size


@dataclass(slots=True)
class Tree:
    """Nodes by their numbers, and the names in each directory. Only `ROOT` has no name."""

    nodes: dict[int, Node] = field(default_factory=dict)
    entries: dict[int, dict[bytes, int]] = field(default_factory=dict)

    def links(self) -> Iterator[tuple[int, bytes, int]]:
        """Each name: its directory, the name, and what it names."""
        for parent, names in self.entries.items():
            for name, child in names.items():
                yield parent, name, child

    def depths(self) -> dict[int, int]:
        """The depth of each directory that is reached from the root, whose own is 1."""
        depths = {ROOT: 1}
        waiting = [ROOT]
        while waiting:
            parent = waiting.pop()
            for child in self.entries.get(parent, {}).values():
                if child in self.entries:
                    depths[child] = depths[parent] + 1
                    waiting.append(child)
        return depths


def unmade(tree: Tree) -> int:
    """How many documents there are of which no text was made yet."""
    origins = (node.origin for node in tree.nodes.values())
    return sum(1 for origin in origins if origin is not None and not origin.by)


def first_tree() -> Tree:
    """The tree of a program to which nothing was told: the root, and nothing in it."""
    root = Node(ROOT, True, Rights(0o755, 0, 0), b"", 0, 0, 0)
    return Tree({ROOT: root}, {ROOT: {}})


def meet(old: Rights, new: Rights) -> Rights:
    """Rights that give nobody more than either: those that both give where classes are equal."""
    if old[1:] == new[1:]:
        return Rights(old.mode & new.mode, new.owner, new.group, new.entries)
    return new.shut()
