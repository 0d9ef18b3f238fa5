"""What wasn't seen, and what is held, stays in the tree as it was known, and is shut.

It is shut at its top: a directory of mode 000 shows nobody what is below it.
"""

from collections.abc import Iterable
from dataclasses import dataclass, replace

from ..shared.script import DEPTH_MAX
from .nodes import Node, Tree

DEEPEST = DEPTH_MAX - 1  # a directory that moves passes through one at depth 2


@dataclass(frozen=True, slots=True)
class Top:
    """A name behind which a node is kept, with what is below it."""

    parent: int
    name: bytes
    number: int


def keep(old: Tree, tree: Tree, tops: Iterable[Top]) -> None:
    """Puts into a tree what the old one has behind each top.

    What the tree has elsewhere by now isn't put there again: a name can't be shut by itself. Below
    a directory that is shut a file may have it as a further name.
    """
    kept = list(tops)
    has_directory = any(old.nodes[top.number].is_directory for top in kept)
    depths = tree.depths() if has_directory else {}
    shut: set[int] = set()
    directories = []
    for top in kept:
        node = old.nodes[top.number]
        if top.number in tree.nodes and top.number not in shut:
            continue
        if node.is_directory and (top.number in shut or depths[top.parent] >= DEEPEST):
            continue
        closed = replace(node, rights=node.rights.shut(), changed=0)
        if _put(old, tree, top.parent, top.name, closed):
            shut.add(top.number)
            if node.is_directory:
                directories.append(top)
    for top in directories:
        _put_below(old, tree, top.number, depths[top.parent] + 1)


def _put(old: Tree, tree: Tree, parent: int, name: bytes, node: Node) -> bool:
    """Puts a name there, and its node where the tree hasn't got it: whether that could be."""
    names = tree.entries[parent]
    there = tree.nodes.get(node.number)
    is_other = there is not None and (node.is_directory or there.identity != node.identity)
    if name in names or is_other:
        return False
    if names is old.entries.get(parent):
        names = tree.entries[parent] = dict(names)
    names[name] = node.number
    if there is None:
        tree.nodes[node.number] = node
        if node.is_directory:
            tree.entries[node.number] = {}
    return True


def _put_below(old: Tree, tree: Tree, top: int, depth: int) -> None:
    """Puts what the old tree has below a directory; what would be too deep is left out."""
    waiting = [(top, depth)]
    while waiting:
        parent, depth = waiting.pop()
        for name, child in old.entries[parent].items():
            node = old.nodes[child]
            if node.is_directory and depth >= DEEPEST:
                continue
            if _put(old, tree, parent, name, node) and node.is_directory:
                waiting.append((child, depth + 1))
