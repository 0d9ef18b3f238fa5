"""The way to a file as the program was told of it, by the mirror's state."""

from collections.abc import Iterator
from dataclasses import dataclass
from pathlib import Path

from ..mirror.nodes import ROOT, Node, Tree
from ..mirror.state import NAME, BadState, apply, read_state
from .rights import READ, SEARCH, grant
from .users import User


def read_tree(folder: Path) -> Tree:
    """The tree that the program has. Raises `BadState`, and `OSError`."""
    found = read_state(folder / NAME)
    if found is None:
        raise BadState(f"{folder / NAME}: there is none, so no mirror has fed anything")
    state, additions = found
    for addition in additions:
        apply(state, addition)
    return state.tree


@dataclass(frozen=True)
class Known:
    """A name that the program has, and its node."""

    path: bytes
    node: Node


def nodes_to(tree: Tree, path: bytes) -> list[Known]:
    """The nodes from the root to a path, as far as the program knows them."""
    found = [Known(b"/", tree.nodes[ROOT])]
    here = b""
    for name in path.split(b"/"):
        if not name:
            continue
        here += b"/" + name
        number = tree.entries.get(found[-1].node.number, {}).get(name)
        if number is None:
            break
        found.append(Known(here, tree.nodes[number]))
    return found


def is_open(way: list[Known], user: User) -> bool:
    """Whether a user may pass all directories of a way, and read the file at its end."""
    *directories, last = way
    return all(grant(one.node.rights, user).gives(SEARCH) for one in directories) and grant(
        last.node.rights, user
    ).gives(READ)


def paths_of(tree: Tree, number: int) -> Iterator[bytes]:
    """All paths of a file."""
    above = {
        child: (parent, name)
        for parent, name, child in tree.links()
        if tree.nodes[child].is_directory
    }
    for parent, name, child in tree.links():
        if child == number:
            path = name
            while parent != ROOT:
                parent, name = above[parent]
                path = name + b"/" + path
            yield b"/" + path
