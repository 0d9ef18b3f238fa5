"""A narrow turn: some paths are walked, with what is below them, and all else stays as it is known.

It shows nobody what a walk over all, at the same time, wouldn't show. So it is given up for one

- where a directory on the way isn't the known one, or gives somebody more than before: what is
  known beside the paths may be older than that;
- where a file or directory below the paths is known elsewhere too, or was, and isn't as it was
  known: all places of a file are seen in one walk, and a directory has one place.
"""

from collections.abc import Container
from dataclasses import dataclass

from .limits import NotNarrow, RootPlace, names_of
from .nodes import ROOT, Node, Tree, meet
from .remarks import Remarks
from .seen import Entry, SeenDirectory
from .state import State
from .target import Target
from .walk import Walk


@dataclass(slots=True)
class Part:
    """What is walked: the way to it, and the names that are walked of each directory on the way.

    `inside` has the numbers of the known nodes at or below these names, `outside` those of the
    known nodes that have a name elsewhere.
    """

    place: RootPlace
    names: dict[int, set[bytes]]
    inside: set[int]
    outside: set[int]


def part_of(paths: tuple[bytes, ...], roots: tuple[bytes, ...], tree: Tree) -> Part:
    """The part of a tree at and below some paths, each of which has to be below a root.

    A path is taken from its first name on that isn't known as a directory's, or its last. Raises
    `NotNarrow`.
    """
    ways = sorted({names_of(root) for root in roots})
    if any(one == other[: len(one)] for one, other in zip(ways, ways[1:])):
        raise NotNarrow  # a root below another one
    top = RootPlace(only=set(), is_inner=() in ways)
    for path in paths:
        _lead(top, names_of(path), ways, tree)
    names: dict[int, set[bytes]] = {}
    waiting = [(top, ROOT)]
    while waiting:
        place, number = waiting.pop()
        names[number] = place.only or set()
        waiting += [(below, tree.entries[number][name]) for name, below in place.below.items()]
    return Part(top, names, *_sides(tree, names))


def _lead(
    top: RootPlace, names: tuple[bytes, ...], roots: list[tuple[bytes, ...]], tree: Tree
) -> None:
    """Makes the way to one path. Raises `NotNarrow` where it isn't below a root."""
    place, number = top, ROOT
    for depth, name in enumerate(names, 1):
        only = place.only or set()
        if name in only:
            return
        child = tree.entries[number].get(name, 0)
        if depth == len(names) or child not in tree.entries:
            if not place.is_inner:
                raise NotNarrow
            place.is_root, place.only = True, only | {name}
            place.below.pop(name, None)
            return
        is_inner = any(root == names[: len(root)] and len(root) <= depth for root in roots)
        place = place.below.setdefault(name, RootPlace(only=set(), is_inner=is_inner))
        number = child
    raise NotNarrow


def _sides(tree: Tree, names: dict[int, set[bytes]]) -> tuple[set[int], set[int]]:
    """The numbers of the nodes inside and outside; a file may be both."""
    inside: set[int] = set()
    directories: set[int] = set()
    waiting: list[int] = []
    for number, walked in names.items():
        known = tree.entries[number]
        waiting += [known[name] for name in walked if name in known]
    while waiting:
        number = waiting.pop()
        inside.add(number)
        if number in tree.entries:
            directories.add(number)
            waiting += tree.entries[number].values()
    outside: set[int] = set()
    for number, entries in tree.entries.items():
        if number in names:
            outside.update(child for name, child in entries.items() if name not in names[number])
        elif number not in directories:
            outside.update(entries.values())
    return inside, outside


def check(part: Part, top: SeenDirectory, old: Tree) -> None:
    """Raises `NotNarrow` where what was seen can't be joined with what is known.

    Each directory on the way has to be the known one, and may give nobody more than before.
    """
    waiting = [(part.place, top)]
    while waiting:
        place, directory = waiting.pop()
        before = old.nodes[directory.number].rights
        if meet(before, directory.rights) != directory.rights:
            raise NotNarrow
        for name, below in place.below.items():
            child = directory.entries.get(name)
            known = old.entries[directory.number].get(name)
            if not isinstance(child, SeenDirectory) or child.number != known:
                raise NotNarrow
            waiting.append((below, child))
        for name, entry in directory.entries.items():
            if name not in place.below and not isinstance(entry, Node):
                _check_inside(part, entry)


def _check_inside(part: Part, entry: Entry) -> None:
    """What isn't as it was known may have been known inside alone."""
    waiting: list[Entry] = [entry]
    while waiting:
        one = waiting.pop()
        if isinstance(one, Node):
            continue
        if one.number in part.outside:
            raise NotNarrow
        if isinstance(one, SeenDirectory):
            waiting += one.entries.values()


class NarrowTarget(Target):
    """The tree with what was seen in place of what is known there. Raises `NotNarrow`."""

    def __init__(
        self,
        state: State,
        walk: Walk,
        top: SeenDirectory,
        remarks: Remarks,
        waiting: Container[int],
        part: Part,
    ) -> None:
        check(part, top, state.tree)
        super().__init__(state, walk, top, remarks, waiting, {ROOT} | part.outside)
        self._join(part)

    def _join(self, part: Part) -> None:
        """Puts what was seen into the known tree."""
        old, seen = self.state.tree, self.tree
        nodes, entries = dict(old.nodes), dict(old.entries)
        for number in part.inside - part.outside:
            del nodes[number]
            entries.pop(number, None)
        nodes.update(seen.nodes)
        entries.update(seen.entries)
        for number, walked in part.names.items():
            before = old.entries[number]
            names = {name: child for name, child in before.items() if name not in walked}
            names.update(seen.entries[number])
            entries[number] = before if before == names else names
        self.tree = Tree(nodes, entries)
