"""Where the program has each file, and how much it has of each owner's: kept from look to look.

To find that out anew takes a second for a million files, and a look has less.
"""

from collections.abc import Iterator

from ..mirror.budget import Counts
from ..mirror.changes import Place
from ..mirror.nodes import Identity, Node, Tree
from ..mirror.state import Addition


class Index:
    """`places` has one place of each node, and `others` those of a file with several names."""

    def __init__(self) -> None:
        self.places: dict[int, Place] = {}
        self.others: dict[int, set[Place]] = {}
        self.counts = Counts()

    def renew(self, tree: Tree) -> None:
        """Takes over a whole tree."""
        self.places, self.others = {}, {}
        for parent, names in tree.entries.items():
            for name, child in names.items():
                self._add(child, (parent, name))
        self.counts = Counts.of(tree)

    def is_only(self, number: int, directory: int) -> bool:
        """Whether a node has one name, and that in this directory."""
        place = self.places.get(number)
        return place is not None and place[0] == directory and number not in self.others

    def places_of(self, number: int) -> Iterator[Place]:
        """Where a node is: each directory with the name."""
        if number in self.places:
            yield self.places[number]
            yield from self.others.get(number, ())

    # ---- after a look

    def takes_away(self, tree: Tree, addition: Addition) -> None:
        """What is about to be changed in a tree goes; its names count to the owners to come."""
        after = {node.number: node for node in addition.nodes}
        for number in {*addition.gone, *after}:
            node = tree.nodes.get(number)
            if node is None:
                continue
            if node.is_directory:
                self.counts.directories[node.rights.owner] -= 1
            if number in after:
                names = sum(1 for _ in self.places_of(number))
                self.counts.names[node.rights.owner] -= names
                self.counts.names[after[number].rights.owner] += names
        for directory, name in _changing(tree, addition):
            before = tree.entries.get(directory, {}).get(name)
            if before is not None:
                self._drop(before, (directory, name))
                self.counts.names[after.get(before, tree.nodes[before]).rights.owner] -= 1

    def adds(self, tree: Tree, addition: Addition) -> None:
        """What was changed in a tree comes."""
        for node in addition.nodes:
            if node.is_directory:
                self.counts.directories[node.rights.owner] += 1
        for directory, name, number in addition.names:
            if number:
                self.counts.names[tree.nodes[number].rights.owner] += 1
                self._add(number, (directory, name))

    def _add(self, number: int, place: Place) -> None:
        if number in self.places:
            self.others.setdefault(number, set()).add(place)
        else:
            self.places[number] = place

    def _drop(self, number: int, place: Place) -> None:
        others = self.others.get(number, set())
        if self.places[number] != place:
            others.remove(place)
        elif others:
            self.places[number] = others.pop()
        else:
            del self.places[number]
        if not others:
            self.others.pop(number, None)


def _changing(tree: Tree, addition: Addition) -> Iterator[Place]:
    """The names that change, and those in directories that go."""
    for directory, name, _ in addition.names:
        yield directory, name
    for directory in addition.gone:
        for name in tree.entries.get(directory, ()):
            yield directory, name


class Known:
    """The nodes of a tree by identity, by an index of their numbers."""

    def __init__(self, numbers: dict[Identity, int], tree: Tree) -> None:
        self.numbers = numbers
        self.nodes = tree.nodes

    def get(self, identity: Identity, /) -> Node | None:
        """The node of a file or directory; None where it isn't known."""
        number = self.numbers.get(identity)
        return None if number is None else self.nodes.get(number)
