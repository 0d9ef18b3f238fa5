"""Files that were found at the names of others, which concern the nodes that are known there."""

from ..mirror.nodes import Identity, Tree

Name = tuple[int, bytes]  # a directory's number, and a name in it


class Replaced:
    """Of each known name at which another file was found the last one.

    It is known until a tree says otherwise: a walk may have seen what was there before, and a
    narrow one sees a part. There are never more than there are names in the tree.
    """

    def __init__(self) -> None:
        self.at: dict[Name, Identity] = {}
        self.names: dict[Identity, set[Name]] = {}

    def put(self, name: Name, identity: Identity) -> None:
        """A file was found at a name of the tree, which another one has there."""
        self._drop(name)
        self.at[name] = identity
        self.names.setdefault(identity, set()).add(name)

    def nodes_of(self, identity: Identity, tree: Tree) -> set[int]:
        """The nodes that a tree has at the names at which a file was found."""
        names = self.names.get(identity, ())
        found = (tree.entries.get(directory, {}).get(name) for directory, name in names)
        return {number for number in found if number is not None}

    def renew(self, tree: Tree) -> None:
        """Forgets the names that a tree lacks, or that lead to the same file in it."""
        for name, identity in list(self.at.items()):
            number = tree.entries.get(name[0], {}).get(name[1])
            if number is None or tree.nodes[number].identity == identity:
                self._drop(name)

    def _drop(self, name: Name) -> None:
        identity = self.at.pop(name, None)
        if identity is not None:
            names = self.names[identity]
            names.remove(name)
            if not names:
                del self.names[identity]
