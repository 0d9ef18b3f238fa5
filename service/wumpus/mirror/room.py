"""Room for texts: on the disk of the store, and of what each owner may have the program keep."""

from collections import Counter
from collections.abc import Callable
from pathlib import Path

from ..shared.store import room_left
from .budget import Budget
from .nodes import Node, Tree

STORED = 3  # bytes that a byte of text may take for a while, with its index


class Room:
    """What room there is. `stored` has the bytes of texts that the program keeps, by person."""

    def __init__(
        self, folder: Path, budget: Budget, tree: Tree, person_of: Callable[[int], int]
    ) -> None:
        self.folder = folder
        self.budget = budget
        self.person_of = person_of
        self.stored: Counter[int] = Counter()
        for node in tree.nodes.values():
            if node.digest:
                self.stored[person_of(node.rights.owner)] += node.text_bytes

    def is_exceeded(self, before: Node, owner: int, size: int) -> bool:
        """Whether a text of this size, in place of the one before, is more than she may have."""
        if owner == 0:
            return False
        person = self.person_of(owner)
        own = before.text_bytes if self.person_of(before.rights.owner) == person else 0
        return self.stored[person] - own + size > self.budget.text_bytes

    def is_short(self, size: int) -> bool:
        """Whether the disk lacks room for so many bytes of text.

        What it is left with is for names and rights, which have to go on.
        """
        return room_left(self.folder) <= STORED * size

    def count(self, before: Node, after: Node) -> None:
        """Counts a text that takes the place of another one."""
        for node, sign in ((before, -1), (after, 1)):
            if node.digest:
                self.stored[self.person_of(node.rights.owner)] += sign * node.text_bytes
