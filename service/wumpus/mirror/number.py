"""Numbers for what a walk found: small ones of the mirror's own, never an inode's.

A node keeps its number while the same device and inode of the same kind is found. One that is
found at the place of a node that is gone takes that node's number, so that a file which an editor
writes anew and renames is a change of text, and devices may be numbered anew.
"""

from ..shared.script import NUMBER_MAX
from .nodes import FIRST, Identity, Node, Tree
from .seen import Entry, FreshFile, Kept, SeenDirectory, directories_of


class Numbers:
    """The numbers that are in use, and the next one to try.

    They are drawn upwards and begin again at their end, so one that was drawn doesn't come again
    before four billion others.
    """

    def __init__(self, used: dict[int, Node], following: int) -> None:
        self.used = used
        self.following = following

    def draw(self) -> int:
        """A number that isn't in use."""
        while self.following in self.used or not FIRST <= self.following <= NUMBER_MAX:
            self.following = FIRST if self.following >= NUMBER_MAX else self.following + 1
        self.following += 1
        return self.following - 1


def give_numbers(
    top: SeenDirectory,
    found: dict[Identity, Entry],
    old: Tree,
    following: int,
    taken: set[int],
) -> int:
    """Sets the numbers, and the counts of names, of all that is reached from the top of a walk.

    The nodes of those that are `taken` stay what they are. Gives the number to be tried first the
    next time.
    """
    numbers = Numbers(old.nodes, following)
    for directory in directories_of(top):
        places = old.entries.get(directory.number, {})
        for name, child in directory.entries.items():
            if isinstance(child, Node | Kept):
                continue
            if isinstance(child, FreshFile):
                child.names += 1
            if child.number == 0:
                before = _of_place(found, old, places.get(name), child, taken)
                child.number = before or numbers.draw()
    return numbers.following


def _of_place(
    found: dict[Identity, Entry],
    old: Tree,
    before: int | None,
    child: FreshFile | SeenDirectory,
    taken: set[int],
) -> int:
    """The number of the node that was at the place before; 0 where it isn't free, or no like."""
    if before is None or before in taken:
        return 0
    node = old.nodes[before]
    if node.is_directory != isinstance(child, SeenDirectory) or _is_found(found, node):
        return 0
    taken.add(before)
    return before


def _is_found(found: dict[Identity, Entry], node: Node) -> bool:
    """Whether the node is found again, somewhere."""
    seen = found.get(node.identity)
    return seen is not None and seen.number == node.number
