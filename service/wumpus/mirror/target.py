"""The tree that the program is to have after a walk: names and rights, and no text.

What has to be looked at is shut in it, and so is what wasn't seen.
"""

from collections import Counter
from collections.abc import Callable, Container
from dataclasses import replace

from .batch import CLOSED_NAME
from .due import Due
from .keep import Top, keep
from .nodes import ROOT, Node, Rights, Tree, meet
from .number import give_numbers
from .pending import Place
from .reasons import Reason
from .remarks import Remarks
from .seen import FreshFile, Kept, SeenDirectory, directories_of
from .state import State
from .walk import Walk

FEW = 1000  # nodes of which more than half may go without being held


class Target:
    """The tree, the files that have to be looked at, the documents of which text is to be made.

    `is_due` tells of a document that stayed as it was whether its text is to be made.
    """

    def __init__(
        self,
        state: State,
        walk: Walk,
        top: SeenDirectory,
        remarks: Remarks,
        waiting: Container[int],
        taken: set[int] | None = None,
        is_due: Callable[[Node], bool] = lambda _: False,
    ) -> None:
        self.is_due = is_due
        self.due: list[Due] = []
        self.state = state
        self.waiting = waiting  # the numbers of files that waited for a look before this walk
        self.wider: set[SeenDirectory] = set()  # directories that show what they didn't before
        self.remarks = remarks
        self.tree = Tree()
        self.places: list[Place] = []
        self.files = 0
        self.names = walk.seen
        if top.entries.pop(CLOSED_NAME, None) is not None:
            remarks.leave_out(b"/" + CLOSED_NAME, "the mirror's own name, it is left out")
        self.following = give_numbers(
            top, walk.found, state.tree, state.following, taken or {ROOT}
        )
        tops: list[Top] = []
        for directory in directories_of(top):
            self._put(directory, tops)
        keep(state.tree, self.tree, tops)

    def _put(self, directory: SeenDirectory, tops: list[Top]) -> None:
        """Puts a directory into the tree, with its files."""
        number = directory.number
        self.tree.nodes[number] = self._directory(directory)
        if self._is_wider(directory):
            self.wider.add(directory)
        names = {}
        for name, child in directory.entries.items():
            if isinstance(child, Kept):
                tops.append(Top(number, name, child.number))
                continue
            names[name] = child.number
            if isinstance(child, Node):
                if child.number not in self.tree.nodes:
                    self.files += 1
                    self.tree.nodes[child.number] = child
                    if child.origin is not None and self.is_due(child):
                        self.due.append(Due(directory, name, child.number))
            elif isinstance(child, FreshFile):
                self._put_fresh(directory, name, child)
        before = self.state.tree.entries.get(number)
        self.tree.entries[number] = before if before == names else names

    def _put_fresh(self, directory: SeenDirectory, name: bytes, file: FreshFile) -> None:
        """Puts a file that has to be looked at into the tree, once: shut, until it is."""
        old = self.state.tree.nodes.get(file.number)
        before = self.tree.nodes.get(file.number)
        if before is not None and (before is not old or file.known is not None):
            return
        self.files += before is None
        self.tree.nodes[file.number] = self._file(directory, name, file, old)
        if file.is_torn:
            self.remarks.shut(Reason.TORN, file.owner, directory, name)
        else:
            self.places.append(Place(directory, name, file))

    def _file(
        self, directory: SeenDirectory, name: bytes, file: FreshFile, old: Node | None
    ) -> Node:
        """The node of a file that has to be looked at: shut, but for what is as it was.

        What is young keeps text and rights until it is looked at, or the next walk comes, where
        nobody is shown more than before by the way to it. What is looked at for its kind is known.
        """
        if old is None:
            rights = Rights(0, file.owner, file.group)
            return Node(file.number, False, rights, b"", file.identity, 0, 0)
        if file.known is old and not file.is_torn:
            return old
        is_there = self.state.tree.entries.get(directory.number, {}).get(name) == file.number
        is_same = file.is_young and not file.is_torn and file.names == 1 and is_there
        if is_same and directory not in self.wider and file.number not in self.waiting:
            return old
        return replace(old, rights=old.rights.shut(), identity=file.identity, changed=0)

    def _is_wider(self, directory: SeenDirectory) -> bool:
        """Whether a directory, or one above it, moved, or gives somebody more than before."""
        old, new = self.state.tree, self.tree.nodes[directory.number]
        before, above = old.nodes.get(directory.number), directory.above
        if before is None or meet(before.rights, new.rights) != new.rights:
            return True
        if above is None:
            return False
        names = old.entries.get(above.number, {})
        return above in self.wider or names.get(directory.name) != directory.number

    def _directory(self, directory: SeenDirectory) -> Node:
        """A directory's node: shut where it has a list that the program doesn't know."""
        rights, changed = directory.rights, directory.changed
        if rights.entries and not self.state.lists:
            self.remarks.shut(Reason.LIST, rights.owner, directory.above, directory.name)
            rights, changed = rights.shut(), 0
        old = self.state.tree.nodes.get(directory.number)
        node = Node(directory.number, True, rights, b"", directory.identity, changed, 0)
        return old if old is not None and old == node else node

    def hold(self) -> int:
        """Keeps all that would go, where that is too much to be meant: how many nodes, or 0.

        What one person has is hers to remove, where others have enough to tell by.
        """
        old = self.state.tree
        gone = [node for number, node in old.nodes.items() if number not in self.tree.nodes]
        if not _is_too_much(gone, old):
            return 0
        tops = []
        for parent, names in self.tree.entries.items():
            for name, child in old.entries.get(parent, {}).items():
                if name not in names and child not in self.tree.nodes:
                    tops.append(Top(parent, name, child))
                    owner = old.nodes[child].rights.owner
                    self.remarks.counts.setdefault(owner, Counter())[Reason.HELD] += 1
        keep(old, self.tree, tops)
        return len(gone)


def _is_too_much(gone: list[Node], old: Tree) -> bool:
    """Whether more than half of the nodes would go, and not only one person's."""
    if len(old.nodes) < FEW or 2 * len(gone) <= len(old.nodes):
        return False
    all_of = Counter(node.rights.owner for node in old.nodes.values())
    gone_of = Counter(node.rights.owner for node in gone)
    gone_of.pop(0, None)
    if not gone_of:
        return True
    owner, count = gone_of.most_common(1)[0]
    others = len(old.nodes) - all_of[owner]
    return others < FEW or 2 * (len(gone) - count) > others
