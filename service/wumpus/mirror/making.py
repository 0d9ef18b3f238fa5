"""Texts of documents for a batch: what was made, where there is room for it, and what has none."""

from collections import Counter
from dataclasses import replace

from ..extract.reasons import Reason
from ..shared.progress import Progress
from .batch import Texts
from .documents import Documents, Nodes, Outcome
from .look import digest_of
from .nodes import Node
from .remarks import path_of
from .room import Room
from .way import Ways


class Making:
    """Gathers texts, and the nodes of their documents as they are then in `made`.

    `count` is how many were made, and `failed` has why others have no text.
    """

    def __init__(
        self, documents: Documents, nodes: Nodes, room: Room, texts: Texts, progress: Progress
    ) -> None:
        self.documents = documents
        self.nodes = nodes
        self.room = room
        self.texts = texts
        self.progress = progress
        self.made: list[Node] = []
        self.count = 0
        self.failed: Counter[str] = Counter()

    def go_on(self, ways: Ways, budget: float, seconds: float) -> bool:
        """Has the next one made, and waits for it for so long: whether more may come."""
        if not self.documents.begin(self.nodes, ways, budget):
            return False
        outcome = self.documents.wait(seconds)
        node = None if outcome is None else self._with_text(outcome)
        if node is not None:
            self.documents.unfed.add(node.number)
            self.made.append(node)
        self.progress.tell(f"{self.count} documents made, {self.documents.queue.count} left")
        return True

    def _with_text(self, outcome: Outcome) -> Node | None:
        """The node of a document as it is now; None where it stays as it was."""
        due, origin, why = outcome.due, outcome.origin, outcome.why
        before = self.nodes.get(due.number)
        if before is None or not origin.is_same(before.origin):
            return None
        node = replace(before, digest=digest_of(outcome.text), origin=origin)
        is_other = node.digest != before.digest
        if is_other and why is None:
            why = self._want_of_room(before, node)
        if why is not None:
            self._tell(outcome, why)
            if not why.final:
                self.documents.queue.put_off(due.number)
                return None
        self.documents.queue.is_done(due.number)
        self.count += why is None
        if is_other:
            self.texts.add(node.number, outcome.text)
            self.room.count(before, node)
        return node

    def _want_of_room(self, before: Node, node: Node) -> Reason | None:
        if self.room.is_exceeded(before, node.rights.owner, node.text_bytes):
            return Reason.NO_ROOM
        return Reason.NO_DISK if self.room.is_short(node.text_bytes + self.texts.size) else None

    def _tell(self, outcome: Outcome, why: Reason) -> None:
        """Tells of a document without a text."""
        self.failed[why.name.lower()] += 1
        later = "" if why.final else "; it is tried again later"
        told = f"its path is kept without its text ({why.value}{later})"
        self.progress.warn_of(told, path_of(outcome.due.directory, outcome.due.name))
