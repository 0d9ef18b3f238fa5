"""The texts of documents: one at a time, beside the mirror's own work, which waits for none.

A document is known by a digest of its bytes, which a look found. Here the file is read once more,
into memory; where it has other bytes by now the next walk sees to it. So no look at the way to it
is needed: what is made is the text of these bytes. What makes it of the copy is a server without
rights, to which a thread talks, one at a time: see `extract/client.py`.
"""

import os
import stat
import threading
import time
from collections.abc import Callable, Iterator
from dataclasses import dataclass
from functools import partial
from typing import Generic, TypeVar

from ..extract.client import GREETING_SECONDS, Extractor
from ..extract.documents import Document
from ..extract.kinds import Table
from ..extract.reasons import Reason
from ..extract.texts import Failed, Made
from .due import Due, Queue
from .look import FILE_FLAGS, PIECE, digest_of_pieces
from .nodes import Node, Origin, identity_of
from .way import Restless, Torn, Ways

Nodes = dict[int, Node]
Result = TypeVar("Result")


class Beside(Generic[Result]):
    """A call in a thread of its own."""

    def __init__(self, call: Callable[[], Result]) -> None:
        """Begins it. Raises `RuntimeError` where there is no thread."""
        self.began = time.monotonic()
        self.result: Result | None = None  # none where it failed in a way that nobody foresaw
        self.call = call
        self.thread = threading.Thread(target=self._run, daemon=True)
        self.thread.start()

    def _run(self) -> None:
        self.result = self.call()

    def is_done(self, seconds: float) -> bool:
        """Whether it is done, within so many seconds."""
        self.thread.join(max(0.0, seconds))
        return not self.thread.is_alive()


@dataclass(frozen=True, slots=True)
class Outcome:
    """What came of a document: its text, and the origin that it has now; or why it has none."""

    due: Due
    origin: Origin
    text: bytes
    why: Reason | None


@dataclass(slots=True)
class _Making:
    """A document of which text is made, and whose it is."""

    due: Due
    person: int
    origin: Origin  # with what makes it
    began: float
    beside: Beside[Made | Failed]


class Documents:
    """Which documents are due, and the one whose text is being made.

    Without an extractor none is made. `trouble` tells why none is, where that is so.
    """

    def __init__(self, extractor: Extractor | None) -> None:
        self.extractor = extractor
        self.queue = Queue()
        self.table = Table(())
        self.fingerprints: dict[str, str] = {}
        self.trouble: str | None = "there is nothing here that makes it"
        self.making: _Making | None = None
        self.asking: Beside[bool] | None = None
        self.was_asked = False
        self.unfed: set[int] = set()  # documents that were made, and aren't fed yet

    # ---- the server

    def ask(self, table: Table) -> None:
        """Has the server asked what it makes, beside what else is done: once a turn.

        While it makes a text it is there, and isn't asked.
        """
        self.table = table
        extractor = self.extractor
        if extractor is not None and self.making is None and self.asking is None:
            extractor.table = table
            self.asking = Beside(extractor.reach)

    def settle(self, seconds: float = 0.0) -> None:
        """Takes what the server said, if it did so by now, or within so many seconds.

        Before its first answer it is waited for as long as it may take for that.
        """
        if not self.was_asked:
            seconds = max(seconds, GREETING_SECONDS)
        if self.asking is not None and self.asking.is_done(seconds):
            self.was_asked = True
            self.asking = None
            self._take_offers()

    def _take_offers(self) -> None:
        extractor = self.extractor
        if extractor is not None:
            self.fingerprints = extractor.fingerprints
            self.trouble = extractor.trouble if extractor.server is None else None

    def is_due(self, node: Node) -> bool:
        """Whether a document's text is to be made, or anew: something else makes its kind now."""
        origin = node.origin
        return origin is not None and self.fingerprints.get(origin.kind, origin.by) != origin.by

    # ---- what is made

    def has_work(self, budget: float) -> bool:
        """Whether any is made, or could be, where each person has so many seconds of a minute."""
        is_busy = self.making is not None or self.asking is not None
        return is_busy or self.queue.has_any(budget)

    def begin(self, nodes: Nodes, ways: Ways, budget: float) -> bool:
        """Has the next one made where none is: whether `wait` may bring one."""
        self.settle()
        if self.asking is not None or self.making is not None:
            return True
        taken = self.queue.take(budget)
        if taken is None:
            return False
        began = time.monotonic()
        person, due = taken
        self.making = self._begun(person, due, began, nodes.get(due.number), ways)
        if self.making is None:
            self.queue.charge(person, time.monotonic() - began)
        return True

    def _begun(
        self, person: int, due: Due, began: float, node: Node | None, ways: Ways
    ) -> _Making | None:
        """The making of a document; None where there is nothing to be made of it by now."""
        extractor = self.extractor
        if extractor is None or node is None or node.origin is None or not self.is_due(node):
            return None
        if node.number in self.unfed:
            return None
        document = copied(ways, due, node)
        if document is None:
            return None
        origin = node.origin._replace(by=self.fingerprints[node.origin.kind], length=0)
        extractor.table = self.table
        try:
            beside = Beside(partial(_made, extractor, due.name, document))
        except RuntimeError:
            document.close()
            self.queue.put_off(due.number)
            return None
        return _Making(due, person, origin, began, beside)

    def wait(self, seconds: float) -> Outcome | None:
        """What came of the document that is under way, if it is done within so many seconds."""
        self.settle(seconds)
        making = self.making
        if making is None or not making.beside.is_done(seconds):
            return None
        self.making = None
        self.queue.charge(making.person, time.monotonic() - making.began)
        self._take_offers()  # the server may have begun anew, or be gone
        made = making.beside.result
        if isinstance(made, Made):
            origin = making.origin._replace(length=len(made.text))
            return Outcome(making.due, origin, made.text, None)
        why = Reason.CRASHED if made is None else made.reason
        return Outcome(making.due, making.origin, b"", why)

    def close(self) -> None:
        """Ends the connection to the server, where nothing is under way over it."""
        if self.extractor is not None and self.making is None and self.asking is None:
            self.extractor.close()


def _made(extractor: Extractor, name: bytes, document: Document) -> Made | Failed:
    with document:
        try:
            return extractor.text_of(name, document)
        except OSError:  # there is no memory, or no descriptor, for a pipe or a document within
            return Failed(Reason.NO_PROCESS, 0.0)


def copied(ways: Ways, due: Due, node: Node) -> Document | None:
    """A sealed copy of a document's bytes; None where it hasn't those of which the node is."""
    try:
        directory = ways.reach(due.directory).descriptor
        descriptor = os.open(due.name, FILE_FLAGS, dir_fd=directory)
    except (Torn, Restless, OSError):
        return None
    try:
        status = os.fstat(descriptor)
        is_same = identity_of(status) == node.identity and status.st_size == node.size
        if not is_same or not stat.S_ISREG(status.st_mode):
            return None
        return _copy(descriptor, node)
    except OSError:
        return None
    finally:
        os.close(descriptor)
        ways.keep(due.directory)


def _copy(descriptor: int, node: Node) -> Document | None:
    """A copy of what is open there, where it has the size and the digest of a node's document.

    Raises `OSError`, as for want of memory.
    """
    document = Document()
    is_same = False
    try:
        digest = digest_of_pieces(_written(document, descriptor, node.size))
        is_same = node.origin is not None and digest == node.origin.source
        document.seal()
    finally:
        if not is_same:
            document.close()
    return document if is_same else None


def _written(document: Document, descriptor: int, size: int) -> Iterator[bytes]:
    """The bytes that are open there, as they are copied into a document: at most one too many."""
    while document.size <= size and (piece := os.read(descriptor, PIECE)):
        document.add(piece)
        yield piece
