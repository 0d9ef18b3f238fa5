"""From a document to its text: workers one after the other, and what bounds them all.

Of what workers write nothing is looked at but lengths. A document within another one is made text
by a worker of its own, and so is what a program wrote, to be tidied.
"""

import math
import os
import select
import time
from dataclasses import dataclass, field, replace
from typing import Protocol

from ..shared.script import TEXT_MAX
from ..shared.texts import is_text
from .documents import DOCUMENT_MAX, Document
from .frames import HEAD, HINT, HINT_MAX, TEXT, WHY, WITHIN
from .kinds import PACKED, PLAIN, WRITTEN, Table
from .reasons import SAID, Ended, Reason, Way
from .walls import Allowance

TEXT_PER_BYTE = 16  # what takes room of the store has to take room of its owner's
TEXT_FREE = 64 << 10
WITHIN_MAX = 64
DEPTH_MAX = 4
SECONDS = 10  # of the processor, for a file
MEMORY = 512  # MiB, for a worker
_FRAMES_MAX = 4096  # of a worker: no filter writes so many
_PIECE = 1 << 16


@dataclass(frozen=True)
class Made:
    """The text of a document, and what it took."""

    text: bytes
    kind: str  # of the document, or of what is packed in it
    left_out: int  # documents within it that should have had a text
    seconds: float  # of the processor


@dataclass(frozen=True)
class Failed:
    """Why a document has no text, and what that took."""

    reason: Reason
    seconds: float


class Run(Protocol):
    """A worker that was begun."""

    output: int  # the end of its pipe that is read
    patience: float  # seconds of the clock after which nothing more is expected

    def end(self) -> Ended:
        """Closes the pipe, which ends a worker that goes on, and tells how it ended."""


class Workers(Protocol):
    """Who forks workers."""

    def is_program(self, kind: str) -> bool | None:
        """Tells whether a kind is made by a program, which writes no frames; None if by nobody."""

    def begin(self, kind: str, document: Document, allowed: Allowance) -> Run:
        """Begins a worker. One that couldn't be begun is a `Run` too, and says so at its end."""


def text_limit(size: int) -> int:
    """How many bytes of text a document of that many bytes may have."""
    return min(TEXT_MAX, TEXT_PER_BYTE * size + TEXT_FREE)


def text_of(
    workers: Workers, table: Table, name: bytes, document: Document, seconds: int | None = None
) -> Made | Failed:
    """The text of a sealed document that has this name. One of no kind is broken.

    It may take ten seconds of the processor, or as many as are given, and thrice as many of the
    clock before it is late.
    """
    kind = table.kind_of(name, document.front)
    allowed = SECONDS if seconds is None else seconds
    late = time.monotonic() + Allowance(allowed, MEMORY).patience
    bounds = _Bounds(text_limit(document.size), allowed, late)
    making = _Making(workers, table, bounds)
    try:
        if kind is None:
            raise _Enough(Reason.BROKEN)
        making.kind = kind.name
        making.make(kind.name, name, document, 0)
    except _Enough as enough:
        return Failed(enough.reason, making.bounds.seconds)
    text = b"".join(making.texts)
    if making.failures and not text.strip():
        return Failed(making.failures[0], making.bounds.seconds)
    return Made(text, making.kind, len(making.failures), making.bounds.seconds)


class _Enough(Exception):
    """There is no text."""

    def __init__(self, reason: Reason) -> None:
        super().__init__(reason.value)
        self.reason = reason


# Where one of these bounds is reached by a document within, it is that of the whole file.
_OF_ALL = frozenset({Reason.TEXT, Reason.WITHIN, Reason.TIME})


@dataclass
class _Bounds:
    """What is left for one file and all that is within it."""

    text: int
    seconds_allowed: int
    late: float  # when it is late, by the monotonic clock
    within: int = WITHIN_MAX
    bytes_within: int = DOCUMENT_MAX
    seconds: float = 0.0  # that were taken

    def take_text(self, size: int) -> None:
        """Takes room for text. Raises `_Enough`."""
        self.text -= size
        if self.text < 0:
            raise _Enough(Reason.TEXT)

    def take_within(self, size: int) -> None:
        """Takes room for a document within. Raises `_Enough`."""
        self.within -= 1
        self.bytes_within -= size
        if self.within < 0 or self.bytes_within < 0:
            raise _Enough(Reason.WITHIN)

    def allowance(self) -> Allowance:
        """What the next worker may take. Raises `_Enough` where nothing is left, or it is late."""
        if time.monotonic() >= self.late:
            raise _Enough(Reason.LATE)
        left = math.ceil(self.seconds_allowed - self.seconds)
        if left <= 0:
            raise _Enough(Reason.TIME)
        return Allowance(left, MEMORY)


@dataclass
class _Inner:
    """A document within: what its name would end with, and its bytes."""

    hint: bytes
    document: Document


@dataclass
class _Told:
    """What a worker wrote."""

    parts: list[bytearray | _Inner] = field(default_factory=list)
    why: Reason | None = None

    def add(self, text: bytes) -> None:
        """Puts text behind that which is there: one part, however small the pieces are."""
        if self.parts and isinstance(self.parts[-1], bytearray):
            self.parts[-1] += text
        else:
            self.parts.append(bytearray(text))

    def close(self) -> None:
        """Gives the memory back."""
        for part in self.parts:
            if isinstance(part, _Inner):
                part.document.close()
        self.parts.clear()


class _Plain:
    """Takes what a program writes."""

    def __init__(self, told: _Told, bounds: _Bounds) -> None:
        self.told = told
        self.bounds = bounds

    def take(self, data: bytes) -> None:
        """Takes the next bytes. Raises `_Enough`."""
        self.bounds.take_text(len(data))
        self.told.add(data)

    def is_whole(self) -> bool:
        """Tells whether it may end here."""
        return True


class _Framed:
    """Takes frames, whose bytes come in any pieces."""

    def __init__(self, told: _Told, bounds: _Bounds) -> None:
        self.told = told
        self.bounds = bounds
        self.count = 0
        self.head = bytearray()
        self.what = b""
        self.left = 0  # bytes of the frame under way
        self.hint = bytearray()

    def take(self, data: bytes) -> None:
        """Takes the next bytes. Raises `_Enough`."""
        view = memoryview(data)
        while view:
            view = view[self._take_some(view) :]

    def is_whole(self) -> bool:
        """Tells whether it may end here."""
        return not self.left and not self.head

    def _take_some(self, view: memoryview) -> int:
        """Takes bytes of a head, or of what it is the head of: how many."""
        if self.left:
            part = view[: self.left]
            self.left -= len(part)
            self._put(bytes(part))
            return len(part)
        part = view[: HEAD.size - len(self.head)]
        self.head += part
        if len(self.head) == HEAD.size:
            self.what, self.left = HEAD.unpack(self.head)
            self.head.clear()
            self._begin()
        return len(part)

    def _begin(self) -> None:
        self.count += 1
        if self.count > _FRAMES_MAX:
            raise _Enough(Reason.HOSTILE)
        if self.what == TEXT:
            self.bounds.take_text(self.left)
        elif self.what == WITHIN:
            self.bounds.take_within(self.left)
            self.told.parts.append(_Inner(bytes(self.hint), Document()))
        elif self.what == HINT and self.left <= HINT_MAX:
            self.hint.clear()
        elif self.what != WHY or self.left != 1:
            raise _Enough(Reason.HOSTILE)

    def _put(self, part: bytes) -> None:
        if self.what == TEXT:
            self.told.add(part)
        elif self.what == HINT:
            self.hint += part
        elif self.what == WHY:
            self.told.why = SAID.get(part, Reason.HOSTILE)
        else:
            inner = self.told.parts[-1]
            assert isinstance(inner, _Inner)
            inner.document.add(part)
            if not self.left:
                inner.document.seal()


def _read(run: Run, taker: _Plain | _Framed, late: float) -> None:
    """Reads what a worker writes, to its end. Raises `_Enough`."""
    poller = select.poll()
    poller.register(run.output, select.POLLIN)
    end = min(time.monotonic() + run.patience, late)
    while True:
        left = end - time.monotonic()
        if left <= 0 or not poller.poll(left * 1000):
            raise _Enough(Reason.LATE)
        piece = os.read(run.output, _PIECE)
        if not piece:
            return
        taker.take(piece)


class _Making:
    """The making of one file's text."""

    def __init__(self, workers: Workers, table: Table, bounds: _Bounds) -> None:
        self.workers = workers
        self.table = table
        self.bounds = bounds
        self.texts: list[bytes] = []
        self.failures: list[Reason] = []  # final ones, of documents within
        self.kind = ""

    def make(self, kind: str, name: bytes, document: Document, depth: int) -> None:
        """Puts the text of a document behind that which is there. Raises `_Enough`."""
        is_program = self.workers.is_program(kind)
        if is_program is None:
            raise _Enough(Reason.NOT_MADE)
        told = self._told(kind, document, is_program)
        try:
            if is_program:
                self._tidy(told, depth)
                return
            for part in told.parts:
                if isinstance(part, bytearray):
                    self.texts.append(bytes(part))
                else:
                    self._make_within(part, name, depth + 1)
        finally:
            told.close()

    def _tidy(self, told: _Told, depth: int) -> None:
        """Has what a program wrote tidied by another worker."""
        written = b"".join(part for part in told.parts if isinstance(part, bytearray))
        if written:
            self.bounds.text += len(written)  # it counts when it is tidy
            with Document.of(written) as document:
                self.make(WRITTEN, b"", document, depth)

    def _make_within(self, inner: _Inner, name: bytes, depth: int) -> None:
        """Puts the text of a document within, in lines of its own; it fails by itself."""
        if depth > DEPTH_MAX:
            raise _Enough(Reason.WITHIN)
        # What is packed by itself is called as the file, less what that says of the packing.
        name = b"." + inner.hint if inner.hint else name.rpartition(b".")[0]
        kind = self.table.kind_of(name, inner.document.front)
        if not inner.document.size or (kind is None and not is_text(inner.document.front)):
            return
        if self.texts and not self.texts[-1].endswith(b"\n"):
            self.bounds.take_text(1)
            self.texts.append(b"\n")
        of_kind = kind.name if kind else PLAIN
        if self.kind in PACKED:
            self.kind = of_kind
        try:
            self.make(of_kind, name, inner.document, depth)
        except _Enough as enough:
            if enough.reason in _OF_ALL or not enough.reason.final:
                raise
            self.failures.append(enough.reason)

    def _told(self, kind: str, document: Document, is_program: bool) -> _Told:
        """What a worker writes of a document. Raises `_Enough`.

        A server that began anew when it was asked is asked again, once.
        """
        before = replace(self.bounds)
        told, reason, ended = self._run(kind, document, is_program)
        if reason is not None and ended.way is Way.GONE:
            told.close()
            self.bounds = before
            told, reason, ended = self._run(kind, document, is_program)
        if reason is not None:
            told.close()
            raise _Enough(reason)
        return told

    def _run(
        self, kind: str, document: Document, is_program: bool
    ) -> tuple[_Told, Reason | None, Ended]:
        """What a worker wrote, why that is no text if so, and how it ended."""
        allowed = self.bounds.allowance()
        told = _Told()
        taker: _Plain | _Framed = _Framed(told, self.bounds)
        if is_program:
            taker = _Plain(told, self.bounds)
        fault = None
        run = self.workers.begin(kind, document, allowed)
        try:
            _read(run, taker, self.bounds.late)
        except _Enough as enough:
            fault = enough.reason
        finally:
            ended = run.end()
        self.bounds.seconds += ended.seconds
        reason = fault or ended.reason(allowed.seconds) or told.why
        if reason is None and not taker.is_whole():
            reason = Reason.HOSTILE
        return told, reason, ended
