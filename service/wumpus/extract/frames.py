"""What a worker writes into its pipe: frames of a byte that says what it is, and a length.

    T   text, in UTF-8
    H   what the name of the next document within would end with, as `pdf`, or nothing
    D   a document within
    !   why there is no text, in one byte

A program writes its text as it is, without frames.
"""

import os
import struct
from typing import Protocol

from .reasons import BYTE_OF, Reason
from .tidy import tidied

HEAD = struct.Struct("!cI")
HINT_MAX = 16
TEXT, HINT, WITHIN, WHY = b"T", b"H", b"D", b"!"
_PIECE = 1 << 16  # characters of text in a frame, about
_LINE = 1 << 20  # characters that are kept for want of a place to cut


class Output(Protocol):
    """Where a filter puts what it finds, in the order of the document."""

    def text(self, text: str) -> None:
        """Puts text behind that which is there."""

    def line(self, text: str) -> None:
        """Puts a line, which ends here; none where it is blank."""

    def within(self, hint: str, document: bytes) -> None:
        """Puts a document that stands in this one."""


def as_line(text: str) -> str:
    """A text as a line, which ends here; nothing where it is blank."""
    return text.replace("\n", " ") + "\n" if text and not text.isspace() else ""


class Sink:
    """Where a filter puts its text, which is tidied here."""

    def __init__(self, output: int) -> None:
        self.output = output
        self.waiting: list[str] = []
        self.length = 0

    def text(self, text: str) -> None:
        """Puts text behind that which is there."""
        self.waiting.append(text)
        self.length += len(text)
        if self.length >= _PIECE:
            self._flush_front()

    def line(self, text: str) -> None:
        """Puts a line, which ends here; none where it is blank."""
        self.text(as_line(text))

    def within(self, hint: str, document: bytes) -> None:
        """Puts a document that stands in this one."""
        self.flush()
        self._frame(HINT, hint.encode("ascii", "replace")[:HINT_MAX])
        self._frame(WITHIN, document)

    def why(self, reason: Reason) -> None:
        """Says why there is no text."""
        self._frame(WHY, BYTE_OF[reason])

    def flush(self) -> None:
        """Writes all text that waits."""
        text = "".join(self.waiting)
        self._wait_with("")
        self._write(text)

    def _flush_front(self) -> None:
        """Writes what waits but for its end: a letter there may get a mark by what comes."""
        text = "".join(self.waiting)
        cut = max(text.rfind("\n"), text.rfind(" ")) + 1
        if not cut and len(text) >= _LINE:
            cut = len(text)
        self._wait_with(text[cut:])
        self._write(text[:cut])

    def _wait_with(self, text: str) -> None:
        self.waiting = [text] if text else []
        self.length = len(text)

    def _write(self, text: str) -> None:
        if text:
            self._frame(TEXT, tidied(text).encode("utf-8", "replace"))

    def _frame(self, what: bytes, data: bytes) -> None:
        for part in (HEAD.pack(what, len(data)), data):
            left = memoryview(part)
            while left:
                left = left[os.write(self.output, left) :]
