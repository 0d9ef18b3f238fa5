"""Lines: how they are cut from the input, and what their fields say."""

import os
import re
from collections.abc import Callable

from .nodes import Entries

LINE_MAX = 65_536
TEXT_MAX = 16_777_216
LENGTH_MAX = 1 << 40
NUMBER_MAX = 4_294_967_295
SHOWN_MAX = 10_000
WORK_MAX = 1_000_000
PIECE = 1 << 20
_ESCAPED = {b"\\\\": b"\\", b"\\t": b"\t", b"\\n": b"\n"}
_FIELD = re.compile(rb"(?:[^\\]|\\[\\tn])*", re.DOTALL)
_ESCAPE = re.compile(rb"\\[\\tn]")
_NUMBER = re.compile(rb"0|[1-9][0-9]{0,18}")
_MODE = re.compile(rb"[0-7]{3,4}")
_ENTRY = re.compile(rb"([gum]):([0-9]*):([0-7])")


class BadSyntax(Exception):
    """The fields of a line aren't those of its command."""


class TooLong(Exception):
    """The input has more bytes than it may have."""


class NoInput(Exception):
    """The input can't be read."""


def fields_of(line: bytes) -> list[bytes]:
    """The fields of a line. Raises `BadSyntax`."""
    fields = line.split(b"\t")
    if b"\\" not in line:
        return fields
    if any(_FIELD.fullmatch(one) is None for one in fields):
        raise BadSyntax
    return [_ESCAPE.sub(lambda found: _ESCAPED[found.group()], one) for one in fields]


def spell(row: tuple[bytes | int, ...]) -> bytes:
    """A line of a reply."""
    fields = [b"%d" % one if isinstance(one, int) else one for one in row]
    told = [
        one.replace(b"\\", b"\\\\").replace(b"\t", b"\\t").replace(b"\n", b"\\n") for one in fields
    ]
    return b"\t".join(told) + b"\n"


def number(least: int, most: int) -> Callable[[bytes], int]:
    """Reads a number in these bounds."""

    def read(field: bytes) -> int:
        if _NUMBER.fullmatch(field) is None or not least <= int(field) <= most:
            raise BadSyntax
        return int(field)

    return read


def mode(field: bytes) -> int:
    """Reads a mode."""
    if _MODE.fullmatch(field) is None:
        raise BadSyntax
    return int(field, 8)


def any_bytes(field: bytes) -> bytes:
    """Reads a name or a text, whatever it is."""
    return field


def entries(field: bytes) -> tuple[Entries | None, int]:
    """Reads an access list with its mask."""
    if not field:
        return None, 0
    found = [_ENTRY.fullmatch(one) for one in field.split(b",")]
    if len(found) < 2 or not all(found):
        raise BadSyntax
    told = [(one[1], one[2], int(one[3])) for one in found if one is not None]
    if told[0][:2] != (b"g", b"") or told[-1][:2] != (b"m", b""):
        raise BadSyntax
    named = [(kind, number(0, NUMBER_MAX)(who), bits) for kind, who, bits in told[1:-1]]
    order = [(kind == b"g", who) for kind, who, _ in named]
    if any(kind == b"m" for kind, _, _ in named) or order != sorted(set(order)):
        raise BadSyntax
    users = {who: bits for kind, who, bits in named if kind == b"u"}
    groups = {who: bits for kind, who, bits in named if kind == b"g"}
    return Entries(told[0][2], users, groups), told[-1][2]


class Input:
    """Standard input, line by line. `flush` is called before more of it is waited for."""

    def __init__(self, flush: Callable[[], None], most: int) -> None:
        self.flush = flush
        self.left = most
        self.held = bytearray()
        self.ended = False

    def _more(self) -> bool:
        """Reads another piece: whether there was one. Raises `TooLong`, and `NoInput`."""
        if not self.ended:
            self.flush()
            try:
                piece = os.read(0, PIECE)
            except OSError as error:
                raise NoInput from error
            self.ended = not piece
            self.left -= len(piece)
            if self.left < 0:
                raise TooLong
            self.held += piece
        return not self.ended

    def line(self) -> bytes | None:
        """The next line without its LF; of one that is too long more than a line may have."""
        searched = 0
        while (end := self.held.find(b"\n", searched)) < 0:
            searched = len(self.held)
            if searched > LINE_MAX:
                return self._front_of_line()
            if not self._more():
                break
        if end < 0 and not self.held:
            return None
        return self._cut(end)

    def _cut(self, end: int) -> bytes:
        """Takes what is before that place, and the LF there; all where there is none."""
        end = len(self.held) if end < 0 else end
        line = bytes(self.held[:end])
        del self.held[: end + 1]
        return line

    def _front_of_line(self) -> bytes:
        """Takes a long line, and gives its front."""
        front = bytes(self.held[: LINE_MAX + 1])
        self._skip_line()
        return front

    def _skip_line(self) -> bool:
        """Skips what is before the next LF, and that: whether there was anything but the LF."""
        was = False
        while (end := self.held.find(b"\n")) < 0:
            was = was or bool(self.held)
            self.held.clear()
            if not self._more():
                return was
        del self.held[: end + 1]
        return was or end > 0

    def body(self, size: int) -> bytes | str:
        """The body of a text and the LF after it, or the word with which it is refused."""
        while size <= TEXT_MAX and len(self.held) < size:
            if not self._more():
                self.held.clear()
                return "truncated"
        if size > TEXT_MAX:
            return "toolong" if self._skip(size) else "truncated"
        body = bytes(self.held[:size])
        del self.held[:size]
        return "badbody" if self._skip_line() else body

    def _skip(self, size: int) -> bool:
        """Skips so many bytes and the rest of the line: whether there were so many."""
        while size > len(self.held):
            size -= len(self.held)
            self.held.clear()
            if not self._more():
                return False
        del self.held[:size]
        self._skip_line()
        return True
