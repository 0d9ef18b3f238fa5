"""How results are written: for a person at a terminal, for other programs, and as JSON.

Names and texts are of other users too. At a terminal their control and format characters are
escapes, so that none of them moves the cursor or turns the direction of what is read.
"""

import base64
import json
import os
import socket
import urllib.parse
from collections.abc import Iterator, Sequence
from dataclasses import dataclass
from enum import Enum, auto
from typing import IO, Any

from ..shared.lines import Lines
from ..shared.progress import plain
from .matching import Shown
from .tree import text_of

LINE_ROOM = 400  # bytes of a line at a terminal
BEFORE_MATCH = 100  # of these before the first match

_HEAD, _MATCH, _DIM, _PLAIN = b"\x1b[35m", b"\x1b[1;31m", b"\x1b[2m", b"\x1b[0m"
_SPACES = {code: " " for code in (0x09, 0xA0, 0x1680, *range(0x2000, 0x200B), 0x202F, 0x205F)}

Spans = Sequence[tuple[int, int]]


class Format(Enum):
    """What is written of each result."""

    HEADS = auto()  # a path, and below it lines
    LINES = auto()  # path:line:text
    VIMGREP = auto()  # path:line:column:text
    PATHS = auto()
    PATHS_WITH_NUL = auto()
    JSON = auto()


class Layer(Enum):
    """Whether what is written is read by a person at a terminal."""

    TERMINAL = auto()
    PIPE = auto()


@dataclass(frozen=True)
class Style:
    """How text is written."""

    layer: Layer
    has_colour: bool
    has_links: bool

    @property
    def is_terminal(self) -> bool:
        """Whether a person reads it at a terminal."""
        return self.layer is Layer.TERMINAL

    def head(self, path: bytes) -> bytes:
        """A path."""
        told = self._in_colour(_HEAD, shown(path, self))
        if not self.has_links:
            return told
        host = urllib.parse.quote(socket.gethostname())
        place = f"file://{host}{urllib.parse.quote(path)}".encode()
        return b"\x1b]8;;%b\x1b\\%b\x1b]8;;\x1b\\" % (place, told)

    def marked(self, line: bytes, spans: Spans) -> bytes:
        """A line with its matches highlighted; at a terminal not all of a long one."""
        if self.is_terminal:
            line, spans = cut(line, spans)
        pieces = []
        last = 0
        for start, end in spans:
            pieces.append(text_shown(line[last:start], self))
            pieces.append(self._in_colour(_MATCH, text_shown(line[start:end], self)))
            last = end
        return b"".join(pieces) + text_shown(line[last:], self)

    def dimmed(self, text: bytes) -> bytes:
        """What is told beside a result."""
        return self._in_colour(_DIM, text)

    def _in_colour(self, colour: bytes, text: bytes) -> bytes:
        return colour + text + _PLAIN if self.has_colour else text


@dataclass(frozen=True)
class Around:
    """How many lines are written before and after one with a match."""

    before: int = 0
    after: int = 0


@dataclass(frozen=True)
class Row:
    """A line to write: its number from 1, and what to mark; None where it has no match.

    Of a document `place` is told in place of its number, and `page` is that on which it is.
    """

    number: int
    text: bytes
    spans: Spans | None
    place: str = ""
    page: int | None = None

    @property
    def where(self) -> bytes:
        """What is told of its place."""
        return (self.place or str(self.number)).encode()


@dataclass(frozen=True)
class Result:
    """A file with the lines that are written of it, in groups that go on without a gap."""

    path: bytes
    score: int | None
    groups: Sequence[Sequence[Row]]
    note: str = ""

    def rows(self) -> Iterator[Row]:
        """The lines with matches."""
        return (row for group in self.groups for row in group if row.spans is not None)


def grouped(told: Lines, shown: Sequence[Shown], around: Around) -> list[list[Row]]:
    """The lines with matches and those around them; a new group where lines are left out."""
    lines = told.lines
    groups: list[list[Row]] = []
    spans = {one.number: one.spans for one in shown}
    last = 0
    for one in shown:
        first = max(one.number - around.before, last + 1)
        if not groups or first > last + 1 or around == Around():
            groups.append([])
        end = min(max(one.number + around.after, last), len(lines))
        for number in range(first, end + 1):
            place = "" if told.is_file else told.place(number)
            text = lines[number - 1].rstrip(b"\r")
            groups[-1].append(Row(number, text, spans.get(number), place, told.page(number)))
        last = max(last, end)
    return [group for group in groups if group]


class Writer:
    """Writes results to a stream."""

    def __init__(self, out: IO[bytes], style: Style, format_: Format, around: Around) -> None:
        self.out = out
        self.style = style
        self.format = format_
        self.has_gaps = around != Around()
        self.is_first = True

    def write(self, result: Result) -> None:
        """Writes one."""
        if self.format is Format.HEADS:
            self._write_head(result)
        elif self.format is Format.JSON:
            self.out.write(as_json(json_of(result)))
        elif self.format is Format.PATHS_WITH_NUL:
            self.out.write(result.path + b"\0")
        elif self.format is not Format.PATHS and (result.groups or result.note):
            self._write_rows(result)
        else:
            self.out.write(self.style.head(result.path) + b"\n")
        self.is_first = False

    def _write_head(self, result: Result) -> None:
        if result.groups and not self.is_first:
            self.out.write(b"\n")
        note = self.style.dimmed(b"  " + result.note.encode()) if result.note else b""
        self.out.write(self.style.head(result.path) + note + b"\n")
        for place, group in enumerate(result.groups):
            if place and self.has_gaps:
                self.out.write(b"  --\n")
            for row in group:
                sign = b"- " if row.spans is None else b": "
                self.out.write(b"  %b%b%b\n" % (row.where, sign, _marked(row, self.style)))

    def _write_rows(self, result: Result) -> None:
        path = self.style.head(result.path)
        for place, group in enumerate(result.groups):
            if self.has_gaps and self.format is Format.LINES and (place or not self.is_first):
                self.out.write(b"--\n")
            for row in group:
                if self.format is Format.LINES:
                    sign = b"-" if row.spans is None else b":"
                    parts = [path, row.where, _marked(row, self.style)]
                    self.out.write(sign.join(parts) + b"\n")
                elif row.spans is not None:
                    column = row.spans[0][0] + 1 if row.spans else 1
                    where = b":%d:%d:" % (row.number, column)
                    self.out.write(path + where + _marked(row, self.style) + b"\n")


def _marked(row: Row, style: Style) -> bytes:
    return style.marked(row.text, row.spans or ())


def cut(line: bytes, spans: Spans) -> tuple[bytes, Spans]:
    """A piece of a long line in which its first match is, and the matches in it."""
    if len(line) <= LINE_ROOM:
        return line, spans
    start = max(spans[0][0] - BEFORE_MATCH, 0) if spans else 0
    while start and line[start] & 0xC0 == 0x80:
        start -= 1
    end = min(start + LINE_ROOM, len(line))
    while end < len(line) and line[end] & 0xC0 == 0x80:
        end -= 1
    front = b".. " if start else b""
    moved = len(front) - start
    kept = [(first + moved, min(last, end) + moved) for first, last in spans if first < end]
    return front + line[start:end] + (b" .." if end < len(line) else b""), kept


def shown(name: bytes, style: Style) -> bytes:
    """A name: at a terminal without anything that a terminal obeys."""
    if not style.is_terminal:
        return name
    return plain(text_of(name)).encode()


def text_shown(text: bytes, style: Style) -> bytes:
    """A piece of a line, with blanks of all kinds as blanks."""
    if not style.is_terminal:
        return text
    return plain(text_of(text.replace(b"\t", b"    ")).translate(_SPACES)).encode()


def json_of(result: Result) -> dict[str, Any]:
    """A result as a value of JSON. Spans are in bytes."""
    value: dict[str, Any] = {"path": result.path}
    if result.score is not None:
        value["score"] = result.score
    value["lines"] = [_with_bases(_value_of(row)) for row in result.rows()]
    if result.note:
        value["note"] = result.note
    return value


def _value_of(row: Row) -> dict[str, Any]:
    page = {} if row.page is None else {"page": row.page}
    return {"line": row.number, **page, "text": row.text, "spans": list(row.spans or ())}


def as_json(value: dict[str, Any]) -> bytes:
    """A JSON value on a line, in printable ASCII. What is no UTF-8 stands beside in base 64."""
    return json.dumps(_with_bases(value)).replace("\x7f", "\\u007f").encode() + b"\n"


def _with_bases(value: dict[str, Any]) -> dict[str, Any]:
    told: dict[str, Any] = {}
    for key, one in value.items():
        if isinstance(one, bytes):
            told[key] = one.decode("utf-8", "replace")
            if told[key].encode("utf-8") != one:
                told[key + "_base64"] = base64.b64encode(one).decode("ascii")
        else:
            told[key] = one
    return told


def has_colour(wish: str, is_terminal: bool) -> bool:
    """Whether matches are highlighted, by the option `--color`."""
    if wish == "auto":
        return is_terminal and not os.environ.get("NO_COLOR") and os.environ.get("TERM") != "dumb"
    return wish == "always"
