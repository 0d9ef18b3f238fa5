"""Expressions: how they are read, and which extents of a text they have.

No extent of a list holds another one, so begins and ends ascend together.
"""

import re
from bisect import bisect_left, bisect_right
from collections.abc import Callable
from dataclasses import dataclass

from .words import FILE, FILE_END, LINE, LINE_END, TAGS, Tokens, words_of

Extents = list[tuple[int, int]]
OPERATORS_MAX = 63
OPENINGS_MAX = 64
WINDOW_MAX = 65_535
_TOKEN = re.compile(rb'[ \t]*("[^"]*"|\[[0-9]+\]|\.\.|/[<>]|[()<>+^]|[A-Za-z]+)')
_BLANK = re.compile(rb"[ \t]*")
# Those that bind least come first; those of one row group to the left.
_ROWS = ((b"<", b">", b"/<", b"/>"), (b"+",), (b"^",), (b"..",))
_OPERATORS = frozenset(one for row in _ROWS for one in row)
_WINDOW = re.compile(rb"\[([1-9][0-9]{0,4})\]")


class Refused(Exception):
    """It is no expression; the text is the word with which it is refused."""


@dataclass(frozen=True)
class Phrase:
    """Words, or one tag, one after the other."""

    words: tuple[bytes, ...]

    def extents(self, tokens: Tokens) -> Extents:
        """Where they stand."""
        size = len(self.words)
        later = [set(tokens.places(word)) for word in self.words[1:]]
        return [
            (place, place + size - 1)
            for place in tokens.places(self.words[0])
            if all(place + far in places for far, places in enumerate(later, 1))
        ]


@dataclass(frozen=True)
class Window:
    """So many tokens."""

    size: int

    def extents(self, tokens: Tokens) -> Extents:
        """Each place of a window."""
        size = self.size
        return [(place, place + size - 1) for place in range(tokens.count - size + 1)]


@dataclass(frozen=True)
class Pair:
    """Two expressions and the operator between them."""

    operator: bytes
    left: "Expression"
    right: "Expression"

    def extents(self, tokens: Tokens) -> Extents:
        """What the operator makes of both."""
        left, right = self.left.extents(tokens), self.right.extents(tokens)
        return _MEANINGS[self.operator](left, right)


Expression = Phrase | Window | Pair
_WHOLE = {
    b"file": Pair(b"..", Phrase((FILE,)), Phrase((FILE_END,))),
    b"line": Pair(b"..", Phrase((LINE,)), Phrase((LINE_END,))),
}


def _smallest(extents: Extents) -> Extents:
    """Those that hold no other one."""
    kept: Extents = []
    for begin, end in sorted(set(extents), key=lambda one: (one[0], -one[1])):
        while kept and kept[-1][1] >= end:
            kept.pop()
        kept.append((begin, end))
    return kept


def _holding(left: Extents, right: Extents) -> list[bool]:
    """Whether each of the left ones holds one of the right."""
    begins = [begin for begin, _ in right]
    told = []
    for begin, end in left:
        first = bisect_left(begins, begin)
        told.append(first < len(right) and right[first][1] <= end)
    return told


def _held(left: Extents, right: Extents) -> list[bool]:
    """Whether each of the left ones is held by one of the right."""
    begins = [begin for begin, _ in right]
    told = []
    for begin, end in left:
        last = bisect_right(begins, begin) - 1
        told.append(last >= 0 and right[last][1] >= end)
    return told


def _those(left: Extents, told: list[bool], wanted: bool) -> Extents:
    return [one for one, holds in zip(left, told, strict=True) if holds is wanted]


def _both(left: Extents, right: Extents) -> Extents:
    """The smallest that hold one of each: of each end, the one that begins last."""
    left_ends, right_ends = [end for _, end in left], [end for _, end in right]
    found = []
    for end in sorted({*left_ends, *right_ends}):
        one, other = bisect_right(left_ends, end) - 1, bisect_right(right_ends, end) - 1
        if one >= 0 and other >= 0:
            found.append((min(left[one][0], right[other][0]), end))
    return _smallest(found)


def _followed(left: Extents, right: Extents) -> Extents:
    """The smallest that hold one of the left, and after its end one of the right."""
    ends = [end for _, end in left]
    found = []
    for begin, end in right:
        last = bisect_left(ends, begin) - 1
        if last >= 0:
            found.append((left[last][0], end))
    return _smallest(found)


_MEANINGS: dict[bytes, Callable[[Extents, Extents], Extents]] = {
    b">": lambda left, right: _those(left, _holding(left, right), True),
    b"/>": lambda left, right: _those(left, _holding(left, right), False),
    b"<": lambda left, right: _those(left, _held(left, right), True),
    b"/<": lambda left, right: _those(left, _held(left, right), False),
    b"+": lambda left, right: _smallest(left + right),
    b"^": _both,
    b"..": _followed,
}


def expression_of(text: bytes) -> Expression:
    """The expression of a text. Raises `Refused`."""
    tokens = _tokens_of(text)
    many = sum(one in _OPERATORS for one in tokens) > OPERATORS_MAX
    if many or tokens.count(b"(") > OPENINGS_MAX:
        raise Refused("toolarge")
    reading = _Reading(tokens)
    found = reading.row(0)
    if reading.tokens:
        raise Refused("notexpr")
    if reading.faults:
        raise Refused("noword" if "noword" in reading.faults else "badwindow")
    return found


def _tokens_of(text: bytes) -> list[bytes]:
    tokens = []
    place = 0
    while place < len(text):
        found = _TOKEN.match(text, place)
        if found is None:
            if _BLANK.fullmatch(text, place):
                break
            raise Refused("notexpr")
        if found[1].isalpha() and found[1] not in _WHOLE:
            raise Refused("notexpr")
        tokens.append(found[1])
        place = found.end()
    return tokens


class _Reading:
    """Reads tokens from the left. What is wrong within a token is told after all was read."""

    def __init__(self, tokens: list[bytes]) -> None:
        self.tokens = tokens[::-1]
        self.faults: set[str] = set()

    def _take(self) -> bytes:
        if not self.tokens:
            raise Refused("notexpr")
        return self.tokens.pop()

    def row(self, row: int) -> Expression:
        """What the operators of a row join, and those that bind more."""
        if row == len(_ROWS):
            return self._operand()
        found = self.row(row + 1)
        while self.tokens and self.tokens[-1] in _ROWS[row]:
            found = Pair(self.tokens.pop(), found, self.row(row + 1))
        return found

    def _operand(self) -> Expression:
        token = self._take()
        if token == b"(":
            found = self.row(0)
            if self._take() != b")":
                raise Refused("notexpr")
            return found
        if token in _WHOLE:
            return _WHOLE[token]
        if token.startswith(b'"'):
            return self._quoted(token[1:-1])
        if token.startswith(b"["):
            return self._window(token)
        raise Refused("notexpr")

    def _quoted(self, text: bytes) -> Expression:
        words = (text,) if text in TAGS else tuple(words_of(text))
        if not words:
            self.faults.add("noword")
        return Phrase(words)

    def _window(self, token: bytes) -> Expression:
        found = _WINDOW.fullmatch(token)
        if found is None or int(found[1]) > WINDOW_MAX:
            self.faults.add("badwindow")
            return Window(1)
        return Window(int(found[1]))
