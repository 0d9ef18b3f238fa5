"""The tokens of a text: where its words and tags stand, and its lines."""

import re
from array import array
from collections.abc import Callable
from functools import cached_property

RUN = re.compile(rb"[0-9A-Za-z\x80-\xff]+")
WORD_MAX = 64
SNIPPET_MAX = 80
LINES_AT_ONCE = 10_000
FILE, FILE_END, LINE, LINE_END = b"<file>", b"</file>", b"<line>", b"</line>"
TAGS = frozenset((FILE, FILE_END, LINE, LINE_END))


def word_of(run: bytes) -> bytes:
    """The word of a run: what of its front is UTF-8 is folded, and then ASCII letters lowered."""
    if run.isascii():
        return run[:WORD_MAX].lower()
    front = run.decode("utf-8", "surrogateescape")
    stop = next((at for at, one in enumerate(front) if "\udc80" <= one <= "\udcff"), len(front))
    folded = front[:stop].casefold().encode()
    return (folded + run[len(front[:stop].encode()) :].lower())[:WORD_MAX]


def words_of(text: bytes) -> list[bytes]:
    """The words of a text."""
    return [word_of(run) for run in RUN.findall(text)]


def lines_of(text: bytes) -> list[bytes]:
    """The lines of a text, without their LFs."""
    lines = text.split(b"\n")
    if not lines[-1]:
        lines.pop()
    return lines


class Tokens:
    """Where each token of a text stands, counted from 0 at its `<file>`.

    Which words there are is found at once, and where they stand when that is asked of one of them.
    """

    def __init__(self, read: Callable[[], bytes]) -> None:
        self.read = read
        lines = lines_of(read())
        runs: set[bytes] = set()
        count = 0
        for at in range(0, len(lines), LINES_AT_ONCE):
            found = RUN.findall(b"\n".join(lines[at : at + LINES_AT_ONCE]))
            runs.update(found)
            count += len(found)
        self.words = {word_of(run) for run in runs}
        self.count = count + 2 * len(lines) + 2

    @cached_property
    def _all(self) -> dict[bytes, "array[int]"]:
        """The places of each word, and of the tags of lines."""
        begins, ends = array("I"), array("I")
        found = {LINE: begins, LINE_END: ends}
        by_run: dict[bytes, array[int]] = {}
        place = 1
        for line in lines_of(self.read()):
            begins.append(place)
            for run in RUN.findall(line):
                place += 1
                if run not in by_run:
                    by_run[run] = found.setdefault(word_of(run), array("I"))
                by_run[run].append(place)
            ends.append(place + 1)
            place += 2
        return found

    def places(self, token: bytes) -> "array[int]":
        """Where a word, or a tag, stands."""
        if token == FILE:
            return array("I", [0])
        if token == FILE_END:
            return array("I", [self.count - 1])
        if token in self.words or token in TAGS:
            return self._all[token]
        return array("I")

    def line_of(self, first: int, last: int) -> int:
        """The number of the first line that shares a token with an extent; 0 where none does."""
        pairs = zip(self._all[LINE], self._all[LINE_END], strict=True)
        for number, (begin, end) in enumerate(pairs, 1):
            if first <= end and begin <= last:
                return number
        return 0
