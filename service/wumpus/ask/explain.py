"""What is said about a question: where it is at fault, what it asks, and why nothing was found."""

import unicodedata
from collections.abc import Iterator, Sequence

from ..shared.progress import plain
from .expression import Expression, Scope, TooLong, operators_of, spell
from .forms import typed_in
from .search import Meant, Search
from .suggestions import suggestions
from .translation import Translation
from .tree import (
    And, Fault, Line, Near, Not, Or, Phrase, Prefix, Row, Span, Tree, Unit, text_of,
)  # fmt: skip

TOLD = 3  # words that no file has


def at_fault(query: bytes, fault: Fault) -> list[str]:
    """The query with a `^` below each byte's character at fault."""
    blank = bytes.maketrans(b"\t\n\r\v\f", b"     ")
    line = query.translate(blank)
    before = plain(text_of(line[: fault.span.start]))
    within = plain(text_of(line[fault.span.start : fault.span.end]))
    marks = "^" * max(width_of(within), 1)
    return ["  " + plain(text_of(line)), "  " + " " * width_of(before) + marks]


def width_of(text: str) -> int:
    """How many columns a text takes at a terminal."""
    wide = sum(unicodedata.east_asian_width(one) in "WF" for one in text)
    return len(text) + wide - sum(unicodedata.combining(one) != 0 for one in text)


def too_long(meant: Meant, fault: TooLong) -> str:
    """What is said of a query that takes more than the program allows."""
    told = f"the query is too long: {fault.told}"
    texts = meant.question.texts
    typed = [] if texts is None else list(typed_in(texts))
    if any(isinstance(word, Prefix) for word in typed):
        return told + ". A word* that stands for many words takes most: write more letters of it"
    if any(len(meant.forms.of(word)) > 1 for word in typed):
        return told + ". --exact-words takes fewer, since no other forms of words are looked for"
    return told


def explained(meant: Meant, scope: Scope) -> Iterator[str]:
    """What is asked of the program: expression, ranking, and conditions."""
    question = meant.question
    if question.texts is not None:
        expression = meant.expression(scope)
        written = plain(text_of(spell(expression)))
        yield f"{written}   ({operators_of(expression)} operators)"
        words = meant.words() if scope is Scope.FILE else []
        if words:
            yield "ranked by: " + plain(text_of(b" ".join(words)))
    if question.paths is not None:
        yield "and by their paths"


def span_of(tree: Tree[Unit]) -> Span:
    """The bytes of the query from the first unit to the last."""
    if isinstance(tree, Not):
        return span_of(tree.part)
    if isinstance(tree, (And, Or)):
        spans = [span_of(part) for part in tree.parts]
        return Span(min(one.start for one in spans), max(one.end for one in spans))
    return tree.span


class Why:
    """Why a question found nothing, by the counts of its parts."""

    def __init__(self, search: Search) -> None:
        self.search = search
        self.typed = search.meant.question.typed
        self.translation = Translation(search.meant.forms)

    def nothing(self) -> list[str]:
        """What to say, in a line or a few."""
        texts = self.search.meant.question.texts
        if texts is None:
            return ["No file of yours passes."]
        parts = [part for part in parts_of(texts) if not isinstance(part, Not)]
        words = list(dict.fromkeys(row for part in parts for row in words_in(part)))
        counts = {row: self._count(row) for row in words}
        missing = [row for row in words if counts[row] == 0]
        if missing:
            return [self._about_missing(row) for row in missing[:TOLD]]
        if len(parts) > 1:
            return [f"No file has all of it: {self._told(parts)}."]
        if not parts:
            return ["Each file of yours is excluded."]
        if self._count(parts[0]) > 0:
            return [f"{self._told(parts)}, but none of these passes."]
        if len(words) > 1:
            return [f"No file has {self._label(parts[0])}: {self._told(words)}."]
        return []

    def _told(self, parts: "Sequence[Tree[Unit]]") -> str:
        told = [f"{self._label(part)} is in {self._count(part)}" for part in parts]
        return ", ".join(told) + (" file" if told[-1].endswith(" 1") else " files")

    def _about_missing(self, row: Row) -> str:
        word = row.words[0]
        told = f"No file has {self._label(row)}."
        if isinstance(word, Prefix):
            return told
        likely = [plain(text_of(one)) for one in suggestions(word.text, self.search.asking)]
        if not likely:
            return told
        *others, last = likely
        return f"{told} Did you mean {', '.join(others) + ' or ' if others else ''}{last}?"

    def _label(self, part: "Tree[Unit]") -> str:
        span = span_of(part)
        return plain(text_of(self.typed[span.start : span.end]))

    def _count(self, part: "Tree[Unit]") -> int:
        expression: Expression = self.translation.kept(part, Scope.FILE)
        return int(self.search.asking.ask(b"count", spell(expression))[0][2])


def parts_of(tree: Tree[Unit]) -> tuple[Tree[Unit], ...]:
    """What has to hold together."""
    return tree.parts if isinstance(tree, And) else (tree,)


def words_in(tree: Tree[Unit]) -> Iterator[Row]:
    """The wanted words, each as a term of its own."""
    if isinstance(tree, (And, Or)):
        for part in tree.parts:
            if not isinstance(part, Not):
                yield from words_in(part)
    elif isinstance(tree, Line):
        yield from words_in(tree.query)
    elif isinstance(tree, (Row, Phrase, Near)):
        for word in typed_in(tree):
            yield Row((word,), word.span)
