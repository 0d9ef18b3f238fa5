"""Where the lines of a file hold what was asked for: what is shown of it, and highlighted.

The places are found in the file as it is, by the same meaning as the expression that found it. A
match is of a *part* of the query: a term, a phrase, a NEAR, or a `line:(..)` that isn't excluded.
"""

import itertools
import re
from bisect import bisect_left, bisect_right
from collections.abc import Iterable, Iterator, Sequence
from dataclasses import dataclass
from typing import NamedTuple

from ..shared.words import WORD, WORD_MAX, word_of
from .expression import Scope
from .forms import Forms, Typed, typed_in
from .tree import And, Line, Near, Not, Or, Phrase, Row, Tree, Unit

PIECE_LINES = 32  # lines that are looked at together, where those of the best are soon found


class Hit(NamedTuple):
    """A word of the query in a text: its token's place, its line from 0, and its bytes there."""

    position: int
    line: int
    start: int
    end: int
    word: bytes


class Match(NamedTuple):
    """A part of the query holds here: its first and last token, and the words of it."""

    first: int
    last: int
    hits: tuple[Hit, ...]


@dataclass(frozen=True)
class Shown:
    """A line that has matches: its number from 1, which bytes to mark, and of how many parts."""

    number: int
    spans: tuple[tuple[int, int], ...]
    parts: int


Hits = Sequence[Hit]


class Matcher:
    """Finds the matches of a query."""

    def __init__(self, tree: Tree[Unit] | None, forms: Forms, scope: Scope) -> None:
        self.scope = scope
        typed = [] if tree is None else list(typed_in(tree))
        self.words = {one: frozenset(map(word_of, forms.of(one))) for one in typed}
        self.wanted = frozenset().union(*self.words.values())
        self.parts = [] if tree is None else list(_wanted_units(tree, True))
        self.counts = any(_needs_places(part) for part in self.parts)
        ascii_words = [one for one in sorted(self.wanted) if one.isascii()]
        self.in_ascii = re.compile(_whole_words(ascii_words), re.IGNORECASE)

    def shown(self, lines: Iterable[bytes]) -> list[Shown]:
        """The lines that have a match, in their order."""
        return self._shown_of(list(self._hits(lines)))

    def best(self, lines: Sequence[bytes], most: int) -> list[Shown]:
        """The lines with most parts of the query, the first of them, in the order of the file.

        Where no match needs to know what other lines have, the rest of a file isn't looked at once
        so many lines have all parts.
        """
        if self.counts:
            return best(self.shown(lines), most)
        found: list[Shown] = []
        whole = 0
        for start in range(0, len(lines), PIECE_LINES):
            some = self._shown_of(list(self._hits(lines[start : start + PIECE_LINES], start)))
            found += some
            whole += sum(one.parts == len(self.parts) for one in some)
            if whole >= most:
                break
        return best(found, most)

    def _shown_of(self, hits: Hits) -> list[Shown]:
        marked: dict[int, dict[int, set[Hit]]] = {}  # the words of each part, by line
        for number, part in enumerate(self.parts):
            for match in self._matches(part, hits, self.scope):
                for hit in match.hits:
                    marked.setdefault(hit.line, {}).setdefault(number, set()).add(hit)
        return [_shown(line, marked[line]) for line in sorted(marked)]

    def _hits(self, lines: Iterable[bytes], first: int = 0) -> Iterator[Hit]:
        """The words of the query in a text, in its order; the number of its first line is given."""
        position = 1  # the token that begins the first line
        for number, line in enumerate(lines, first):
            place = position + 1
            if line.isascii():
                last = 0
                for found in self.in_ascii.finditer(line):
                    if self.counts:
                        place += len(WORD.findall(line, last, found.start()))
                    yield Hit(place, number, *found.span(), word_of(found.group()))
                    last = found.end()
                    place += 1
                if self.counts:
                    place += len(WORD.findall(line, last))
            else:
                # Letters beyond ASCII may fold to ASCII ones, so each word is looked at.
                for found in WORD.finditer(line):
                    word = word_of(found.group())
                    if word in self.wanted:
                        yield Hit(place, number, *found.span(), word)
                    place += 1
            position = place + 1

    # ---- matches of a unit

    def _matches(self, unit: Unit, hits: Hits, scope: Scope) -> list[Match]:
        if isinstance(unit, Line):
            return list(self._on_lines(unit, hits))
        if isinstance(unit, Near):
            return self._near(unit, hits, scope)
        may_break = isinstance(unit, Phrase) and scope is Scope.FILE
        return self._rows(unit.words, hits, may_break)

    def _rows(self, words: Sequence[Typed], hits: Hits, may_break: bool) -> list[Match]:
        """Where the words stand side by side, or with one line end between."""
        at = {hit.position: hit for hit in hits}
        found = []
        for hit in hits:
            row = self._row(words, hit, at, may_break)
            if row is not None:
                found.append(Match(row[0].position, row[-1].position, row))
        return found

    def _row(
        self, words: Sequence[Typed], first: Hit, at: dict[int, Hit], may_break: bool
    ) -> tuple[Hit, ...] | None:
        if first.word not in self.words[words[0]]:
            return None
        row = [first]
        for word in words[1:]:
            last = row[-1]
            hit = at.get(last.position + 1)
            if hit is None and may_break:
                hit = at.get(last.position + 3)
                if hit is not None and hit.line != last.line + 1:
                    hit = None
                may_break = False
            if hit is None or hit.word not in self.words[word]:
                return None
            row.append(hit)
        return tuple(row)

    def _near(self, near: Near, hits: Hits, scope: Scope) -> list[Match]:
        """What lies in a stretch with one of each, for each choice of how long those are."""
        units = [self._by_length(alternatives, hits, scope) for alternatives in near.units]
        room = sum(gap - 1 for gap in near.gaps)
        found: dict[tuple[Hit, ...], Match] = {}
        for choice in itertools.product(*(one.items() for one in units)):
            length = sum(words for words, _ in choice) + room
            for match in _in_stretches([matches for _, matches in choice], length):
                found[match.hits] = match
        return sorted(found.values())

    def _by_length(
        self, alternatives: Sequence[Row | Phrase], hits: Hits, scope: Scope
    ) -> dict[int, list[Match]]:
        found: dict[int, list[Match]] = {}
        for side in alternatives:
            found.setdefault(len(side.words), []).extend(self._matches(side, hits, scope))
        return {length: sorted(matches) for length, matches in found.items()}

    def _on_lines(self, unit: Line, hits: Hits) -> Iterator[Match]:
        """What is wanted in the lines for which the query holds."""
        wanted = list(_wanted_units(unit.query, True))
        for _, group in itertools.groupby(hits, lambda hit: hit.line):
            of_line = list(group)
            if self._holds(unit.query, of_line):
                for part in wanted:
                    yield from self._matches(part, of_line, Scope.LINE)

    def _holds(self, tree: Tree[Unit], of_line: Hits) -> bool:
        """Whether a query holds for a line."""
        if isinstance(tree, Not):
            return not self._holds(tree.part, of_line)
        if isinstance(tree, And):
            return all(self._holds(part, of_line) for part in tree.parts)
        if isinstance(tree, Or):
            return any(self._holds(part, of_line) for part in tree.parts)
        if isinstance(tree, Line):
            return self._holds(tree.query, of_line)
        return bool(self._matches(tree, of_line, Scope.LINE))


def _wanted_units(tree: Tree[Unit], is_wanted: bool) -> Iterator[Unit]:
    if isinstance(tree, Not):
        yield from _wanted_units(tree.part, not is_wanted)
    elif isinstance(tree, (And, Or)):
        for part in tree.parts:
            yield from _wanted_units(part, is_wanted)
    elif is_wanted:
        yield tree


def _needs_places(unit: Unit) -> bool:
    """Whether its matches depend on how many words stand between others, or before them."""
    if isinstance(unit, Line):
        return any(_needs_places(one) for one in _units_of(unit.query))
    return isinstance(unit, Near) or len(unit.words) > 1


def _units_of(tree: Tree[Unit]) -> Iterator[Unit]:
    """All units of a query, the excluded ones too."""
    if isinstance(tree, Not):
        yield from _units_of(tree.part)
    elif isinstance(tree, (And, Or)):
        for part in tree.parts:
            yield from _units_of(part)
    else:
        yield tree


def _whole_words(words: Iterable[bytes]) -> bytes:
    """What finds each of some words in a line of ASCII letters, where it is a whole word.

    A word that was cut is found by its beginning.
    """
    escaped = [
        re.escape(one) + (b"[0-9A-Za-z]*" if len(one) == WORD_MAX else b"") for one in words
    ]
    if not escaped:
        return b"(?!)"
    return rb"(?<![0-9A-Za-z])(?:%b)(?![0-9A-Za-z])" % b"|".join(escaped)


def _in_stretches(units: list[list[Match]], length: int) -> Iterator[Match]:
    """The matches that lie in a stretch of at most so many tokens which has one of each unit."""
    if not all(units):
        return
    starts = [[match.first for match in matches] for matches in units]
    ends = [_least_ends(matches) for matches in units]
    good = []  # the tokens at which such a stretch may begin
    for first in sorted(set(itertools.chain(*starts))):
        places = [bisect_left(some, first) for some in starts]
        if all(
            place < len(some) and some[place] < first + length for place, some in zip(places, ends)
        ):
            good.append(first)
    for match in itertools.chain(*units):
        place = bisect_right(good, match.first) - 1
        if place >= 0 and match.last < good[place] + length:
            yield match


def _least_ends(matches: list[Match]) -> list[int]:
    """For each match the least end of those from it on."""
    ends: list[int] = []
    for match in reversed(matches):
        ends.append(min(match.last, ends[-1]) if ends else match.last)
    return ends[::-1]


def _shown(line: int, parts: dict[int, set[Hit]]) -> Shown:
    spans = sorted({(hit.start, hit.end) for hits in parts.values() for hit in hits})
    return Shown(line + 1, tuple(spans), len(parts))


def best(lines: Sequence[Shown], most: int) -> list[Shown]:
    """Those with most parts of the query, the first of them, in the order of the file."""
    chosen = sorted(lines, key=lambda one: (-one.parts, one.number))[:most]
    return sorted(chosen, key=lambda one: one.number)
