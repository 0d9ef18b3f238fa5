"""From a query to the program's expressions, exactly.

A *place* of a unit is an expression whose extents lie in a file, or a line, exactly where the unit
holds there. Files have one extent each and lines lie apart, so that on them `>` is AND, `/>` is AND
NOT, and `+` is OR. Places may lie in each other, and then `+` drops the larger one; but what holds
the larger one holds the smaller one too.

How far apart words stand is asked by `/> [n]`, which is about lengths alone: `< [n]` asks for n
tokens around, which a shorter file hasn't.
"""

import itertools
from collections.abc import Iterator, Sequence
from dataclasses import dataclass

from .expression import (
    OPERATORS_MAX, WINDOW_MAX, Expression, Joined, Operator, Quoted, Scope, TooLong, Window, joined,
)  # fmt: skip
from .forms import Forms, Typed
from .tree import And, Line, Near, Not, Or, Phrase, Row, Side, Tree, Unit

LINE_START = Quoted(b"<line>")
LINE_END_TOKENS = 2  # the tag that ends a line, and the one that begins the next


@dataclass(frozen=True)
class Translation:
    """Translates with the words for which typed ones stand."""

    forms: Forms

    def kept(self, query: Tree[Unit], scope: Scope) -> Expression:
        """The files or lines for which a query holds."""
        return self._kept(scope, query, scope)

    def _kept(self, base: Expression, query: Tree[Unit], scope: Scope) -> Expression:
        """Those of the base for which it holds."""
        place = self._place(query, scope)
        if place is not None:
            return Joined(Operator.HOLDS, base, place)
        if isinstance(query, And):
            wanted = [part for part in query.parts if not isinstance(part, Not)]
            others = [part for part in query.parts if isinstance(part, Not)]
            for part in wanted + others:
                base = self._kept(base, part, scope)
            return base
        if isinstance(query, Or):
            either = self._either(query, scope)
            return either if base is scope else Joined(Operator.HOLDS, base, either)
        if isinstance(query, Not):
            return self._without(base, query.part, scope)
        raise TypeError("a unit has a place")

    def _either(self, query: "Or[Unit]", scope: Scope) -> Expression:
        """The files or lines for which one of the parts holds: places together, others alone."""
        places = [self._place(part, scope) for part in query.parts]
        found = [place for place in places if place is not None]
        parts = [Joined(Operator.HOLDS, scope, joined(Operator.EITHER, found))] if found else []
        others = [part for part, place in zip(query.parts, places) if place is None]
        return joined(Operator.EITHER, parts + [self.kept(part, scope) for part in others])

    def _without(self, base: Expression, query: Tree[Unit], scope: Scope) -> Expression:
        """Those of the base for which a query doesn't hold."""
        place = self._place(query, scope)
        if place is not None:
            return Joined(Operator.HOLDS_NO, base, place)
        if isinstance(query, Not):
            return self._kept(base, query.part, scope)
        if isinstance(query, Or):
            for part in query.parts:
                base = self._without(base, part, scope)
            return base
        return Joined(Operator.HOLDS_NO, base, self.kept(query, scope))

    # ---- places

    def _place(self, query: Tree[Unit], scope: Scope) -> Expression | None:
        """The places of a unit, or of units with OR between; None of anything else."""
        if isinstance(query, Or):
            places = [self._place(part, scope) for part in query.parts]
            found = [place for place in places if place is not None]
            return joined(Operator.EITHER, found) if len(found) == len(places) else None
        if isinstance(query, (Row, Phrase)):
            return self._side(query, scope)
        if isinstance(query, Near):
            return joined(Operator.EITHER, self._near(query, scope))
        if isinstance(query, Line):
            return self.kept(query.query, Scope.LINE)
        return None

    def _side(self, side: Side, scope: Scope) -> Expression:
        if isinstance(side, Row) or scope is Scope.LINE or len(side.words) == 1:
            return self._row(side.words)
        words = joined(Operator.THEN, [self._word(word) for word in side.words])
        over = _at_most(words, len(side.words) + LINE_END_TOKENS)
        over = Joined(Operator.HOLDS, over, LINE_START)
        return Joined(Operator.EITHER, self._row(side.words), over)

    def _row(self, words: Sequence[Typed]) -> Expression:
        """Words side by side: where each has one form a phrase of the language says it."""
        forms = [self.forms.of(word) for word in words]
        if all(len(some) == 1 for some in forms):
            return Quoted(b" ".join(some[0] for some in forms))
        if len(words) == 1:
            return self._word(words[0])
        return _at_most(joined(Operator.THEN, [self._word(word) for word in words]), len(words))

    def _word(self, word: Typed) -> Expression:
        return joined(Operator.EITHER, [Quoted(form) for form in self.forms.of(word)])

    def _near(self, near: Near, scope: Scope) -> Iterator[Expression]:
        """The stretches, for each choice of how many words the alternatives of a unit have."""
        by_length = [self._by_length(alternatives, scope) for alternatives in near.units]
        choices = 1
        for one in by_length:
            choices *= len(one)
        if choices > OPERATORS_MAX:
            raise TooLong(f"it takes more than {OPERATORS_MAX} operators")
        room = sum(gap - 1 for gap in near.gaps)
        for choice in itertools.product(*(one.items() for one in by_length)):
            both = joined(Operator.BOTH, [place for _, place in choice])
            yield _at_most(both, sum(length for length, _ in choice) + room)

    def _by_length(self, alternatives: Sequence[Side], scope: Scope) -> dict[int, Expression]:
        places: dict[int, list[Expression]] = {}
        for side in alternatives:
            places.setdefault(len(side.words), []).append(self._side(side, scope))
        return {length: joined(Operator.EITHER, some) for length, some in places.items()}


def _at_most(expression: Expression, tokens: int) -> Expression:
    """The extents that have no more tokens."""
    if tokens >= WINDOW_MAX:
        raise TooLong(f"it asks for stretches of more than {WINDOW_MAX - 1} tokens")
    return Joined(Operator.HOLDS_NO, expression, Window(tokens + 1))
