"""A query in tokens: signs, words in capitals, quotes, terms and filters."""

import re
from collections.abc import Iterator
from dataclasses import dataclass
from enum import Enum, auto

from ..shared.words import WORD
from .tree import Fault, Filter, Span, Subject, text_of

GAP = 10  # of a NEAR without a number
GAP_MAX = 1000

BLANK = rb"(?:[ \t\n\v\f\r]|\xc2\xa0|\xe2\x80\xaf)"  # with both spaces that don't break
_QUOTE = rb'(?:"|\xe2\x80[\x9c-\x9f])'  # with the typographic ones
BLANKS = re.compile(BLANK + rb"*")
QUOTES = re.compile(_QUOTE)
_TERM = re.compile(rb"(?:(?!%b|%b)[^()|])+" % (BLANK, _QUOTE), re.DOTALL)
_NAMED = re.compile(rb"([A-Za-z]+):", re.DOTALL)
_NEAR = re.compile(rb"NEAR(?:/(.*))?", re.DOTALL)
_SUBJECTS = {one.value.encode(): one for one in Subject}


class Kind(Enum):
    """What a token is."""

    OPEN = auto()
    CLOSE = auto()
    LINE = auto()
    OR = auto()
    AND = auto()
    NOT = auto()
    NEAR = auto()
    QUOTED = auto()
    TERM = auto()
    FILTER = auto()


@dataclass(frozen=True)
class Token:
    """A token: its place in the query, and what its kind has. `gap` is that of a NEAR."""

    kind: Kind
    span: Span
    text: bytes = b""
    gap: int = GAP
    filter: Filter | None = None


_SIGNS = {b"(": Kind.OPEN, b")": Kind.CLOSE, b"|": Kind.OR}
_OPERATORS = {b"AND": Kind.AND, b"OR": Kind.OR, b"NOT": Kind.NOT}


class Reader:
    """Cuts a query into tokens."""

    def __init__(self, query: bytes) -> None:
        self.query = query
        self.at = 0

    def tokens(self) -> Iterator[Token]:
        """All tokens. Raises `Fault`."""
        stands_free = True  # a blank or an opening is before
        while True:
            start = self.at
            self._skip_blanks()
            stands_free = stands_free or self.at > start
            if self.at == len(self.query):
                return
            token = self._next(stands_free)
            stands_free = token.kind in (Kind.OPEN, Kind.LINE, Kind.OR)
            yield token

    def _skip_blanks(self) -> None:
        found = BLANKS.match(self.query, self.at)
        self.at = found.end() if found else self.at

    def _next(self, stands_free: bool) -> Token:
        start = self.at
        sign = self.query[start : start + 1]
        if sign in _SIGNS:
            self.at += 1
            return Token(_SIGNS[sign], Span(start, self.at))
        if QUOTES.match(self.query, start):
            text = self._quoted()
            return Token(Kind.QUOTED, Span(start, self.at), text)
        if sign == b"-" and stands_free and self._goes_on(start + 1):
            self.at += 1
            return Token(Kind.NOT, Span(start, self.at))
        return self._term()

    def _goes_on(self, at: int) -> bool:
        """Whether something stands here that isn't a blank or the end of a group."""
        rest = self.query[at : at + 3]
        return rest[:1] not in (b"", b")", b"|") and not re.match(BLANK, rest)

    def _quoted(self) -> bytes:
        """What stands between the quote here and the next one."""
        opening = QUOTES.match(self.query, self.at)
        start = opening.end() if opening else self.at
        closing = QUOTES.search(self.query, start)
        if closing is None:
            span = Span(self.at, start)
            raise Fault("a quote is open: a phrase stands between two", span)
        self.at = closing.end()
        return self.query[start : closing.start()]

    def _term(self) -> Token:
        start = self.at
        found = _TERM.match(self.query, start)
        self.at = found.end() if found else start + 1
        text = self.query[start : self.at]
        span = Span(start, self.at)
        if text in _OPERATORS:
            return Token(_OPERATORS[text], span, text)
        near = _NEAR.fullmatch(text)
        if near is not None:
            return Token(Kind.NEAR, span, text, gap=_gap_of(near[1], span))
        named = _NAMED.match(text)
        if named is not None:
            return self._named(named[1], text[named.end() :], span)
        return Token(Kind.TERM, span, text)

    def _named(self, name: bytes, rest: bytes, span: Span) -> Token:
        """A filter, `line:(`, or a text with a colon in it."""
        joined = re.compile(rb"\(|" + _QUOTE).match(self.query, self.at)
        if name == b"line":
            if rest or joined is None or joined.group() != b"(":
                raise Fault("line: stands before a parenthesis: line:(budget lunch)", span)
            self.at += 1
            return Token(Kind.LINE, Span(span.start, self.at))
        if name in _SUBJECTS:
            filter_ = self._filter(name, rest, span, joined is not None)
            return Token(Kind.FILTER, filter_.span, filter=filter_)
        is_field = WORD.match(rest) is not None if rest else joined is not None
        if is_field:
            told = text_of(name)
            raise Fault(
                f"there is no {told}: here, but in: name: ext: path: line:(..). "
                f'As text: "{told} .."',
                span,
            )
        return Token(Kind.TERM, span, name + b":" + rest)

    def _filter(self, name: bytes, rest: bytes, span: Span, is_joined: bool) -> Filter:
        told = text_of(name)
        if is_joined and (rest or self.query[self.at : self.at + 1] == b"("):
            raise Fault(f'a value with blanks or parentheses stands in quotes: {told}:".."', span)
        values = (self._quoted(),) if is_joined else tuple(filter(None, rest.split(b",")))
        if not any(values):
            raise Fault(f"{told}: stands before a value, without a blank: {told}:..", span)
        return Filter(_SUBJECTS[name], values, Span(span.start, self.at))


def _gap_of(number: bytes | None, span: Span) -> int:
    if number is None:
        return GAP
    if re.fullmatch(rb"[0-9]{1,4}", number) is None or not 1 <= int(number) <= GAP_MAX:
        raise Fault(f"after NEAR/ stands a number from 1 to {GAP_MAX}", span)
    return int(number)
