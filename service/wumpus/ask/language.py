"""What people type: a query, and the tree that it is read into.

    query  = and { ("OR" | "|") and }
    and    = not { ["AND"] not }
    not    = { "-" | "NOT" } near
    near   = unit { "NEAR" ["/" n] unit }
    unit   = term | term "*" | '"' text '"' | "(" query ")" | "line:(" query ")" | filter
    filter = ("in:" | "name:" | "ext:" | "path:") (value { "," value } | '"' value '"')

What can't be asked is a `Fault`, which says where and what to write.
"""

import re
from collections.abc import Iterator

from ..shared.words import WORD
from .tokens import BLANK, BLANKS, QUOTES, Kind, Reader, Token
from .tree import (
    And, Fault, Filter, Leaf, Line, Mixed, Near, Not, Or, Phrase, Prefix, Question, Row, Side, Span,
    Tree, Unit, Word, text_of,
)  # fmt: skip

QUERY_BYTES = 4096
DEPTH = 32  # parentheses and NOTs in each other
PREFIX_BYTES = 3  # what is shorter begins so many words that looking them up is dear for all

_STARRED = re.compile(rb"[^*]*?([0-9A-Za-z\x80-\xff]+)\*", re.DOTALL)
_ALIKE = re.compile(rb"[0-9A-Za-z\x80-\xff]~[0-9.]*$")
_NEEDS_NO_QUOTES = re.compile(rb"[0-9A-Za-z_./+@%-]+")
_STAR_IN_QUOTES = re.compile(rb"[0-9A-Za-z\x80-\xff]\*")
_BESIDE = "in: name: ext: path: stand beside the words, and not in an OR or a - with them"
_AROUND_NEAR = "NEAR stands between words, phrases, and (this OR that)"
_NO_STAR = "a * stands at the end of a word, and nothing else stands for letters"


def quoted(value: bytes) -> bytes | None:
    """A value as a filter has it; None where it has a quote, which no filter can have."""
    if QUOTES.search(value):
        return None
    return value if _NEEDS_NO_QUOTES.fullmatch(value) else b'"%b"' % value


class _Parser:
    """Reads tokens into a tree, by a method for each rule of the grammar."""

    def __init__(self, query: bytes) -> None:
        self.tokens = list(Reader(query).tokens())
        self.end = len(query)
        self.at = 0
        self.depth = 0

    def whole(self) -> Tree[Mixed]:
        """All of it."""
        tree = self._query()
        if self.at < len(self.tokens):
            raise Fault("this ) closes nothing", self.tokens[self.at].span)
        return tree

    def _kind(self) -> Kind | None:
        return self.tokens[self.at].kind if self.at < len(self.tokens) else None

    def _take(self) -> Token:
        if self.at == len(self.tokens):
            raise Fault("something is missing at the end", Span(self.end, self.end))
        self.at += 1
        return self.tokens[self.at - 1]

    def _query(self) -> Tree[Mixed]:
        parts = [self._and()]
        while self._kind() is Kind.OR:
            self._take()
            parts.append(self._and())
        return parts[0] if len(parts) == 1 else Or(tuple(parts))

    def _and(self) -> Tree[Mixed]:
        parts = [self._not()]
        while self._kind() not in (None, Kind.CLOSE, Kind.OR):
            if self._kind() is Kind.AND:
                self._take()
            parts.append(self._not())
        return parts[0] if len(parts) == 1 else And(tuple(parts))

    def _not(self) -> Tree[Mixed]:
        if self._kind() is not Kind.NOT:
            return self._near()
        self._deeper(self._take())
        part = self._not()
        self.depth -= 1
        return Not(part)

    def _near(self) -> Tree[Mixed]:
        start = self.at
        first = self._unit()
        if self._kind() is not Kind.NEAR:
            return first
        units = [self._side(first, start)]
        gaps = []
        while self._kind() is Kind.NEAR:
            gaps.append(self._take().gap)
            place = self.at
            if self._kind() in (Kind.NOT, Kind.LINE, Kind.FILTER):
                raise Fault(_AROUND_NEAR, self.tokens[place].span)
            units.append(self._side(self._unit(), place))
        return Near(tuple(units), tuple(gaps), self._span_from(start))

    def _span_from(self, start: int) -> Span:
        """The bytes of the tokens from that one on which were taken."""
        return Span(self.tokens[start].span.start, self.tokens[self.at - 1].span.end)

    def _side(self, tree: Tree[Mixed], start: int) -> tuple[Side, ...]:
        """The alternatives of a unit of NEAR."""
        if isinstance(tree, (Row, Phrase)):
            return (tree,)
        if isinstance(tree, Or):
            return tuple(side for part in tree.parts for side in self._side(part, start))
        raise Fault(_AROUND_NEAR, self._span_from(start))

    def _unit(self) -> Tree[Mixed]:
        token = self._take()
        if token.kind is Kind.TERM:
            return _row_of(token)
        if token.kind is Kind.QUOTED:
            return _phrase_of(token)
        if token.filter is not None:
            return token.filter
        if token.kind is Kind.OPEN:
            return self._group(token)
        if token.kind is Kind.LINE:
            start = self.at - 1
            within = _without_filters(self._group(token))
            return Line(within, self._span_from(start))
        raise Fault("something is missing before this", token.span)

    def _group(self, opening: Token) -> Tree[Mixed]:
        """What stands up to the parenthesis that closes."""
        self._deeper(opening)
        if self._kind() is None:
            raise Fault("this ( is never closed", _last_byte_of(opening.span))
        within = self._query()
        if self._kind() is not Kind.CLOSE:
            raise Fault("this ( is never closed", _last_byte_of(opening.span))
        self._take()
        self.depth -= 1
        return within

    def _deeper(self, token: Token) -> None:
        self.depth += 1
        if self.depth > DEPTH:
            message = f"more than {DEPTH} parentheses and - stand in each other here"
            raise Fault(message, token.span)


def _last_byte_of(span: Span) -> Span:
    return Span(span.end - 1, span.end)


def _words_in(text: bytes, start: int, span: Span) -> tuple[Word, ...]:
    """The words of a text that begins at that byte of the query. Raises `Fault` if it has none."""
    words = tuple(
        Word(found.group(), Span(start + found.start(), start + found.end()))
        for run in _between_blanks(text)
        for found in WORD.finditer(text, run.start, run.end)
    )
    if not words:
        raise Fault(f"{text_of(text) or 'this'} has no letter or digit", span)
    return words


def _between_blanks(text: bytes) -> Iterator[Span]:
    """The pieces between blanks: those that don't break would be parts of words."""
    start = 0
    for blank in re.finditer(BLANK, text):
        yield Span(start, blank.start())
        start = blank.end()
    yield Span(start, len(text))


def _row_of(token: Token) -> Row:
    text = token.text
    if _ALIKE.search(text):
        message = "there is no search for words that are alike: write plan*, or a OR b"
        raise Fault(message, token.span)
    words = _words_in(text, token.span.start, token.span) if b"*" not in text else ()
    return Row(words or _starred(text, token.span), token.span)


def _starred(text: bytes, span: Span) -> tuple[Word | Prefix, ...]:
    """The words of a term with a star: the last one stands for those that begin so."""
    starred = _STARRED.fullmatch(text)
    if starred is None:
        raise Fault(_NO_STAR, span)
    if len(starred[1]) < PREFIX_BYTES:
        raise too_short(span)
    *before, last = _words_in(text, span.start, span)
    return (*before, Prefix(last.text, Span(last.span.start, span.end)))


def too_short(span: Span) -> Fault:
    """What is said of a prefix that too many words may begin with."""
    return Fault(f"before a * stand at least {PREFIX_BYTES} letters", span)


def _phrase_of(token: Token) -> Phrase:
    star = _STAR_IN_QUOTES.search(token.text)
    if star is not None:
        message = "a * can't stand in quotes: plan* alone stands for words"
        raise Fault(message, token.span)
    # The quote before the text has one byte or three; spans of words tell no more than a column.
    start = token.span.end - len(token.text) - 1
    return Phrase(_words_in(token.text, start, token.span), token.span)


# ---- texts and paths


def _filters_in(tree: Tree[Mixed]) -> Iterator[Filter]:
    if isinstance(tree, Filter):
        yield tree
    elif isinstance(tree, Not):
        yield from _filters_in(tree.part)
    elif isinstance(tree, (And, Or)):
        for part in tree.parts:
            yield from _filters_in(part)


def _without_filters(tree: Tree[Mixed]) -> Tree[Unit]:
    """The same tree, of texts alone. Raises `Fault` where a filter is in it."""
    if isinstance(tree, Filter):
        raise Fault(_BESIDE, tree.span)
    if isinstance(tree, Not):
        return Not(_without_filters(tree.part))
    if isinstance(tree, And):
        return And(tuple(_without_filters(part) for part in tree.parts))
    if isinstance(tree, Or):
        return Or(tuple(_without_filters(part) for part in tree.parts))
    return tree


def _of_filters(tree: Tree[Mixed], filter_: Filter) -> Tree[Filter]:
    """The same tree, of filters alone. Raises `Fault` at a filter of it where it has others."""
    if isinstance(tree, Filter):
        return tree
    if isinstance(tree, Not):
        return Not(_of_filters(tree.part, filter_))
    if isinstance(tree, And):
        return And(tuple(_of_filters(part, filter_) for part in tree.parts))
    if isinstance(tree, Or):
        return Or(tuple(_of_filters(part, filter_) for part in tree.parts))
    raise Fault(_BESIDE, filter_.span)


def read(query: bytes) -> Question:
    """What a query asks. Raises `Fault`."""
    if len(query) > QUERY_BYTES:
        message = f"the query is too long: it has {len(query)} bytes of at most {QUERY_BYTES}"
        raise Fault(message, Span(QUERY_BYTES, len(query)))
    if BLANKS.fullmatch(query):
        raise Fault("there is nothing to look for", Span(0, len(query)))
    tree = _Parser(query).whole()
    texts: list[Tree[Unit]] = []
    paths: list[Tree[Filter]] = []
    for part in tree.parts if isinstance(tree, And) else (tree,):
        filter_ = next(_filters_in(part), None)
        if filter_ is None:
            texts.append(_without_filters(part))
        else:
            paths.append(_of_filters(part, filter_))
    return Question(query, _all_of(texts), _all_of(paths))


def _all_of(parts: "list[Tree[Leaf]]") -> "Tree[Leaf] | None":
    if not parts:
        return None
    return parts[0] if len(parts) == 1 else And(tuple(parts))


def any_of(question: Question) -> Question:
    """The same, with one of the words in place of all. What is excluded stays so."""
    if not isinstance(question.texts, And):
        return question
    wanted = [part for part in question.texts.parts if not isinstance(part, Not)]
    others = [part for part in question.texts.parts if isinstance(part, Not)]
    if len(wanted) > 1:
        wanted = [Or(tuple(wanted))]
    return Question(question.typed, _all_of(wanted + others), question.paths)


def is_plain(argument: bytes) -> bool:
    """Whether an argument has several words and no syntax, so that it is meant as a phrase."""
    try:
        tokens = list(Reader(argument).tokens())
    except Fault:
        return False
    are_terms = all(one.kind is Kind.TERM and b"*" not in one.text for one in tokens)
    return are_terms and len(tokens) > 1
