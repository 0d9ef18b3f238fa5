"""What a query says: a tree of small types, and what can't be asked.

A query is bytes, since names of files and words needn't be UTF-8.
"""

from dataclasses import dataclass, field
from enum import Enum
from typing import Generic, TypeVar, Union

Leaf = TypeVar("Leaf")


@dataclass(frozen=True)
class Span:
    """Some bytes of the query: from `start` to before `end`."""

    start: int
    end: int


class Fault(Exception):
    """A query that can't be asked: what to write, and which bytes are at fault."""

    def __init__(self, message: str, span: Span) -> None:
        super().__init__(message)
        self.message = message
        self.span = span


@dataclass(frozen=True)
class Word:
    """A word as it was typed."""

    text: bytes
    span: Span = field(compare=False)


@dataclass(frozen=True)
class Prefix:
    """What was typed before a `*`: it stands for the words that begin so."""

    text: bytes
    span: Span = field(compare=False)


@dataclass(frozen=True)
class Row:
    """Words side by side on one line."""

    words: tuple[Word | Prefix, ...]
    span: Span = field(compare=False)


@dataclass(frozen=True)
class Phrase:
    """Words side by side, perhaps over one line end."""

    words: tuple[Word, ...]
    span: Span = field(compare=False)


Side = Union[Row, Phrase]


@dataclass(frozen=True)
class Near:
    """One of each of the units, each with its alternatives, in a stretch; a gap for each NEAR."""

    units: tuple[tuple[Side, ...], ...]
    gaps: tuple[int, ...]
    span: Span = field(compare=False)


@dataclass(frozen=True)
class Line:
    """A line for which a query holds."""

    query: "Tree[Unit]"
    span: Span = field(compare=False)


class Subject(Enum):
    """What of a path a filter looks at."""

    IN = "in"
    NAME = "name"
    EXTENSION = "ext"
    PATH = "path"


@dataclass(frozen=True)
class Filter:
    """A condition on paths: one of the values fits."""

    subject: Subject
    values: tuple[bytes, ...]
    span: Span = field(compare=False)


@dataclass(frozen=True)
class And(Generic[Leaf]):
    """All of two or more parts."""

    parts: tuple["Tree[Leaf]", ...]


@dataclass(frozen=True)
class Or(Generic[Leaf]):
    """One of two or more parts."""

    parts: tuple["Tree[Leaf]", ...]


@dataclass(frozen=True)
class Not(Generic[Leaf]):
    """All but what is in the part."""

    part: "Tree[Leaf]"


Unit = Union[Row, Phrase, Near, Line]
Tree = Union[Leaf, And[Leaf], Or[Leaf], Not[Leaf]]
Mixed = Union[Unit, Filter]


@dataclass(frozen=True)
class Question:
    """What is asked: of texts, of paths, or of both."""

    typed: bytes
    texts: Tree[Unit] | None
    paths: Tree[Filter] | None


def text_of(some: bytes) -> str:
    """The bytes as text; those that are no UTF-8 as surrogates."""
    return some.decode("utf-8", "surrogateescape")
