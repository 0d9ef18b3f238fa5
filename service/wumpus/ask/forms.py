"""The words of her files for which a typed word stands.

A typed word stands for itself, for its composed and decomposed forms, and for the words that are
it with typographic marks: bytes of 0x80 and above belong to words, so that a text's `“budget` and
`budget—then` are words of their own. A word counts as `budget` where, after at most one mark in
front, it is `budget`, or `budget` and a mark and anything. A prefix stands for all words that
begin with it, after at most one mark in front.

Which words there are is asked of the service, so they are those of her files alone.
"""

import unicodedata
from collections.abc import Callable, Iterable, Iterator, Sequence
from dataclasses import dataclass, field
from enum import Enum, auto

from ..shared.words import WORD, word_of
from .language import PREFIX_BYTES, too_short
from .tree import (
    And, Fault, Line, Near, Not, Or, Phrase, Prefix, Row, Span, Tree, Unit, Word, text_of,
)  # fmt: skip

WORDS_MAX = 64  # for which a prefix may stand
MARKED_MAX = 16  # words with a mark of one kind, beside a typed one
LISTED = 256  # of the words with a prefix, among which those with marks are looked for
ASKED_WORDS = 64  # different typed words of a query

# Marks that stand behind a word: U+2010 to U+203A, and those of the first 256 characters and of
# Chinese and Japanese. The others are those that also stand before one.
_GENERAL = tuple(chr(code).encode() for code in range(0x2010, 0x203B))
_FIRST = tuple(one.encode() for one in "\u00a0\u00a1\u00ab\u00bb\u00bf")
_IDEOGRAPHIC = tuple(one.encode() for one in "\u3001\u3002")
MARKS = (*_GENERAL, *_FIRST, *_IDEOGRAPHIC)
FRONT_MARKS = tuple(one.encode() for one in "‘’“„«–—…•\u00a0¿")
_BEGINNINGS = (b"\xe2\x80", b"\xc2", b"\xe3\x80")  # with which all marks begin

Typed = Word | Prefix
Listing = tuple[int, Sequence[tuple[bytes, int]]]  # how many words, and the first, with files
Lookup = Callable[[Sequence[bytes], int], Iterable[Listing]]


class Marks(Enum):
    """Whether words with typographic marks count as the words without."""

    COUNTED = auto()
    LEFT_OUT = auto()


@dataclass
class Forms:
    """For each typed word the words for which it stands, and what wasn't looked at."""

    words: dict[Typed, tuple[bytes, ...]] = field(default_factory=dict)
    notes: list[str] = field(default_factory=list)

    def of(self, word: Typed) -> tuple[bytes, ...]:
        """The words, the typed one first."""
        return self.words.get(word, (word.text,))


def typed_in(tree: Tree[Unit]) -> Iterator[Typed]:
    """The typed words of a query, in its order."""
    if isinstance(tree, (Row, Phrase)):
        yield from tree.words
    elif isinstance(tree, Near):
        for alternatives in tree.units:
            for side in alternatives:
                yield from side.words
    elif isinstance(tree, Line):
        yield from typed_in(tree.query)
    elif isinstance(tree, Not):
        yield from typed_in(tree.part)
    elif isinstance(tree, (And, Or)):
        for part in tree.parts:
            yield from typed_in(part)


def composed(word: bytes) -> tuple[bytes, ...]:
    """The word as typed, and its composed and decomposed forms where they are others."""
    if word.isascii():
        return (word,)
    text = text_of(word)
    both = (unicodedata.normalize(form, text) for form in ("NFC", "NFD"))
    forms = (word, *(one.encode("utf-8", "surrogateescape") for one in both))
    # A letter may be decomposed into one that parts words, as the sign for "is not equal".
    return tuple(dict.fromkeys(one for one in forms if WORD.fullmatch(one)))


def find_forms(tree: Tree[Unit], marks: Marks, lookup: Lookup) -> Forms:
    """Looks the words of a query up. Raises `Fault` where a prefix stands for too many."""
    typed = list(dict.fromkeys(typed_in(tree)))
    if len(typed) > ASKED_WORDS:
        message = f"the query is too long: it has {len(typed)} words of at most {ASKED_WORDS}"
        raise Fault(message, typed[ASKED_WORDS].span)
    found = Forms()
    for word in typed:
        if isinstance(word, Prefix):
            found.words[word] = _words_with(word, marks, lookup)
        else:
            found.words[word] = _forms_of(word, marks, lookup, found.notes)
    return found


def _words_with(prefix: Prefix, marks: Marks, lookup: Lookup) -> tuple[bytes, ...]:
    """The words that begin with a prefix; the prefix itself where there are none."""
    forms = composed(prefix.text)
    if any(len(word_of(form)) < PREFIX_BYTES for form in forms):
        raise too_short(prefix.span)
    fronts = FRONT_MARKS if marks is Marks.COUNTED else ()
    prefixes = [*forms, *(front + form for form in forms for front in fronts)]
    count = 0
    words: dict[bytes, None] = {}
    for total, listed in lookup(prefixes, WORDS_MAX):
        count += total
        words.update((word, None) for word, _ in listed)
    if max(count, len(words)) > WORDS_MAX:
        raise _too_many(prefix.text, count, prefix.span)
    return tuple(words) or (prefix.text,)


def _too_many(prefix: bytes, count: int, span: Span) -> Fault:
    return Fault(
        f"{count} of your words begin with {text_of(prefix)}, which is more than can be asked for "
        "at once: write more letters",
        span,
    )


def _forms_of(word: Word, marks: Marks, lookup: Lookup, notes: list[str]) -> tuple[bytes, ...]:
    forms = composed(word.text)
    if marks is Marks.LEFT_OUT:
        return forms
    words = dict.fromkeys(forms)
    prefixes = {one: form for form in forms for one in _marked(form)}
    for prefix, (total, listed) in zip(prefixes, lookup(list(prefixes), LISTED)):
        form = word_of(prefixes[prefix])
        some = [one for one, _ in listed if counts_as(one, form)]
        if total > LISTED or len(some) > MARKED_MAX:
            notes.append(f"words that begin with {text_of(prefix)} aren't looked at: too many do")
        else:
            words.update(dict.fromkeys(some))
    return tuple(words)


def _marked(form: bytes) -> Iterator[bytes]:
    """The prefixes of the words that are this one with marks; none is so short that it is dear."""
    for front in FRONT_MARKS:
        yield front + form
    for beginning in _BEGINNINGS:
        if len(word_of(form)) + len(beginning) >= PREFIX_BYTES:
            yield form + beginning
        else:
            yield from (form + mark for mark in _FIRST)


def counts_as(word: bytes, form: bytes) -> bool:
    """Whether a word of the index is this folded form with marks."""
    return any(
        word.startswith(front + form) and _ends_or_goes_on_by_mark(word[len(front + form) :])
        for front in (b"", *FRONT_MARKS)
    )


def _ends_or_goes_on_by_mark(rest: bytes) -> bool:
    return not rest or rest.startswith(MARKS)
