"""The words of a text, as the language cuts them, and where they stand."""

import re
from collections.abc import Iterator

WORD = re.compile(rb"[0-9A-Za-z\x80-\xff]+")
WORD_MAX = 64
WORDS_OF_RANKING = 64


def word_of(run: bytes) -> bytes:
    """The word of a run: the text at its front folded, in the rest ASCII letters lowered.

    It is cut to 64 bytes.
    Python folds by its own version of Unicode, which may not know the newest letters.
    """
    if run.isascii():
        return run[:WORD_MAX].lower()
    try:
        text, rest = run.decode(), b""
    except UnicodeDecodeError as fault:
        text, rest = run[: fault.start].decode(), run[fault.start :]
    return (text.casefold().encode() + rest.lower())[:WORD_MAX]


def words_of(text: bytes) -> list[bytes]:
    """The words of a text."""
    return [word_of(found.group()) for found in WORD.finditer(text)]


def spans_of(line: bytes, wanted: frozenset[bytes]) -> Iterator[tuple[int, int]]:
    """Where a line has one of some words."""
    for found in WORD.finditer(line):
        if word_of(found.group()) in wanted:
            yield found.span()
