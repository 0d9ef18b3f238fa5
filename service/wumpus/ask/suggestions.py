"""Words of her files that somebody may have meant, and those with which a word goes on.

Both come from `terms` and `top`, so no word of a file that she may not read is among them.
"""

import string
import time
from collections.abc import Iterator

from ..shared.words import WORD, word_of
from .asking import Asking
from .language import PREFIX_BYTES
from .tree import text_of

SECONDS = 0.5  # in which words are looked for
SUGGESTED = 3
LONG = 6  # letters from which on two slips are looked for
LISTED = 1000  # words that begin with the same letters
COMPLETED = 20


def suggestions(typed: bytes, asking: Asking) -> list[bytes]:
    """The words one slip away, in long ones two: the nearest first, then those of more files.

    It stops after a while, so that it is a help and no promise.
    """
    until = time.monotonic() + SECONDS
    word = text_of(word_of(typed))
    slips = 2 if len(word) >= LONG else 1
    found: dict[bytes, tuple[int, int, bytes]] = {}
    for front in dict.fromkeys(fronts_of(word)):
        beginning = front.encode("utf-8", "surrogateescape")
        if time.monotonic() > until:
            break
        if len(word_of(beginning)) < PREFIX_BYTES:
            continue
        _, *listed = asking.ask(b"top", LISTED, beginning)
        for other, files in listed:
            distance = slips_between(word, text_of(other), slips)
            if 0 < distance <= slips and text_of(other).isprintable():
                found[other] = (distance, -int(files), other)
    return [other for _, _, other in sorted(found.values())[:SUGGESTED]]


def fronts_of(word: str) -> Iterator[str]:
    """The first three letters of words that may have been meant, the likely ones first."""
    if len(word) < PREFIX_BYTES:
        return
    three = range(PREFIX_BYTES)
    yield word[:3]
    for place in three:
        swapped = word[:place] + word[place + 1 : place + 2] + word[place : place + 1]
        yield (swapped + word[place + 2 :])[:3]
    for place in three:
        yield (word[:place] + word[place + 1 :])[:3]
    for place in three:
        for letter in string.ascii_lowercase:
            yield (word[:place] + letter + word[place:])[:3]
            yield (word[:place] + letter + word[place + 1 :])[:3]


def slips_between(one: str, other: str, most: int) -> int:
    """How many letters are wrong, missing, too many, or swapped with the next one.

    Where there are more than `most`, any number above that.
    """
    if abs(len(one) - len(other)) > most:
        return most + 1
    before: list[int] = []
    row = list(range(len(other) + 1))
    for place, letter in enumerate(one, 1):
        above, before, row = before, row, [place]
        for at, its in enumerate(other, 1):
            cost = min(before[at] + 1, row[at - 1] + 1, before[at - 1] + (letter != its))
            if place > 1 and at > 1 and letter == other[at - 2] and one[place - 2] == its:
                cost = min(cost, above[at - 2] + 1)
            row.append(cost)
        if min(row) > most and min(before) > most:
            return most + 1
    return row[-1]


def completions(typed: bytes, asking: Asking) -> list[bytes]:
    """What was typed with its last word completed, for the completions of a shell."""
    last = None
    for last in WORD.finditer(typed):
        pass
    if last is None or last.end() < len(typed) or len(word_of(last.group())) < PREFIX_BYTES:
        return []
    _, *words = asking.ask(b"top", COMPLETED, last.group())
    front = typed[: last.start()]
    return [front + word for word, _ in words if text_of(word).isprintable()]
