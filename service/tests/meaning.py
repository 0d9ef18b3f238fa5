"""What a query means, told without expressions: by trying all tokens of all files.

Nothing here is taken from the translation or from the lookup of words, so that a wrong one shows.
"""

import re
import unicodedata
from collections.abc import Iterator, Sequence
from dataclasses import dataclass
from functools import cached_property
from itertools import product

from wumpus.ask.tree import (
    And, Filter, Line, Near, Not, Or, Phrase, Prefix, Row, Subject, Tree, Unit, Word,
)  # fmt: skip

FILE, END_OF_FILE, LINE, END_OF_LINE = b"<file>", b"</file>", b"<line>", b"</line>"
RUN = re.compile(rb"[0-9A-Za-z\x80-\xff]+")
BEFORE = [one.encode() for one in "‘’“„«–—…•\u00a0¿"]
BEHIND = [chr(code).encode() for code in (*range(0x2010, 0x203B), 0xA0, 0xA1, 0xAB, 0xBB, 0xBF)]
BEHIND += ["\u3001".encode(), "\u3002".encode()]

Tokens = Sequence[bytes]
Typed = Word | Prefix


def folded(run: bytes) -> bytes:
    """The word of a run."""
    good = run
    while True:
        try:
            text = good.decode("utf-8")
            break
        except UnicodeDecodeError:
            good = good[:-1]
    rest = run[len(good) :]
    lowered = bytes(one + 32 if 65 <= one <= 90 else one for one in rest)
    return (text.casefold().encode() + lowered)[:64]


def lines_of(text: bytes) -> list[bytes]:
    """The lines of a text."""
    lines = text.split(b"\n")
    return lines[:-1] if lines[-1] == b"" else lines


def tokens_of(text: bytes) -> list[bytes]:
    """The tokens of a text."""
    tokens = [FILE]
    for line in lines_of(text):
        tokens += [LINE, *map(folded, RUN.findall(line)), END_OF_LINE]
    return [*tokens, END_OF_FILE]


def spellings(word: bytes) -> set[bytes]:
    """The folded words that are a typed one in its composed or decomposed form."""
    text = word.decode("utf-8", "surrogateescape")
    forms = {word}
    if any(byte >= 0x80 for byte in word):
        forms |= {
            unicodedata.normalize(form, text).encode("utf-8", "surrogateescape")
            for form in ("NFC", "NFD")
        }
    return {folded(form) for form in forms if len(RUN.findall(form)) == 1}


def stands_for(typed: Typed, token: bytes) -> bool:
    """Whether a token counts as a typed word."""
    if token in (FILE, END_OF_FILE, LINE, END_OF_LINE):
        return False
    rests = [token, *(token[len(mark) :] for mark in BEFORE if token.startswith(mark))]
    for form in spellings(typed.text):
        for rest in rests:
            if not rest.startswith(form):
                continue
            behind = rest[len(form) :]
            if isinstance(typed, Prefix) or behind == b"":
                return True
            if any(behind.startswith(mark) for mark in BEHIND):
                return True
    return False


Stretch = tuple[int, int]  # the first and the last token


def sides(side: Row | Phrase, tokens: Tokens, may_break: bool) -> list[list[int]]:
    """The tokens of each place where the words stand in a row, perhaps over one line end."""
    found = []
    count = len(side.words)
    shapes = [[1] * (count - 1)]
    if may_break and isinstance(side, Phrase):
        shapes += [
            [3 if place == broken else 1 for place in range(count - 1)]
            for broken in range(count - 1)
        ]
    for first in range(len(tokens)):
        for steps in shapes:
            places = [first]
            for step in steps:
                places.append(places[-1] + step)
            if places[-1] >= len(tokens):
                continue
            if 3 in steps:
                end = places[steps.index(3)] + 1
                if list(tokens[end : end + 2]) != [END_OF_LINE, LINE]:
                    continue
            if all(stands_for(word, tokens[at]) for word, at in zip(side.words, places)):
                found.append(places)
    return found


def nears(near: Near, tokens: Tokens, may_break: bool) -> list[list[int]]:
    """The tokens of the words of each stretch that has one of each unit and is short enough."""
    options = [
        [(len(side.words), places) for side in unit for places in sides(side, tokens, may_break)]
        for unit in near.units
    ]
    found = []
    for choice in product(*options):
        first = min(places[0] for _, places in choice)
        last = max(places[-1] for _, places in choice)
        room = sum(words for words, _ in choice) + sum(gap - 1 for gap in near.gaps)
        if last - first + 1 <= room:
            found.append(sorted({at for _, places in choice for at in places}))
    return found


def lines_in(tokens: Tokens) -> Iterator[tuple[int, Tokens]]:
    """The lines among tokens, each with its place."""
    start = 0
    for place, token in enumerate(tokens):
        if token == LINE:
            start = place
        elif token == END_OF_LINE:
            yield start, tokens[start : place + 1]


def holds(tree: Tree[Unit], tokens: Tokens, is_line: bool) -> bool:
    """Whether a query holds for a file, or a line."""
    if isinstance(tree, Not):
        return not holds(tree.part, tokens, is_line)
    if isinstance(tree, And):
        return all(holds(part, tokens, is_line) for part in tree.parts)
    if isinstance(tree, Or):
        return any(holds(part, tokens, is_line) for part in tree.parts)
    if isinstance(tree, Line):
        return any(holds(tree.query, line, True) for _, line in lines_in(tokens))
    if isinstance(tree, Near):
        return bool(nears(tree, tokens, not is_line))
    return bool(sides(tree, tokens, not is_line))


def marked(tree: Tree[Unit], tokens: Tokens, is_line: bool, is_wanted: bool = True) -> set[int]:
    """The tokens that are shown as matches: those of wanted parts, whatever the others are."""
    if isinstance(tree, Not):
        return marked(tree.part, tokens, is_line, not is_wanted)
    if isinstance(tree, (And, Or)):
        return set().union(*(marked(part, tokens, is_line, is_wanted) for part in tree.parts))
    if not is_wanted:
        return set()
    if isinstance(tree, Line):
        return {
            start + at
            for start, line in lines_in(tokens)
            if holds(tree.query, line, True)
            for at in marked(tree.query, line, True)
        }
    if isinstance(tree, Near):
        return {at for places in nears(tree, tokens, not is_line) for at in places}
    return {at for places in sides(tree, tokens, not is_line) for at in places}


# ---- order


def log_of(number: int) -> int:
    """The binary logarithm in units of 1/65536, as docs/SCRIPT.md has it."""
    high = number.bit_length() - 1
    rest = (number << 31) >> high
    told = 0
    for _ in range(16):
        square = rest * rest
        told <<= 1
        if square >= 1 << 63:
            told |= 1
            rest = square >> 32
        else:
            rest = square >> 31
    return (high << 16) + told


@dataclass(frozen=True)
class Known:
    """A file that she may search: its open paths, ascending, and its text."""

    paths: tuple[bytes, ...]
    text: bytes

    @cached_property
    def tokens(self) -> list[bytes]:
        """The tokens of the text."""
        return tokens_of(self.text)


def scores(files: Sequence[Known], words: set[bytes]) -> dict[bytes, int]:
    """The score of each file that has one of the words, by its least path."""
    total = sum(len(file.tokens) for file in files)
    counts = {word: [file.tokens.count(word) for file in files] for word in words}
    having = {word: sum(count > 0 for count in counts[word]) for word in words}
    told: dict[bytes, int] = {}
    for place, file in enumerate(files):
        for word in words:
            often = counts[word][place]
            if not often:
                continue
            rarity = log_of(len(files)) - log_of(having[word])
            length = len(file.tokens)
            below = 10 * often * total + 3 * total + 9 * length * len(files)
            score = rarity * 22 * often * total // below
            told[file.paths[0]] = told.get(file.paths[0], 0) + score
    return told


def wanted_words(tree: Tree[Unit], is_wanted: bool = True) -> Iterator[Typed]:
    """The typed words by which files are ranked."""
    if isinstance(tree, Not):
        yield from wanted_words(tree.part, not is_wanted)
    elif isinstance(tree, (And, Or)):
        for part in tree.parts:
            yield from wanted_words(part, is_wanted)
    elif isinstance(tree, Line):
        yield from wanted_words(tree.query, is_wanted)
    elif not is_wanted:
        return
    elif isinstance(tree, Near):
        for unit in tree.units:
            for side in unit:
                yield from side.words
    else:
        yield from tree.words


# ---- paths


def passes(tree: Tree[Filter], path: bytes) -> bool:
    """Whether a path fulfils a condition."""
    if isinstance(tree, Not):
        return not passes(tree.part, path)
    if isinstance(tree, And):
        return all(passes(part, path) for part in tree.parts)
    if isinstance(tree, Or):
        return any(passes(part, path) for part in tree.parts)
    return any(_passes(tree.subject, value, path) for value in tree.values)


def _passes(subject: Subject, value: bytes, path: bytes) -> bool:
    name = path.split(b"/")[-1]
    if subject is Subject.IN:
        return path.split(b"/")[: value.count(b"/") + 1] == value.split(b"/")
    if subject is Subject.EXTENSION:
        return name.lower().endswith(b"." + value.lower())
    if subject is Subject.NAME:
        return fits(value, name, value == value.lower())
    pattern = value if value.startswith(b"/") else b"*" + value + b"*"
    return fits(pattern, path, value == value.lower())


def fits(pattern: bytes, name: bytes, ignores_case: bool) -> bool:
    """Whether a name fits a pattern of `*`, `?` and other bytes."""
    if ignores_case:
        name = name.lower()
    at = {0}
    for one in (pattern[place : place + 1] for place in range(len(pattern))):
        if one == b"*":
            at = {place for start in at for place in range(start, len(name) + 1)}
        else:
            at = {
                place + 1
                for place in at
                if place < len(name) and one in (b"?", name[place : place + 1])
            }
    return len(name) in at
