"""What a user may search, and the replies to her queries."""

from collections import Counter
from collections.abc import Callable
from dataclasses import dataclass
from functools import cached_property

from .nodes import EXECUTE, READ, ROOT, Tree
from .regions import Expression
from .words import SNIPPET_MAX, Tokens, lines_of

Row = tuple[bytes | int, ...]


class Text:
    """The text of a file, and its tokens from the first question on."""

    def __init__(self, read: Callable[[], bytes]) -> None:
        self.read = read

    @cached_property
    def tokens(self) -> Tokens:
        """Where its tokens stand."""
        return Tokens(self.read)


@dataclass(frozen=True)
class File:
    """A file that a user may search: its open paths, the least one first, and its text."""

    paths: list[bytes]
    text: Text


def files_of(tree: Tree, texts: Callable[[int], Text], user: int) -> list[File]:
    """The files that a user may search, in the order of their least open paths."""
    groups = tree.users.get(user, frozenset())
    paths: dict[int, list[bytes]] = {}
    waiting = [(b"", ROOT)]
    while waiting:
        path, number = waiting.pop()
        node = tree.nodes[number]
        if node.names is None:
            if number in paths or node.grants(user, groups, READ):
                paths.setdefault(number, []).append(path)
        elif node.grants(user, groups, EXECUTE):
            waiting += [(b"%s/%s" % (path, name), child) for name, child in node.names.items()]
    files = [File(sorted(found), texts(tree.nodes[one].text)) for one, found in paths.items()]
    return sorted(files, key=lambda one: one.paths[0])


def count(files: list[File], expression: Expression) -> list[Row]:
    """How many extents there are, and in how many files."""
    sizes = [len(expression.extents(file.text.tokens)) for file in files]
    return [(b"count", sum(sizes), sum(size > 0 for size in sizes))]


def find(files: list[File], most: int, expression: Expression) -> list[Row]:
    """The same, and the first extents with their lines."""
    shown: list[Row] = []
    hits = found = 0
    for file in files:
        extents = expression.extents(file.text.tokens)
        hits += len(extents)
        found += bool(extents)
        if not extents or len(shown) >= most:
            continue
        lines = lines_of(file.text.read())
        for first, last in extents[: most - len(shown)]:
            number = file.text.tokens.line_of(first, last)
            snippet = lines[number - 1][:SNIPPET_MAX] if number else b""
            shown.append((file.paths[0], first, last, number, snippet))
    return [(b"find", hits, found, len(shown)), *shown]


def paths(files: list[File]) -> list[Row]:
    """All open paths."""
    shown: list[Row] = [(path,) for file in files for path in file.paths]
    return [(b"paths", len(shown)), *shown]


def _listed(name: bytes, files: list[File], most: int, front: bytes, by_files: bool) -> list[Row]:
    of_files = Counter(
        word for file in files for word in file.text.tokens.words if word.startswith(front)
    )
    order = sorted(of_files.items())
    if by_files:
        order.sort(key=lambda one: -one[1])
    return [(name, len(order), len(order[:most])), *order[:most]]


def terms(files: list[File], most: int, front: bytes) -> list[Row]:
    """Her words by their bytes."""
    return _listed(b"terms", files, most, front, False)


def top(files: list[File], most: int, front: bytes) -> list[Row]:
    """Her words, those of most files first."""
    return _listed(b"top", files, most, front, True)


def _logarithm(number: int) -> int:
    """The binary logarithm in units of 1/65536."""
    high = number.bit_length() - 1
    fraction = (number << 31) >> high
    result = high
    for _ in range(16):
        square = fraction * fraction
        is_set = square >= 1 << 63
        fraction = square >> (32 if is_set else 31)
        result = result << 1 | is_set
    return result


@dataclass
class _Unit:
    """An extent that may be listed: how often it has each of the words."""

    path: bytes
    first: int
    last: int
    often: dict[bytes, int]
    score: int = 0
    bound: int = 0

    def size(self) -> int:
        """How many tokens it has."""
        return self.last - self.first + 1


def _ranking(files: list[File], unit: Expression, words: list[bytes]) -> list[_Unit]:
    """The units that have one of the words, the best first."""
    units = []
    for file in files:
        tokens = file.text.tokens
        places = {word: tokens.places(word) for word in words}
        for first, last in unit.extents(tokens):
            often = {
                word: sum(first <= place <= last for place in where)
                for word, where in places.items()
            }
            units.append(_Unit(file.paths[0], first, last, often))
    total = sum(one.size() for one in units)
    for word in words:
        having = sum(one.often[word] > 0 for one in units)
        if having:
            weight = _logarithm(len(units)) - _logarithm(having)
            for one in units:
                _add(one, word, weight, total, len(units))
    listed = [one for one in units if any(one.often.values())]
    return sorted(listed, key=lambda one: (-one.score, one.path, one.first))


def _add(one: _Unit, word: bytes, weight: int, total: int, count: int) -> None:
    """Adds what a word gives to a unit's score."""
    often = one.often[word]
    if often:
        below = 10 * often * total + 3 * total + 9 * one.size() * count
        one.score += weight * 22 * often * total // below
        one.bound += 22 * weight // 10


def rank(files: list[File], most: int, unit: Expression, words: list[bytes]) -> list[Row]:
    """The best units."""
    listed = _ranking(files, unit, words)
    shown: list[Row] = [(one.score, one.path, one.first, one.last) for one in listed[:most]]
    return [(b"rank", len(listed), len(shown)), *shown]


def weighed(files: list[File], most: int, unit: Expression, words: list[bytes]) -> list[Row]:
    """How many units are listed, and how many of them might be among the best."""
    listed = _ranking(files, unit, words)
    if most == 0:
        return [(b"weighed", len(listed), 0)]
    least = listed[most - 1].score if most <= len(listed) else 0
    return [(b"weighed", len(listed), sum(one.bound >= least for one in listed))]
