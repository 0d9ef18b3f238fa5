"""Which files, or lines, and in which order.

What a question holds for is asked as an expression. Its order is that of a ranking of all her
files by the words that are wanted, so that neither an excluded word nor a condition changes the
order of what is left. A ranking with the expression as its unit would be another one: each of its
units has each word. But it lists the units, and reads no text for it.

A reply shows 10,000 results at most. Where there are more, they are asked for in parts, by length.
What isn't exact is said in `notes`.
"""

from collections.abc import Iterator, Sequence
from dataclasses import dataclass, field, replace

from ..shared.script import SHOWN_MAX
from ..shared.words import WORDS_OF_RANKING, word_of
from .asking import Asking, Refused, Reply
from .expression import WINDOW_MAX, Expression, Joined, Operator, Scope, TooLong, Window, spell
from .forms import Forms, Typed, typed_in
from .paths import Condition, once_each, passing
from .translation import Translation
from .tree import And, Line, Near, Not, Or, Phrase, Prefix, Question, Row, Tree, Unit

TOO_LARGE = b"toolargereply"


@dataclass(frozen=True)
class Bounds:
    """How much is asked for at once."""

    shown: int = SHOWN_MAX  # results of a reply
    first: int = 200  # of a ranking, before all of it is asked for
    parts: int = 64  # by length


@dataclass(frozen=True)
class Meant:
    """What a question asks, with the words for which its words stand."""

    question: Question
    forms: Forms
    condition: Condition | None

    def expression(self, scope: Scope) -> Expression:
        """The files or lines for which it holds."""
        if self.question.texts is None:
            return scope
        return Translation(self.forms).kept(self.question.texts, scope)

    def words(self) -> list[bytes]:
        """The words of the ranking: those that are wanted. Raises `TooLong`."""
        texts = self.question.texts
        words = self._forms([] if texts is None else wanted_in(texts, True))
        if len(words) > WORDS_OF_RANKING:
            raise TooLong(f"it ranks by {len(words)} words of at most {WORDS_OF_RANKING}")
        return words

    def needed(self) -> list[bytes]:
        """Words of which each file has one for which the question holds; none where it needs none.

        They are among those of the ranking, and often fewer and rarer.
        """
        texts = self.question.texts
        return [] if texts is None else self._forms(needed_words(texts, True) or [])

    def _forms(self, typed: Sequence[Typed]) -> list[bytes]:
        forms = (form for word in typed for form in self.forms.of(word))
        return list({word_of(form): form for form in forms}.values())


def wanted_in(tree: Tree[Unit], is_wanted: bool) -> list[Typed]:
    """The typed words that are wanted, or where the tree itself is excluded, those of it."""
    if isinstance(tree, Not):
        return wanted_in(tree.part, not is_wanted)
    if isinstance(tree, (And, Or)):
        return [word for part in tree.parts for word in wanted_in(part, is_wanted)]
    if isinstance(tree, Line):
        return wanted_in(tree.query, is_wanted)
    return list(typed_in(tree)) if is_wanted else []


def needed_words(tree: Tree[Unit], holds: bool) -> list[Typed] | None:
    """Words of which each file has one for which the tree holds, or doesn't hold; None for none.

    Of several choices it is the one of few words, and of long ones, which are rare.
    """
    if isinstance(tree, Not):
        return needed_words(tree.part, not holds)
    if isinstance(tree, (And, Or)):
        some = [needed_words(part, holds) for part in tree.parts]
        found = [words for words in some if words is not None]
        if isinstance(tree, And) == holds:
            return min(found, key=_rarity) if found else None
        return [word for words in found for word in words] if len(found) == len(some) else None
    if not holds:
        return None
    if isinstance(tree, Line):
        return needed_words(tree.query, True)
    if isinstance(tree, Near):
        return min(([_rarest(side.words) for side in unit] for unit in tree.units), key=_rarity)
    return [_rarest(tree.words)]


def _rarity(words: Sequence[Typed]) -> tuple[bool, int, int]:
    """The smaller, the rarer the words are thought to be."""
    has_prefix = any(isinstance(word, Prefix) for word in words)
    return has_prefix, len(words), -min(len(word.text) for word in words)


def _rarest(words: Sequence[Typed]) -> Typed:
    return min(words, key=lambda word: _rarity([word]))


def is_any_word(tree: Tree[Unit]) -> bool:
    """Whether it is a word, or words with OR between: so that a ranking alone answers it."""
    if isinstance(tree, Or):
        return all(is_any_word(part) for part in tree.parts)
    return isinstance(tree, (Row, Phrase)) and len(tree.words) == 1


@dataclass(frozen=True)
class Count:
    """How many there are; at least so many where that isn't exact."""

    number: int
    is_exact: bool = True


@dataclass(frozen=True)
class File:
    """A file that was found, by the path by which it is shown."""

    path: bytes
    score: int | None = None


@dataclass(frozen=True)
class Place:
    """A line that was found, with the first bytes that it had when it was indexed."""

    path: bytes
    line: int
    snippet: bytes


@dataclass(frozen=True)
class Files:
    """The first files, and how many there are of all."""

    first: list[File]
    total: Count


@dataclass(frozen=True)
class Places:
    """The first lines, how many there are of all, and in how many files."""

    first: list[Place]
    total: Count
    files: Count


@dataclass(frozen=True)
class _Members:
    """Files by their least paths, with their lengths in tokens, and how many there are of all."""

    lengths: dict[bytes, int]
    total: int

    @property
    def paths(self) -> list[bytes]:
        return list(self.lengths)

    @property
    def are_all(self) -> bool:
        return len(self.lengths) >= self.total


def _parts_of(members: _Members, low: int, high: int) -> Iterator[tuple[int, int]]:
    """Ranges of lengths, each with about as many files as a reply can show; none where all are.

    They are cut by the lengths of the files that are known, which are the first by path, or by
    their scores, and so like the others.
    """
    if members.are_all or high - low == 1:
        return
    lengths = sorted(members.lengths.values()) or [low]
    pieces = 2 + members.total // len(lengths)
    cuts = {lengths[len(lengths) * place // pieces] for place in range(1, pieces)}
    middle = lengths[len(lengths) // 2]  # where all are of one length it is a part of its own
    ends = sorted(one for one in {*cuts, middle, middle + 1} if low < one < high)
    yield from zip([low, *ends], [*ends, high])


def _lengths_of(reply: Reply, place: int) -> dict[bytes, int]:
    """The length of each file of a reply whose results are whole files."""
    return {line[place]: int(line[place + 2]) + 1 for line in reply[1:]}


@dataclass
class Search:
    """One question, on a connection."""

    asking: Asking
    meant: Meant
    bounds: Bounds = Bounds()
    notes: list[str] = field(default_factory=list)

    # ---- files

    def count(self) -> Count:
        """How many files."""
        if self.meant.condition is None:
            return Count(self._count(self.meant.expression(Scope.FILE)))
        return self.files(0).total

    def files(self, number: int) -> Files:
        """The first files, the best first, or by path where no word is wanted."""
        texts, condition = self.meant.question.texts, self.meant.condition
        if texts is None and condition is not None:
            named = self._named(condition)
            if named is not None:
                return Files([File(path) for path in named[:number]], Count(len(named)))
        words = self.meant.words()
        if condition is None and texts is not None and is_any_word(texts):
            reply = self._rank(number, Scope.FILE, words)
            return Files(_files_of(reply), Count(int(reply[0][1])))
        if condition is None and not words:
            expression = self.meant.expression(Scope.FILE)
            reply = self._shown(b"find", number, spell(expression))
            return Files([File(line[0]) for line in reply[1:]], Count(int(reply[0][2])))
        return self._of_members(number, words)

    def _of_members(self, number: int, words: list[bytes]) -> Files:
        """The first files, where it has to be known which there are."""
        expression = self.meant.expression(Scope.FILE)
        members = self._listed(expression)
        if not members.are_all:
            first = self._first_but_others(expression, number, words)
            if first is not None:
                return Files(first, Count(members.total))
            members = self._with_parts(expression, members)
        shown = self._pass(members.paths)
        is_exact = members.are_all or self.meant.condition is None
        total = Count(len(shown) if self.meant.condition else members.total, is_exact)
        if not members.are_all:
            self.notes.append(
                f"{members.total} files hold it, of which {len(members.paths)} were looked at"
            )
        return Files(self._in_order(shown, number, words) if number else [], total)

    def _first_but_others(
        self, expression: Expression, number: int, words: list[bytes]
    ) -> list[File] | None:
        """The first files by those that aren't among them, where a reply can show all of these.

        So most files need no parts. None where it can't be told so.
        """
        if self.meant.condition is not None or not self.meant.needed():
            return None
        try:
            without = spell(Joined(Operator.HOLDS_NO, Scope.FILE, expression))
        except TooLong:
            return None
        reply = self._shown(b"rank", self.bounds.shown, without, b" ".join(words))
        if int(reply[0][1]) > len(reply) - 1:
            return None
        others = {file.path for file in _files_of(reply)}
        for most in (self.bounds.first, self.bounds.shown):
            ranking = _files_of(self._rank(most, Scope.FILE, words))
            found = [file for file in ranking if file.path not in others]
            if len(found) >= number:
                return found[:number]
        return None

    def _named(self, condition: Condition) -> list[bytes] | None:
        """The files whose paths pass, by path: each once. None where her paths are too many."""
        paths = self._all_paths()
        return None if paths is None else once_each([path for path in paths if condition(path)])

    def _pass(self, paths: Sequence[bytes]) -> dict[bytes, bytes]:
        """Those that pass, each with the path by which it is shown."""
        if self.meant.condition is None:
            return {path: path for path in paths}
        shown, is_exact = passing(paths, self.meant.condition, self._all_paths)
        if not is_exact:
            self.notes.append("you have too many files to look for other links of these")
        return shown

    def _all_paths(self) -> list[bytes] | None:
        """All her paths, or None where they are too many for a reply."""
        try:
            reply = self.asking.ask(b"paths")
        except Refused as refused:
            if refused.word == TOO_LARGE:
                return None
            raise
        return [path for (path,) in reply[1:]]

    def _in_order(self, shown: dict[bytes, bytes], number: int, words: list[bytes]) -> list[File]:
        """The first of some files, in the order of the ranking; what it doesn't tell by path."""
        due = min(number, len(shown))
        found: list[File] = []
        is_whole = True
        for most in (self.bounds.first, self.bounds.shown) if words and due else ():
            reply = self._rank(most, Scope.FILE, words)
            is_whole = int(reply[0][1]) == len(reply) - 1
            found = [one for one in _files_of(reply) if one.path in shown]
            if len(found) >= due or is_whole:
                break
        ranked = {one.path for one in found}
        found = [replace(one, path=shown[one.path]) for one in found]
        if len(found) < due and not is_whole:
            self.notes.append(f"the files after the first {len(found)} come by path")
        others = sorted(path for least, path in shown.items() if least not in ranked)
        return (found + [File(path) for path in others])[:number]

    # ---- members

    def _with_parts(self, expression: Expression, whole: _Members) -> _Members:
        """The files of an expression of which a reply couldn't show all, in parts by length."""
        found = dict(whole.lengths)
        asked = 0
        waiting = list(_parts_of(whole, 1, WINDOW_MAX + 1))
        while waiting and asked < self.bounds.parts:
            low, high = waiting.pop()
            asked += 1
            try:
                part = self._listed(between(expression, low, high))
            except TooLong:
                break  # there is no room for the bounds of a part
            found.update(part.lengths)
            waiting += _parts_of(part, low, high)
        return _Members(found, whole.total)

    def _listed(self, expression: Expression) -> _Members:
        """The files of an expression, as many as a reply can show."""
        needed = self.meant.needed()
        written = spell(expression)
        if needed:
            reply = self._shown(b"rank", self.bounds.shown, written, b" ".join(needed))
            return _Members(_lengths_of(reply, 1), int(reply[0][1]))
        reply = self._shown(b"find", self.bounds.shown, written)
        return _Members(_lengths_of(reply, 0), int(reply[0][2]))

    def _count(self, expression: Expression) -> int:
        return int(self.asking.ask(b"count", spell(expression))[0][2])

    def _rank(self, most: int, unit: Scope, words: list[bytes]) -> Reply:
        return self._shown(b"rank", most, unit.value, b" ".join(words))

    def _shown(self, query: bytes, most: int, *fields: bytes) -> Reply:
        """A reply of as many results as a reply has room for."""
        while True:
            try:
                return self.asking.ask(query, most, *fields)
            except Refused as refused:
                if refused.word != TOO_LARGE or most == 0:
                    raise
                most //= 4

    # ---- lines

    def lines(self, number: int) -> Places:
        """The first lines for which the question holds, by path."""
        written = spell(self.meant.expression(Scope.LINE))
        most = number if self.meant.condition is None else self.bounds.shown
        reply = self._shown(b"find", most, written)
        hits, files = int(reply[0][1]), int(reply[0][2])
        places = [Place(path, int(line), snippet) for path, _, _, line, snippet in reply[1:]]
        if self.meant.condition is None:
            return Places(places, Count(hits), Count(files))
        shown = self._pass(list(dict.fromkeys(one.path for one in places)))
        passed = [replace(one, path=shown[one.path]) for one in places if one.path in shown]
        is_exact = len(places) == hits
        if not is_exact:
            self.notes.append(f"{hits} lines hold it, of which {len(places)} were looked at")
        passed_files = len({one.path for one in passed})
        total, of_files = Count(len(passed), is_exact), Count(passed_files, is_exact)
        return Places(passed[:number], total, of_files)


def between(expression: Expression, low: int, high: int) -> Expression:
    """Those with at least `low` tokens, and fewer than `high`."""
    part = expression if low == 1 else Joined(Operator.HOLDS, expression, Window(low))
    return part if high > WINDOW_MAX else Joined(Operator.HOLDS_NO, part, Window(high))


def _files_of(ranking: Reply) -> list[File]:
    return [File(path, int(score)) for score, path, _, _ in ranking[1:]]
