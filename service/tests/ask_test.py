"""What people ask: random queries over random trees, beside a plain evaluation of all tokens.

What is read is compared with what was typed, and what is found with what is due: files, their
order and scores, lines, conditions on paths, and the words that are marked. Small bounds in place
of 10,000 have the parts and the fallbacks used: what is told to be exact has to be so.
"""

import os
import random
import re
import sys
import tempfile
from collections.abc import Callable, Iterator
from contextlib import AbstractContextManager
from dataclasses import dataclass, replace
from pathlib import Path
from unittest import mock

from harness import Pace, Score, needs_program, options, quick_folder
from meaning import (
    RUN, Known, holds, lines_in, lines_of, marked, passes, scores, stands_for,
    wanted_words,
)  # fmt: skip

from wumpus.ask import (  # isort: skip
    expression, forms, language, matching, paths, search, tokens, translation,
)  # fmt: skip
from wumpus.ask.asking import Asking, Trouble  # isort: skip
from wumpus.ask.expression import Joined, Operator, Scope, TooLong, Window  # isort: skip
from wumpus.ask.forms import Marks, find_forms  # isort: skip
from wumpus.ask.tree import (  # isort: skip
    And, Fault, Filter, Line, Near, Not, Or, Phrase, Prefix, Question, Row, Span, Subject, Tree, Unit,
    Word,
)  # fmt: skip
from wumpus.ask.search import Bounds, Meant, Search  # isort: skip
from wumpus.shared.program import Program, Talk  # isort: skip
from wumpus.shared.queries import line_for  # isort: skip
from wumpus.shared.script import spell  # isort: skip

USER, OTHER = 1000, 1001
NOWHERE = Span(0, 0)
SMALL = (1, 2, 4)  # results of a reply
TREE_QUERIES = 25

VOCABULARY = [one.encode() for one in (
    "plan", "Planning", "planer", "budget", "lunch", "the", "of", "be", "e", "mail", "a",
    "caf\u00e9", "cafe\u0301", "\u00c9t\u00e9", "Stra\u00dfe", "STRASSE", "\u8a08\u753b",
    "\u201cbudget", "budget\u201d", "budget\u2014then", "\u2018plan\u2019", "\u00abthe\u00bb",
    "lunch\u3002", "\u2026of", "a\u00a0b", "\u00bfbe", "\u201c\u201clunch", "plan\u2020",
    "caf\u00e9\u2019s", "a\u2260b",
)] + [b"\xff", b"caf\xe9", b"lunch\xe2\x80", b"x" * 70]  # fmt: skip
TYPED = [one.encode() for one in (
    "plan", "PLAN", "planning", "budget", "Budget", "lunch", "the", "of", "be", "a", "e", "mail",
    "caf\u00e9", "cafe\u0301", "CAF\u00c9", "\u00e9t\u00e9", "stra\u00dfe", "Strasse",
    "\u8a08\u753b", "nothing", "a\u2260b", "\u201abudget",
)] + [b"caf\xe9", b"x" * 70]  # fmt: skip
PREFIXES = [one.encode() for one in ("plan", "Bud", "caf\u00e9", "cafe", "lun", "\u8a08", "strass")]
NAMES = [b"a.md", b"B.TXT", b"notes.txt", b"c", b"old plan.md", b"x.tar.gz", b"\xff\xfe", b"e\nf"]


class Direct(Asking):
    """Asks the program as a user, without a service."""

    def __init__(self, program: str, folder: Path) -> None:
        self.talk = Talk(Program(program, folder))
        self.waiting: list[list[bytes]] = []
        self.queries = 0

    def _send(self, lines: list[bytes]) -> None:
        for line in lines:
            asked = line_for(USER, line[:-1])
            if asked is None:
                raise Trouble("no query")
            if line.startswith((b"terms", b"top")) and len(line.split(b"\t")[2]) < 4:
                raise AssertionError(f"a prefix that is dear: {line!r}")
            self.waiting.append(self.talk.ask_whole(asked))
            self.queries += 1

    def _lines(self, count: int) -> list[bytes]:
        if count == 0:
            return []
        reply = self.waiting[0]
        lines, reply[:] = reply[:count], reply[count:]
        if not reply:
            self.waiting.pop(0)
        return lines

    def feed(self, *fields: bytes | int) -> None:
        """Gives an event."""
        reply = self.talk.ask(spell(*fields))
        if reply != b"ok":
            raise AssertionError(f"{fields!r}: {reply!r}")

    def feed_text(self, number: int, text: bytes) -> None:
        """Gives a file its text."""
        reply = self.talk.ask(spell(b"text", number, len(text)) + text + b"\n")
        if reply != b"ok":
            raise AssertionError(f"text of {number}: {reply!r}")

    def close(self) -> None:
        """Ends the program."""
        self.talk.close()
        self.talk.program.kill()


# ---- trees


class World:
    """A tree of files in a folder, some of which she may not read, and a program that has it."""

    def __init__(self, folder: Path, program: str, draw: random.Random) -> None:
        self.draw = draw
        self.top = os.fsencode(folder / "tree")
        self.store = folder / "store"
        self.store.mkdir()
        self.asking = Direct(program, self.store)
        self.number = 1
        self.folders = {b"": 1}
        self.known: list[Known] = []
        for one in (self.top, self.top + b"/notes", self.top + b"/notes/old", self.top + b"/plan"):
            os.mkdir(one)
            self._folder(one)
        for _ in range(draw.randrange(8, 15)):
            self._file()
        self.known.sort(key=lambda file: file.paths)

    def _folder(self, path: bytes) -> int:
        if path not in self.folders:
            above, _, name = path.rpartition(b"/")
            self.number += 1
            parent = self._folder(above)
            self.folders[path] = self.number = self.number + 1
            self.asking.feed(b"mkdir", self.number, parent, name, 0, 0, b"755")
        return self.folders[path]

    def _place(self) -> bytes:
        while True:
            folder = self.draw.choice([one for one in self.folders if one.startswith(self.top)])
            path = folder + b"/" + self.draw.choice(NAMES)
            if not os.path.lexists(path):
                return path

    def _file(self) -> None:
        path, text = self._place(), self._text()
        is_open = self.draw.random() < 0.75
        self.number += 1
        above, _, name = path.rpartition(b"/")
        owner, mode = (USER, b"600") if is_open else (OTHER, b"600")
        self.asking.feed(
            b"create", self.number, self.folders[above], name, owner, owner, mode
        )
        self.asking.feed_text(self.number, text)
        Path(os.fsdecode(path)).write_bytes(text)
        found = [path]
        while self.draw.random() < 0.25:
            other = self._place()
            os.link(path, other)
            above, _, name = other.rpartition(b"/")
            self.asking.feed(b"link", self.number, self.folders[above], name)
            found.append(other)
        if is_open:
            self.known.append(Known(tuple(sorted(found)), text))

    def _text(self) -> bytes:
        draw = self.draw
        lines = []
        for _ in range(draw.randrange(7)):
            words = [draw.choice(VOCABULARY) for _ in range(draw.randrange(6))]
            between = (b" ", b" ", b" ", b", ", b"-", b"_", b"\t")
            lines.append(b"".join(word + draw.choice(between) for word in words))
        return b"\n".join(lines) + draw.choice((b"", b"\n", b"\r\n", b"!!"))

    def close(self) -> None:
        """Ends the program."""
        self.asking.close()


# ---- queries


@dataclass(frozen=True)
class Written:
    """A query as it is typed, and what it is."""

    typed: bytes
    tree: Tree[Unit]


class Writer:
    """Makes queries, and types each in one of its ways."""

    def __init__(self, draw: random.Random, world: World) -> None:
        self.draw = draw
        self.top = world.top
        self.texts = [RUN.findall(file.text) for file in world.known if RUN.search(file.text)]
        self.text: list[bytes] = []  # out of which the words of a query are, mostly

    def question(self) -> tuple[bytes, Question]:
        """A whole query, with conditions on paths or without."""
        draw = self.draw
        self.text = draw.choice(self.texts or [[b"plan"]])
        if draw.random() < 0.05:
            filters = self._filters()
            return filters[0], Question(filters[0], None, filters[1])
        query = self._query(draw.choice((0, 1, 1, 2, 2, 3)))
        if draw.random() < 0.7:
            return query.typed, Question(query.typed, query.tree, None)
        filters = self._filters()
        if isinstance(query.tree, Or):
            query = replace(query, typed=b"(%b)" % query.typed)
        both = [query.typed, filters[0]]
        draw.shuffle(both)
        typed = b" ".join(both)
        return typed, Question(typed, query.tree, filters[1])

    def _query(self, depth: int) -> Written:
        draw = self.draw
        kind = draw.random() if depth else 1.0
        if kind < 0.35:
            parts = [self._query(depth - 1) for _ in range(draw.choice((2, 2, 3)))]
            texts = [self._grouped(one, (And, Or)) for one in parts]
            text = texts[0]
            for other in texts[1:]:
                text += draw.choice((b" ", b" ", b" AND ", b"  ")) + other
            return Written(text, And(tuple(one.tree for one in parts)))
        if kind < 0.65:
            parts = [self._query(depth - 1) for _ in range(draw.choice((2, 2, 3)))]
            texts = [self._grouped(one, (Or,)) for one in parts]
            text = draw.choice((b" OR ", b" | ", b"|")).join(texts)
            return Written(text, Or(tuple(one.tree for one in parts)))
        if kind < 0.8:
            part = self._query(depth - 1)
            sign = draw.choice((b"-", b"-", b"NOT "))
            text = self._grouped(part, (And, Or, Not) if sign == b"-" else (And, Or))
            return Written(sign + text, Not(part.tree))
        if kind < 0.9:
            part = self._query(depth - 1)
            return Written(b"line:(%b)" % part.typed, Line(part.tree, NOWHERE))
        return self._unit()

    def _grouped(self, one: Written, kinds: tuple[type, ...]) -> bytes:
        if isinstance(one.tree, kinds) or self.draw.random() < 0.1:
            return b"(%b)" % one.typed
        return one.typed

    def _unit(self) -> Written:
        if self.draw.random() < 0.2:
            return self._near()
        return self._side()

    def _side(self) -> Written:
        draw = self.draw
        kind = draw.random()
        if kind < 0.1:
            typed = draw.choice(PREFIXES)
            return Written(typed + b"*", Row((Prefix(typed, NOWHERE),), NOWHERE))
        words = self._words(1 if kind < 0.55 else draw.choice((2, 2, 3)))
        row = tuple(Word(word, NOWHERE) for text in words for word in _cut(text))
        if kind < 0.55:
            noise = draw.choice((b"%b", b"%b", b"%b", b"%b?", b"+%b", b"%b,"))
            return Written(noise % words[0], Row(row, NOWHERE))
        if kind < 0.7:
            return Written(draw.choice((b"-", b"_", b".")).join(words), Row(row, NOWHERE))
        opening, closing = draw.choice((('"', '"'), ('"', '"'), ("“", "”"), ("„", "“")))
        text = b" ".join(words)
        typed = opening.encode() + text + closing.encode()
        return Written(typed, Phrase(row, NOWHERE))

    def _words(self, count: int) -> list[bytes]:
        """Some words to type: mostly such as stand in a row in a text, also over line ends."""
        draw = self.draw
        if draw.random() < 0.3:
            return [draw.choice(TYPED) for _ in range(count)]
        start = draw.randrange(len(self.text))
        step = draw.choice((1, 1, 1, 2))
        found = self.text[start : start + count * step : step]
        return [self._typed(run) for run in found]

    def _typed(self, run: bytes) -> bytes:
        """A word without what is syntax in a query, in large letters or small ones."""
        rest = MARKED.sub(b" ", run).split()
        word = self.draw.choice(rest) if rest else b"plan"
        return self.draw.choice((word, word, word.upper()))

    def _near(self) -> Written:
        draw = self.draw
        units, typed, gaps = [], [], []
        for place in range(draw.choice((2, 2, 2, 3))):
            if place:
                gap = draw.choice((None, 1, 2, 3, 5, 1000))
                gaps.append(tokens.GAP if gap is None else gap)
                typed.append(b"NEAR" if gap is None else b"NEAR/%d" % gap)
            sides = [self._side() for _ in range(draw.choice((1, 1, 1, 2)))]
            text = b" OR ".join(side.typed for side in sides)
            typed.append(b"(%b)" % text if len(sides) > 1 else text)
            units.append(tuple(one.tree for one in sides if isinstance(one.tree, (Row, Phrase))))
        return Written(b" ".join(typed), Near(tuple(units), tuple(gaps), NOWHERE))

    def _filters(self) -> tuple[bytes, Tree[Filter]]:
        draw = self.draw
        typed, one = self._filter()
        kind = draw.random()
        if kind < 0.5:
            return typed, one
        if kind < 0.7:
            return b"-" + typed, Not(one)
        typed_too, other = self._filter()
        if kind < 0.85:
            return b"(%b OR %b)" % (typed, typed_too), Or((one, other))
        return b"-(%b|%b)" % (typed, typed_too), Not(Or((one, other)))

    def _filter(self) -> tuple[bytes, Filter]:
        draw = self.draw
        subject, values = draw.choice((
            (Subject.IN, [self.top + b"/notes"]),
            (Subject.IN, [self.top + b"/notes/old", self.top + b"/plan"]),
            (Subject.NAME, [b"*.md"]), (Subject.NAME, [b"B*"]), (Subject.NAME, [b"?"]),
            (Subject.NAME, [b"old plan.md"]), (Subject.EXTENSION, [b"txt"]),
            (Subject.EXTENSION, [b"md", b"gz"]), (Subject.EXTENSION, [b"tar.gz"]),
            (Subject.PATH, [b"notes/"]), (Subject.PATH, [b"OLD"]), (Subject.PATH, [b"n*plan"]),
            (Subject.PATH, [self.top + b"/plan/*"]),
        ))  # fmt: skip
        text = b",".join(values)
        quoted = b'"%b"' % text if b" " in text else text
        typed = subject.value.encode() + b":" + quoted
        return typed, Filter(subject, tuple(values), NOWHERE)


MARKED = re.compile(rb"\xe2\x80[\x9c-\x9f]|\xc2\xa0")  # quotes, and a blank: syntax


def _cut(text: bytes) -> list[bytes]:
    return RUN.findall(text)


# ---- what is due


class Due:
    """What a question has to find."""

    def __init__(self, question: Question, known: list[Known]) -> None:
        self.question = question
        self.known = known
        self.files = [file for file in known if self._holds(file)]
        self.shown = {file.paths[0]: self._path_of(file) for file in self.files}

    def _holds(self, file: Known) -> bool:
        texts = self.question.texts
        is_found = texts is None or holds(texts, file.tokens, False)
        return is_found and self._path_of(file) != b""

    def _path_of(self, file: Known) -> bytes:
        """The path by which a file is shown; none where no one passes."""
        where = self.question.paths
        return next((path for path in file.paths if where is None or passes(where, path)), b"")

    def in_order(self) -> list[tuple[bytes, int | None]]:
        """The paths as they are shown, with their scores, the best first."""
        texts = self.question.texts
        typed = [] if texts is None else list(wanted_words(texts))
        tokens = {token for file in self.known for token in file.tokens}
        words = {token for token in tokens if any(stands_for(one, token) for one in typed)}
        ranked = scores(self.known, words)
        first = [file.paths[0] for file in self.files if file.paths[0] in ranked]
        first.sort(key=lambda path: (-ranked[path], path))
        rest = sorted(self.shown[file.paths[0]] for file in self.files
                      if file.paths[0] not in ranked)  # fmt: skip
        return [(self.shown[path], ranked[path]) for path in first] + [(one, None) for one in rest]

    def lines(self) -> list[tuple[bytes, int]]:
        """The lines for which it holds, as they are shown."""
        texts = self.question.texts
        found = []
        for file in self.known:
            path = self._path_of(file)
            if path:
                found += [
                    (path, number)
                    for number, (_, line) in enumerate(lines_in(file.tokens), 1)
                    if texts is None or holds(texts, line, True)
                ]
        return found

    def marks(self, file: Known) -> list[tuple[int, int]]:
        """The words that are marked in a file: their lines, and how many words are before."""
        texts = self.question.texts
        tokens = set() if texts is None else marked(texts, file.tokens, False)
        found = []
        for number, (start, line) in enumerate(lines_in(file.tokens), 1):
            found += [(number, at) for at in range(len(line)) if start + at in tokens]
        return found


# ---- the comparison


class Trial:
    """Compares questions."""

    def __init__(self, score: Score, world: World) -> None:
        self.score = score
        self.world = world
        self.too_long = self.inexact = self.told = self.files = self.lines = 0

    def ask(self, typed: bytes, due: Question) -> None:
        """Reads a query, asks it in all ways, and compares."""
        check = self.score.check
        try:
            question = language.read(typed)
        except Fault as fault:
            check(False, f"{typed!r} isn't read: {fault.message}")
            return
        read = (question.texts, question.paths)
        if not check(read == (due.texts, due.paths), f"{typed!r} is read as {read}"):
            return
        standing = paths.Standing(b"/")
        condition = paths.condition_of(due.paths, standing) if due.paths is not None else None
        asking = self.world.asking
        try:
            found = find_forms(due.texts, Marks.COUNTED, asking.terms) if due.texts else None
            meant = Meant(question, found or forms.Forms(), condition)
            self._compare(meant, Due(due, self.world.known))
        except TooLong:
            self.too_long += 1

    def _compare(self, meant: Meant, due: Due) -> None:
        typed, check = meant.question.typed, self.score.check
        order = due.in_order()
        self.files += len(order)
        for number in (1, 3, 100):
            found = Search(self.world.asking, meant)
            told = found.files(number)
            first = [(file.path, file.score) for file in told.first]
            check(first == order[:number], f"{typed!r}: {first} in place of {order[:number]}")
            is_exact = told.total.is_exact and told.total.number == len(order)
            check(is_exact, f"{typed!r}: {told.total} files in place of {len(order)}")
            check(not found.notes, f"{typed!r}: {found.notes}")
        count = Search(self.world.asking, meant).count()
        check(count.number == len(order), f"{typed!r}: {count} in place of {len(order)}")
        self._compare_small(meant, order)
        self._compare_lines(meant, due)
        self._compare_marks(meant, due)

    def _compare_small(self, meant: Meant, order: list[tuple[bytes, int | None]]) -> None:
        """With replies of a few results: right, or told not to be."""
        for shown in SMALL:
            for number in (1, 2):
                found = Search(self.world.asking, meant, Bounds(shown, min(shown, 2)))
                told = found.files(min(number, shown))
                first = [file.path for file in told.first]
                due = [path for path, _ in order[: min(number, shown)]]
                self.told += 1
                what = f"{meant.question.typed!r} with {shown} shown: {first} in place of {due}"
                if told.total.is_exact and not found.notes:
                    self.score.check(first == due and told.total.number == len(order), what)
                else:
                    self.inexact += 1
                    everything = {path for path, _ in order}
                    right = set(first) <= everything and told.total.number <= len(order)
                    self.score.check(right, f"told to be inexact, and wrong: {what}")

    def _compare_lines(self, meant: Meant, due: Due) -> None:
        typed, lines = meant.question.typed, due.lines()
        self.lines += len(lines)
        try:
            told = Search(self.world.asking, meant).lines(10_000)
        except TooLong:
            self.too_long += 1
            return
        found = [(place.path, place.line) for place in told.first]
        self.score.check(found == lines, f"-L {typed!r}: {found} in place of {lines}")
        files = len({path for path, _ in lines})
        numbers = (told.total.number, told.files.number)
        self.score.check(numbers == (len(lines), files), f"-L {typed!r}: {numbers}")

    def _compare_marks(self, meant: Meant, due: Due) -> None:
        matcher = matching.Matcher(meant.question.texts, meant.forms, Scope.FILE)
        for file in due.files:
            lines = lines_of(file.text)
            found = [
                (one.number, 1 + len(RUN.findall(lines[one.number - 1][:start])))
                for one in matcher.shown(lines)
                for start, _ in one.spans
            ]
            marks = due.marks(file)
            what = f"{meant.question.typed!r} marks {found} in place of {marks} in {file.text!r}"
            self.score.check(found == marks, what)
            for most in (1, 2):
                with mock.patch.object(matching, "PIECE_LINES", 2):
                    first = matcher.best(lines, most)
                due_first = matching.best(matcher.shown(lines), most)
                what = f"{meant.question.typed!r}: the best of {file.text!r} are {first}"
                self.score.check(first == due_first, what)


def rounds(seed: int, queries: int) -> Iterator[tuple[random.Random, int]]:
    """For each tree a source of choices, and how many queries are asked of it."""
    for start in range(0, queries, TREE_QUERIES):
        yield random.Random(f"{seed} {start}"), min(TREE_QUERIES, queries - start)


def fuzz(score: Score, program: str, seed: int, queries: int) -> None:
    """Asks so many queries."""
    pace = Pace("ask", queries, "queries")
    done = inexact = told = too_long = files = lines = 0
    for draw, count in rounds(seed, queries):
        with quick_folder() as name:
            world = World(Path(name), program, draw)
            trial = Trial(score, world)
            writer = Writer(draw, world)
            for _ in range(count):
                trial.ask(*writer.question())
            world.close()
        done += count
        inexact, told = inexact + trial.inexact, told + trial.told
        too_long, files, lines = (
            too_long + trial.too_long, files + trial.files, lines + trial.lines
        )  # fmt: skip
        pace.tell(done)
    print(
        f"ask: {queries} queries, {files} files and {lines} lines due, {too_long} times too long; "
        f"{inexact} of {told} answers with small limits told to be inexact"
    )


# ---- more files than a reply shows

ALIKE, FILES = 10_050, 12_000  # files before the first longer one, and all
LOST = 329  # of the files of one length those that no reply shows


class Crowd:
    """Many small files: all have `common base`, and some have other words."""

    def __init__(self, folder: Path, program: str) -> None:
        self.top = os.fsencode(folder / "crowd")
        (folder / "many").mkdir()
        self.asking = Direct(program, folder / "many")
        self.known: list[Known] = []
        above = 1
        for number, name in enumerate(self.top.split(b"/")[1:], 2):
            self.asking.feed(b"mkdir", number, above, name, 0, 0, b"755")
            above = number
        for number in range(10):
            self.asking.feed(b"mkdir", 20 + number, above, b"d%d" % number, 0, 0, b"755")
        with tempfile.TemporaryFile() as batch:
            for number in range(FILES):
                batch.write(self._file(number))
            batch.seek(0)
            self.asking.talk.feed(batch, 2 * FILES)
        self.known.sort(key=lambda file: file.paths)

    def _file(self, number: int) -> bytes:
        words = [b"common", b"base"] + [b"even" if number % 2 == 0 else b"odd"]
        words += [b"third" if number % 3 == 0 else b"rest"]
        words += [b"even"] * (number % 7 if number >= ALIKE else 0)
        text = b" ".join(words) + b"\n"
        name = b"f%d.%b" % (number, b"md" if number % 5 else b"txt")
        self.known.append(Known((b"%b/d%d/%b" % (self.top, number % 10, name),), text))
        made = spell(b"create", 100 + number, 20 + number % 10, name, USER, USER, b"600")
        return made + spell(b"text", 100 + number, len(text)) + text + b"\n"


# A query, of which files it holds, and how many of them at most aren't looked at.
CROWDED: tuple[tuple[bytes, Callable[[int], bool], int], ...] = (
    (b"common even", lambda number: has_even(number), 0),
    (b"even -third", lambda number: has_even(number) and number % 3 != 0, 0),
    (b"common -third -odd", lambda number: number % 6 in (2, 4), 0),
    (b"third OR -even", lambda number: number % 3 == 0 or not has_even(number), 0),
    (b"even ext:txt", lambda number: has_even(number) and number % 5 == 0, 0),
    (b"common in:CROWD/d3 ext:md", lambda number: number % 10 == 3 and number % 5 != 0, LOST),
    (b'"common base"', lambda number: True, 0),
    (b"common NEAR/3 base ext:md", lambda number: number % 5 != 0, LOST),
    (b"-nothing", lambda number: True, 0),
    (b"ext:md", lambda number: number % 5 != 0, 0),
)


def has_even(number: int) -> bool:
    """Whether a file of the crowd has that word."""
    return number % 2 == 0 or (number >= ALIKE and number % 7 > 0)


def crowds(score: Score, program: str) -> None:
    """Sets, numbers and the first files of more than a reply shows; what isn't whole is told."""
    with quick_folder() as name:
        crowd = Crowd(Path(name), program)
        for typed, holds_for, lost in CROWDED:
            _crowded(score, crowd, typed.replace(b"CROWD", crowd.top), holds_for, lost)
        crowd.asking.close()


def _crowded(
    score: Score, crowd: Crowd, typed: bytes, holds_for: Callable[[int], bool], lost: int
) -> None:
    question = language.read(typed)
    some = find_forms(question.texts, Marks.COUNTED, crowd.asking.terms) if question.texts else None
    condition = None
    if question.paths is not None:
        condition = paths.condition_of(question.paths, paths.Standing(b"/"))
    search_ = Search(crowd.asking, Meant(question, some or forms.Forms(), condition))
    told = search_.files(10)
    due = {file.paths[0] for file in crowd.known if holds_for(_number_of(file.paths[0]))}
    words = set() if question.texts is None else {
        word.text for word in wanted_words(question.texts)}  # fmt: skip
    ranked = scores(crowd.known, words)
    order = sorted(due, key=lambda path: (path not in ranked, -ranked.get(path, 0), path))
    first = [file.path for file in told.first]
    score.check(first == order[:10], f"{typed!r}: {first} in place of {order[:10]}")
    number = told.total.number
    is_right = number == len(due) if told.total.is_exact else len(due) - lost <= number <= len(due)
    score.check(is_right, f"{typed!r}: {told.total} in place of {len(due)}")
    is_told = bool(search_.notes)
    score.check(is_told == (lost > 0), f"{typed!r}: {search_.notes}")


def _number_of(path: bytes) -> int:
    return int(path.rpartition(b"/f")[2].partition(b".")[0])


# ---- wrong translations

_REAL_ROW = translation.Translation._row
_REAL_KEPT = translation.Translation._kept
_REAL_AT_MOST = translation._at_most


def _window_within(one: expression.Expression, tokens: int) -> expression.Expression:
    """`< [n]`, which asks for tokens around."""
    return Joined(Operator.HOLDS, Window(tokens), one)


MUTANTS: dict[str, AbstractContextManager[object]] = {
    "a stretch may have a token more": mock.patch.object(
        translation, "_at_most", lambda one, tokens: _REAL_AT_MOST(one, tokens + 1)
    ),
    "a stretch may have a token less": mock.patch.object(
        translation, "_at_most", lambda one, tokens: _REAL_AT_MOST(one, max(tokens - 1, 1))
    ),
    "stretches by windows around them": mock.patch.object(
        translation, "_at_most", _window_within
    ),
    "a phrase goes over words": mock.patch.object(
        translation, "LINE_START", Window(1)
    ),
    "a line end is one token": mock.patch.object(translation, "LINE_END_TOKENS", 1),
    "a line end is three tokens": mock.patch.object(translation, "LINE_END_TOKENS", 3),
    "a phrase stays on a line": mock.patch.object(
        translation.Translation, "_side", lambda self, side, _: self._row(side.words)
    ),
    "NEAR takes all alternatives as the first": mock.patch.object(
        translation.Translation, "_by_length",
        lambda self, sides, scope: {
            len(sides[0].words): expression.joined(
                Operator.EITHER, [self._side(one, scope) for one in sides]
            )
        },
    ),
    "NEAR in the order of its units": mock.patch.object(
        Operator.BOTH, "_value_", (".." , 3)
    ),
    "what isn't excluded is forgotten": mock.patch.object(
        translation.Translation, "_without", lambda self, base, query, scope: base
    ),
    "only the first of alternatives is excluded": mock.patch.object(
        translation.Translation, "_without",
        lambda self, base, query, scope, real=translation.Translation._without: real(
            self, base, query.parts[0] if isinstance(query, Or) else query, scope
        ),
    ),
    "alternatives forget what stands beside them": mock.patch.object(
        translation.Translation, "_kept",
        lambda self, base, query, scope: (
            self._either(query, scope)
            if isinstance(query, Or) and self._place(query, scope) is None
            else _REAL_KEPT(self, base, query, scope)
        ),
    ),
    "a line is a file": mock.patch.object(
        translation.Translation, "kept",
        lambda self, query, scope, real=translation.Translation.kept: real(
            self, query, Scope.FILE
        ),
    ),
    "accents as they are typed": mock.patch.object(forms, "composed", lambda word: (word,)),
    "no mark in front": mock.patch.object(forms, "FRONT_MARKS", ()),
    "no mark behind": mock.patch.object(forms, "_BEGINNINGS", ()),
    "words that go on without a mark": mock.patch.object(
        forms, "_ends_or_goes_on_by_mark", lambda rest: True
    ),
    "ranked by the excluded words too": mock.patch.object(
        search, "wanted_in", lambda tree, _: list(forms.typed_in(tree))
    ),
    "links aren't looked at": mock.patch.object(
        search, "passing",
        lambda some, condition, _: ({one: one for one in some if condition(one)}, True),
    ),
}  # fmt: skip


def mutants(score: Score, program: str, seed: int, queries: int) -> None:
    """Each wrong translation has to be found."""
    for name, change in MUTANTS.items():
        counted = Score("ask")
        counted.failed = 100  # none of its differences is printed
        with change:
            differences = _differences(counted, program, seed, queries)
        score.check(differences > 0, f"not found: {name}")


def _differences(counted: Score, program: str, seed: int, queries: int) -> int:
    for draw, count in rounds(seed, queries):
        with quick_folder() as name:
            world = World(Path(name), program, draw)
            trial = Trial(counted, world)
            writer = Writer(draw, world)
            for _ in range(count):
                try:
                    trial.ask(*writer.question())
                except (Trouble, AssertionError):
                    counted.failed += 1
            world.close()
        if counted.failed > 100:
            break
    return counted.failed - 100


def main() -> int:
    """Runs the test."""
    parser = options(__doc__ or "")
    parser.add_argument("--queries", type=int, default=300)
    given = parser.parse_args()
    needs_program("ask", given.program)
    score = Score("ask")
    fuzz(score, given.program, given.seed, given.queries)
    crowds(score, given.program)
    mutants(score, given.program, given.seed, given.queries)
    return score.end()


if __name__ == "__main__":
    sys.exit(main())
