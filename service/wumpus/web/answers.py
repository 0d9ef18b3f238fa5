"""What the page is told: results with their best lines, counts by directory and kind, and a file.

All of it is asked of the service as the user herself, over one connection, one question after the
other. A question that isn't the newest any more when its turn comes is given up.
"""

import os
import re
import threading
import time
from collections import Counter, OrderedDict
from collections.abc import Iterator, Sequence
from contextlib import contextmanager, suppress
from pathlib import Path
from typing import Any

from ..ask import language
from ..ask.asking import Asking, Refused, Trouble
from ..ask.content import Lack, Reader
from ..ask.explain import Why, too_long
from ..ask.expression import Scope, TooLong
from ..ask.forms import Forms, Marks, find_forms
from ..ask.language import PREFIX_BYTES
from ..ask.matching import Matcher, Shown
from ..ask.output import Layer, Style, cut, shown, text_shown
from ..ask.paths import condition_of, standing_here
from ..ask.search import File, Meant, Search
from ..ask.tree import Fault, Or, Question, Span, text_of
from ..shared.lines import Lines
from ..shared.script import SHOWN_MAX
from .guard import Refusal

LINES = 3  # of a file among the results
FILES_AT_MOST = 1000  # of an answer
REMEMBERED = 100_000  # files that may be opened
GROUPS = 12  # directories and kinds
READING = 1.0  # seconds for the lines of results
TEXT_LINES = 5000  # of a file beside the results
TEXT_BYTES = 2_000_000
AROUND = 20  # lines around a match, where a file is longer than that
PLAIN = Style(Layer.TERMINAL, False, False)
_KIND = re.compile(rb"\.([A-Za-z0-9]{1,8})\Z")
_LAST_WORD = re.compile(rb"[0-9A-Za-z\x80-\xff]{%d,}$" % PREFIX_BYTES)

Value = dict[str, Any]


class Answers:
    """Answers the calls of the page."""

    def __init__(self, socket: Path) -> None:
        self.socket = socket
        self.asking: Asking | None = None
        self.turn = threading.Lock()
        self.newest = 0
        self.numbers: OrderedDict[bytes, int] = OrderedDict()  # of files that were results
        self.paths: dict[int, bytes] = {}
        self.given = 0
        self.last: Meant | None = None  # the last question, whose matches a file shows
        self.asked_at = time.monotonic()
        self.reader = Reader()  # for the lines of results
        self.opener = Reader()  # for files that are opened, one after the other
        self.opening = threading.Lock()

    # ---- calls

    def ask(self, value: Value) -> Value:
        """The first results of a query."""
        typed = _bytes_of(value.get("query"))
        number = value.get("number")
        if type(number) is not int or not 0 < number <= FILES_AT_MOST:
            raise Refusal(400, f"a number is 1 to {FILES_AT_MOST}")
        with self._turn() as is_newest:
            if not is_newest:
                return {"superseded": True}
            try:
                return self._answer(typed, number, bool(value.get("typing")))
            except Fault as fault:
                part = typed[fault.span.start : fault.span.end]
                return {"fault": fault.message, "at": _text(part)}

    def file(self, value: Value) -> Value:
        """A file that was a result, with its matches for the last question."""
        number = value.get("file")
        path = self.paths.get(number) if type(number) is int else None
        if path is None:
            raise Refusal(404, "this file wasn't a result")
        self.asked_at = time.monotonic()
        with self.opening:
            self.opener.begin()
            told = self.opener.lines_of(path)
        if isinstance(told, Lack):
            note = "it can't be read any more" if told is Lack.CHANGED else told.value
            return {"path": _name(path), "note": note}
        last = self.last
        found: list[Shown] = []
        if last is not None:
            matcher = Matcher(last.question.texts, last.forms, Scope.FILE)
            found = matcher.shown(told.lines)
        return {"path": _name(path), **_text_of_file(told, found)}

    @contextmanager
    def _turn(self) -> Iterator[bool]:
        """Waits until no other question is asked, and tells whether this one is still wanted."""
        self.asked_at = time.monotonic()
        self.newest += 1
        own = self.newest
        with self.turn:
            yield own == self.newest

    # ---- questions

    def _answer(self, typed: bytes, number: int, is_typing: bool) -> Value:
        """What is found, and why where that is nothing. Raises `Fault`."""
        search, answer = self._found(typed, number)
        if answer["total"]:
            return answer
        if is_typing and _LAST_WORD.search(typed):
            with suppress(Fault):
                _, more = self._found(typed + b"*", number)
                if more["total"]:
                    note = f"{_text(typed)}* was looked for"
                    return {**more, "notes": [note, *more["notes"]]}
        with suppress(Trouble):  # it is a help: that nothing was found is known
            answer["notes"] += Why(search).nothing()
        return answer

    def _found(self, typed: bytes, number: int) -> tuple[Search, Value]:
        """The results of a query. Raises `Fault`."""
        question = language.read(typed)
        asking = self._connected()
        try:
            return self._results(question, asking, number)
        except Refused:
            raise
        except Trouble:
            self.close()  # the service ended the connection, as it does after a while
            return self._results(question, self._connected(), number)

    def _results(self, question: Question, asking: Asking, number: int) -> tuple[Search, Value]:
        meant = meant_by(question, asking)
        search = Search(asking, meant)
        try:
            files = search.files(SHOWN_MAX)
        except TooLong as fault:
            raise Fault(too_long(meant, fault), Span(0, len(question.typed))) from fault
        self.last = meant
        are_all = files.total.is_exact and files.total.number == len(files.first)
        counted = files.first if are_all else []
        return search, {
            "total": files.total.number,
            "exact": files.total.is_exact,
            "files": list(self._shown(files.first[:number], meant)),
            "directories": directories_of(counted, question),
            "kinds": kinds_of(counted, question),
            "notes": [*meant.forms.notes, *search.notes],
        }

    def _connected(self) -> Asking:
        if self.asking is None:
            self.asking = Asking(self.socket)
        return self.asking

    def close(self) -> None:
        """Ends the connection to the service."""
        if self.asking is not None:
            self.asking.close()
            self.asking = None

    # ---- files

    def _shown(self, files: Sequence[File], meant: Meant) -> Iterator[Value]:
        """Files with their best lines, as long as these are quickly read."""
        matcher = Matcher(meant.question.texts, meant.forms, Scope.FILE)
        until = time.monotonic() + READING
        self.reader.begin()
        for file in files:
            value: Value = {"file": self._number_of(file.path), "path": _name(file.path)}
            if not matcher.parts:
                yield {**value, "lines": []}
            elif time.monotonic() > until:
                yield {**value, "lines": [], "note": "open it to see its lines"}
            else:
                told = self.reader.lines_of(file.path)
                if isinstance(told, Lack):
                    yield {**value, "lines": [], "note": told.value}
                    continue
                found = matcher.best(told.lines, LINES)
                note = "" if found else Lack.CHANGED.value
                rows = [_row(one, told, True) for one in found]
                yield {**value, "lines": rows, "note": note}

    def _number_of(self, path: bytes) -> int:
        """The number by which the page names a file; the oldest are forgotten."""
        number = self.numbers.get(path)
        if number is not None:
            self.numbers.move_to_end(path)
            return number
        self.given += 1
        self.numbers[path] = self.given
        self.paths[self.given] = path
        if len(self.numbers) > REMEMBERED:
            _, oldest = self.numbers.popitem(last=False)
            del self.paths[oldest]
        return self.given


def meant_by(question: Question, asking: Asking) -> Meant:
    """The question with the words for which its words stand."""
    forms = Forms()
    if question.texts is not None:
        forms = find_forms(question.texts, Marks.COUNTED, asking.terms)
    condition = None
    if question.paths is not None:
        condition = condition_of(question.paths, standing_here())
    return Meant(question, forms, condition)


# ---- counts


def directories_of(files: Sequence[File], question: Question) -> Value:
    """How many of the files are below each directory of the deepest one that all are in.

    They are those at the greatest depth at which they aren't too many, and each file is in one.
    """
    folders = [file.path.rpartition(b"/")[0].split(b"/") for file in files]
    common = list(os.path.commonprefix(folders))
    folders = [one for one in folders if one != common]
    depth = len(common) + 1
    below = Counter(b"/".join(one[:depth]) for one in folders)
    while all(len(one) > depth for one in folders) and folders:
        deeper = Counter(b"/".join(one[: depth + 1]) for one in folders)
        if len(deeper) > GROUPS:
            break
        below, depth = deeper, depth + 1
    within = b"/".join([*common, b""])
    groups = [
        _group(_name(path.removeprefix(within)), count, b"in:", path, question)
        for path, count in _most(below)
    ]
    return {"within": _name(within), "groups": groups}


def kinds_of(files: Sequence[File], question: Question) -> list[Value]:
    """How many of the files have each ending."""
    endings = (_KIND.search(file.path) for file in files)
    kinds = Counter(found[1].lower() for found in endings if found is not None)
    return [_group(_text(kind), count, b"ext:", kind, question) for kind, count in _most(kinds)]


def _most(counts: "Counter[bytes]") -> list[tuple[bytes, int]]:
    return sorted(counts.items(), key=lambda one: (-one[1], one[0]))[:GROUPS]


def _group(label: str, count: int, subject: bytes, value: bytes, question: Question) -> Value:
    """A count, with the query that finds these files alone; none where it can't be typed."""
    group: Value = {"name": label, "count": count}
    quoted = language.quoted(value)
    if quoted is not None and _text(value).isprintable():
        group["query"] = _text(narrowed_by(subject + quoted, question))
    return group


def narrowed_by(filter_: bytes, question: Question) -> bytes:
    """The query as it was typed, with a filter beside it."""
    sides = (question.texts, question.paths)
    is_either = None in sides and any(isinstance(one, Or) for one in sides)
    typed = b"(%b)" % question.typed if is_either else question.typed
    return typed.rstrip() + b" " + filter_


# ---- text


def _bytes_of(value: object) -> bytes:
    """The bytes of a text of the page; bytes that were no UTF-8 are so again."""
    if not isinstance(value, str):
        raise Refusal(400, "a query is a text")
    try:
        return value.encode("utf-8", "surrogateescape")
    except UnicodeEncodeError as error:
        raise Refusal(400, "this isn't a text") from error


def _text(some: bytes) -> str:
    return text_of(some)


def _name(path: bytes) -> str:
    """A path with its control and format characters as escapes."""
    return shown(path, PLAIN).decode()


def _row(one: Shown, told: Lines, is_cut: bool) -> Value:
    """A line, in pieces of which every second one is a match."""
    line = told.lines[one.number - 1].rstrip(b"\r")
    spans: Sequence[tuple[int, int]] = one.spans
    if is_cut:
        line, spans = cut(line, spans)
    pieces = []
    last = 0
    for start, end in spans:
        pieces += [_shown_text(line[last:start]), _shown_text(line[start:end])]
        last = end
    place = told.place(one.number)
    return {"line": one.number, "place": place, "text": [*pieces, _shown_text(line[last:])]}


def _shown_text(text: bytes) -> str:
    return text_shown(text, PLAIN).decode()


def _text_of_file(told: Lines, found: Sequence[Shown]) -> Value:
    """The lines of a file; of a long one those around its matches."""
    lines = told.lines
    matches = {one.number: one for one in found}
    wanted: Sequence[int] = range(1, len(lines) + 1)
    note = ""
    if len(lines) > TEXT_LINES or sum(map(len, lines)) > TEXT_BYTES:
        note = "the file is long: what is shown is around the matches"
        near = {at for number in matches for at in range(number - AROUND, number + AROUND + 1)}
        wanted = sorted(near & set(wanted)) or wanted
    rows = []
    size = 0
    for number in wanted:
        rows.append(_row(matches.get(number, Shown(number, (), 0)), told, bool(note)))
        size += len(lines[number - 1])
        if len(rows) == TEXT_LINES or size > TEXT_BYTES:
            note = f"the file is long: it is shown to line {number}"
            break
    return {"lines": rows, "note": note, "matches": len(found)}
