"""The command line of `wumpus-ask`: for people who look for something in files."""

import argparse
import os
import sys
from collections.abc import Iterator
from contextlib import suppress
from dataclasses import dataclass, replace
from pathlib import Path

from ..shared.progress import plain
from ..shared.script import SHOWN_MAX
from ..shared.store import ASK
from . import language
from .asking import Asking, Trouble
from .explain import Why, at_fault, explained, too_long
from .expression import Scope, TooLong
from .forms import Forms, Marks, find_forms
from .options import query_of, read_arguments
from .output import Around, Format, Layer, Result, Style, Writer, as_json, has_colour
from .paths import condition_of, missing_folders, standing_here
from .places import check_expression, run_expression
from .results import Choice, Share, of_each_file, of_files, of_places
from .search import Count, Meant, Search
from .suggestions import completions
from .terminal import open_in_editor, paged
from .tree import Fault, Line, Question, Span, text_of

FOUND, NONE, TROUBLE = 0, 1, 2
FILES_AT_TERMINAL = 10
LINES_AT_TERMINAL = 3
LIST_FORMATS = (Format.PATHS, Format.PATHS_WITH_NUL)


class Misread(Trouble):
    """The query can't be asked; where and why stands below it."""

    def __init__(self, query: bytes, fault: Fault) -> None:
        super().__init__(fault.message)
        self.lines = at_fault(query, fault)


@dataclass(frozen=True)
class Wish:
    """What is written, and how much of it."""

    given: argparse.Namespace
    format: Format
    style: Style
    number: int
    share: Share

    @property
    def wants_lines(self) -> bool:
        """Whether lines are the results, and not files."""
        return bool(self.given.lines) and not self.is_list

    @property
    def is_list(self) -> bool:
        """Whether paths alone are written."""
        return bool(self.given.list or self.given.null)


def wish_of(given: argparse.Namespace) -> Wish:
    """What the options wish."""
    is_terminal = sys.stdout.isatty()
    format_ = _format_of(given, is_terminal)
    colour = "never" if given.no_color else given.color
    is_coloured = has_colour(colour, is_terminal) and format_ is not Format.JSON
    has_links = given.hyperlink == "always" or (given.hyperlink == "auto" and is_coloured)
    layer = Layer.TERMINAL if is_terminal else Layer.PIPE
    is_short = is_terminal and format_ in (Format.HEADS, Format.PATHS)
    number = FILES_AT_TERMINAL if is_short else SHOWN_MAX
    number = max(number, given.open or 0) if given.number is None else given.number
    return Wish(
        given, format_, Style(layer, is_coloured, has_links), number, _share_of(given, format_)
    )


def _format_of(given: argparse.Namespace, is_terminal: bool) -> Format:
    if given.json:
        return Format.JSON
    if given.null:
        return Format.PATHS_WITH_NUL
    if given.list:
        return Format.PATHS
    if given.vimgrep:
        return Format.VIMGREP
    return Format.HEADS if is_terminal else Format.LINES


def _share_of(given: argparse.Namespace, format_: Format) -> Share:
    """How much is shown of a file."""
    both = given.context or 0
    before, after = given.before_context, given.after_context
    around = Around(both if before is None else before, both if after is None else after)
    if given.list or given.null:
        return Share(Choice.NONE, 0, around)
    is_best = format_ is Format.HEADS
    most = LINES_AT_TERMINAL if is_best and not given.lines else SHOWN_MAX
    if given.max_count is not None:
        most = given.max_count
    return Share(Choice.BEST if is_best else Choice.FIRST, most, around)


# ---- what is asked


def question_of(given: argparse.Namespace) -> Question:
    """What the arguments ask. Raises `Misread`, and `Trouble` where a file can't be read."""
    typed = query_of(given.words) if given.file is None else _query_in(given.file)
    try:
        question = language.read(typed)
    except Fault as fault:
        raise Misread(typed, fault) from fault
    if given.any:
        question = language.any_of(question)
    if given.lines and (given.list or given.null) and question.texts is not None:
        return replace(question, texts=Line(question.texts, Span(0, len(typed))))
    return question


def _query_in(name: str) -> bytes:
    """The query in a file; no more is read of it than is needed to say that it is too long."""
    try:
        with open(0 if name == "-" else name, "rb", closefd=name != "-") as file:
            return file.read(language.QUERY_BYTES + 2).rstrip(b"\r\n")
    except OSError as error:
        raise Trouble(f"{name}: {error.strerror}") from error


def meant_by(question: Question, given: argparse.Namespace, asking: Asking) -> Meant:
    """The question with the words for which its words stand, and its condition on paths."""
    forms = Forms()
    marks = Marks.LEFT_OUT if given.exact_words else Marks.COUNTED
    if question.texts is not None:
        try:
            forms = find_forms(question.texts, marks, asking.terms)
        except Fault as fault:
            raise Misread(question.typed, fault) from fault
    if question.paths is None:
        return Meant(question, forms, None)
    standing = standing_here()
    for folder in missing_folders(question.paths, standing):
        tell(f"there is no directory {text_of(folder)}")
    return Meant(question, forms, condition_of(question.paths, standing))


# ---- what is told


def tell(text: str) -> None:
    """Says something on standard error."""
    print(f"wumpus-ask: {plain(text)}", file=sys.stderr)


def told_count(count: Count, what: str) -> str:
    """A number of files or lines."""
    least = "" if count.is_exact else "at least "
    return f"{least}{count.number} {what if count.number == 1 else what + 's'}"


def write_count(search: Search, wish: Wish) -> int:
    """Writes how many there are."""
    if wish.given.lines:
        places = search.lines(0)
        total = places.total
        told = f"{told_count(total, 'line')} in {told_count(places.files, 'file')}"
        value = {"lines": total.number, "files": places.files.number}
    else:
        total = search.count()
        told, value = told_count(total, "file"), {"files": total.number}
    value["exact"] = total.is_exact
    sys.stdout.buffer.write(as_json(value) if wish.given.json else told.encode() + b"\n")
    return FOUND if total.number else NONE


def results_of(search: Search, wish: Wish) -> tuple[Iterator[Result], Count]:
    """The results, and how many there are of all."""
    share = wish.share
    if not wish.wants_lines:
        files = search.files(wish.number)
        return of_files(files.first, search.meant, share), files.total
    has_few = wish.given.max_count is not None
    places = search.lines(SHOWN_MAX if has_few else wish.number)
    first = of_each_file(places.first, share.lines) if has_few else places.first
    return of_places(first[: wish.number], search.meant, share.around), places.total


def write_results(search: Search, wish: Wish) -> int:
    """Writes what is found."""
    results, total = results_of(search, wish)
    if wish.given.open is not None:
        return open_result(list(results), wish.given.open)
    written = 0
    with paged(wish.format in (Format.HEADS, Format.PATHS) and _may_page(wish)) as out:
        writer = Writer(out, wish.style, wish.format, wish.share.around)
        for result in results:
            writer.write(result)
            written += sum(1 for _ in result.rows()) if wish.wants_lines else 1
            if result.note and wish.format in (Format.LINES, Format.VIMGREP):
                tell(f"{text_of(result.path)}: {result.note}")
    tell_of_more(written, total, wish)
    return FOUND if total.number else NONE


def tell_of_more(written: int, total: Count, wish: Wish) -> None:
    """Says how many results aren't shown: never silently less than was asked for."""
    what = "line" if wish.wants_lines else "file"
    if written >= total.number:
        return
    if wish.style.is_terminal and wish.format is not Format.JSON:
        left = replace(total, number=total.number - written)
        tell(f"{told_count(left, f'more {what}')}: -n shows more")
    elif wish.given.max_count is None and (wish.given.number is None or written < wish.number):
        tell(f"{written} of {told_count(total, what)} are shown, and no more at once")


def _may_page(wish: Wish) -> bool:
    return wish.style.is_terminal and not wish.given.no_pager


def open_result(results: list[Result], number: int) -> int:
    """Opens one of the results in an editor, at its first line that matches.

    The lines of a document are none of the file's.
    """
    if number > len(results):
        raise Trouble(f"there are {len(results)} results")
    result = results[number - 1]
    first = next(result.rows(), None)
    return open_in_editor(result.path, first.number if first and not first.place else 1)


# ---- the run


def run(given: argparse.Namespace) -> int:
    """Asks what the options ask. Raises `Trouble`."""
    wish = wish_of(given)
    if given.complete is not None:
        return complete(given)
    if given.expression is not None:
        check_expression(given.expression)
        return run_expression(_asking(given), given, wish.style)
    question = question_of(given)
    asking = _asking(given)
    meant = meant_by(question, given, asking)
    search = Search(asking, meant)
    try:
        if given.explain:
            for line in explained(meant, Scope.LINE if wish.wants_lines else Scope.FILE):
                tell(line)
        status = (write_count if given.count else write_results)(search, wish)
        if status == NONE and wish.style.is_terminal and not given.json:
            tell_why(search)
    except TooLong as fault:
        raise Trouble(too_long(meant, fault)) from fault
    for note in (*meant.forms.notes, *search.notes):
        tell(note)
    return status


def tell_why(search: Search) -> None:
    """Says why nothing was found, and what may have been meant."""
    with suppress(Trouble):  # it is a help: that nothing was found is known
        for line in Why(search).nothing():
            tell(line)


def complete(given: argparse.Namespace) -> int:
    """Writes the words with which one goes on, for the completions of a shell."""
    found = completions(os.fsencode(given.complete), _asking(given))
    sys.stdout.buffer.write(b"".join(one + b"\n" for one in found))
    return FOUND if found else NONE


def _asking(given: argparse.Namespace) -> Asking:
    return Asking(Path(given.sockets) / ASK)


def main() -> int:
    """Runs the command line: 0 found, 1 not, 2 trouble, as grep has them."""
    try:
        status = run(read_arguments(sys.argv[1:]))
        sys.stdout.flush()
        return status
    except Trouble as trouble:
        tell(str(trouble))
        for line in trouble.lines if isinstance(trouble, Misread) and sys.stderr.isatty() else ():
            print(line, file=sys.stderr)
    except BrokenPipeError:
        os.dup2(os.open(os.devnull, os.O_WRONLY), 1)
        return FOUND
    except KeyboardInterrupt:
        pass
    return TROUBLE
