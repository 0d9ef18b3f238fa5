"""What was found, with the lines of the files as they are now."""

from collections.abc import Iterator, Sequence
from dataclasses import dataclass
from enum import Enum, auto

from ..shared.lines import Lines
from .content import Lack, Reader
from .expression import Scope
from .matching import Matcher, Shown
from .output import Around, Result, Row, grouped
from .search import File, Meant, Place


class Choice(Enum):
    """Which of a file's lines are shown, where not all are."""

    BEST = auto()
    FIRST = auto()
    NONE = auto()


@dataclass(frozen=True)
class Share:
    """How much of a file is shown."""

    choice: Choice
    lines: int
    around: Around


def of_files(files: Sequence[File], meant: Meant, share: Share) -> Iterator[Result]:
    """The files with their lines that match."""
    matcher = Matcher(meant.question.texts, meant.forms, Scope.FILE)
    reader = Reader()
    for file in files:
        if share.choice is Choice.NONE or not matcher.parts:
            yield Result(file.path, file.score, ())
            continue
        told = reader.lines_of(file.path)
        if isinstance(told, Lack):
            yield Result(file.path, file.score, (), told.value)
            continue
        if share.choice is Choice.BEST:
            found = matcher.best(told.lines, max(share.lines, 1))
        else:
            found = matcher.shown(told.lines)
        note = "" if found else Lack.CHANGED.value
        chosen = found[: share.lines]
        yield Result(file.path, file.score, grouped(told, chosen, share.around), note)


def of_places(places: Sequence[Place], meant: Meant, around: Around) -> Iterator[Result]:
    """The lines that were found, by file; as they were indexed where the file has changed."""
    matcher = Matcher(meant.question.texts, meant.forms, Scope.LINE)
    reader = Reader()
    by_path: dict[bytes, list[Place]] = {}
    for place in places:
        by_path.setdefault(place.path, []).append(place)
    for path, some in by_path.items():
        told = reader.lines_of(path)
        lines = told.lines if isinstance(told, Lines) else []
        if isinstance(told, Lines) and all(_is_still_there(place, lines) for place in some):
            shown = [_line_shown(place.line, lines[place.line - 1], matcher) for place in some]
            yield Result(path, None, grouped(told, shown, around))
        else:
            rows = [[_row_of(place, lines, matcher)] for place in some]
            lack = told if isinstance(told, Lack) else Lack.CHANGED
            yield Result(path, None, rows, lack.value)


def of_each_file(places: Sequence[Place], most: int) -> list[Place]:
    """The first places of each file."""
    counts: dict[bytes, int] = {}
    found = []
    for place in places:
        counts[place.path] = counts.get(place.path, 0) + 1
        if counts[place.path] <= most:
            found.append(place)
    return found


def _is_still_there(place: Place, lines: Sequence[bytes]) -> bool:
    """Whether a line begins as it did when it was indexed.

    A document's form feeds were taken away from its lines.
    """
    line = lines[place.line - 1] if place.line <= len(lines) else None
    return line is not None and line.startswith((place.snippet, place.snippet.strip(b"\f")))


def _line_shown(number: int, line: bytes, matcher: Matcher) -> Shown:
    found = matcher.shown([line])
    return Shown(number, found[0].spans if found else (), 1)


def _row_of(place: Place, lines: Sequence[bytes], matcher: Matcher) -> Row:
    text = lines[place.line - 1] if _is_still_there(place, lines) else place.snippet
    return Row(place.line, text.rstrip(b"\r"), _line_shown(place.line, text, matcher).spans)
