"""The places of an expression of the program's own language, as they are asked with `-e`."""

import argparse
import os
import sys
from collections.abc import Iterator

from ..shared.words import spans_of, words_of
from .asking import Asking, Trouble
from .habits import about_expression
from .output import Style, as_json, shown

SHOWN = 10
FOUND, NONE = 0, 1


def run_expression(asking: Asking, given: argparse.Namespace, style: Style) -> int:
    """Counts or shows the places. Raises `Trouble`."""
    expression = os.fsencode(given.expression)
    if given.count:
        return _count(asking, expression, given)
    return _show(asking, expression, given, style)


def check_expression(expression: str) -> None:
    """Raises `Trouble` where an expression is written as another program has it."""
    told = about_expression(expression)
    if told is not None:
        raise Trouble(told)


def _count(asking: Asking, expression: bytes, given: argparse.Namespace) -> int:
    _, hits, files = asking.ask(b"count", expression)[0]
    if given.json:
        told = as_json({"matches": int(hits), "files": int(files)})
    else:
        told = b"%b matches in %b files\n" % (hits, files)
    sys.stdout.buffer.write(told)
    return FOUND if hits != b"0" else NONE


def _show(asking: Asking, expression: bytes, given: argparse.Namespace, style: Style) -> int:
    number = SHOWN if given.number is None else given.number
    first, *results = asking.ask(b"find", number, expression)
    words = frozenset(words_of(b" ".join(_quoted_in(expression))))
    out = sys.stdout.buffer
    last = b""
    for path, start, end, line, snippet in results:
        if given.json:
            value = {"path": path, "start": int(start), "end": int(end)}
            out.write(as_json(value | {"line": int(line), "text": snippet}))
        elif given.list:
            if path != last:
                out.write(shown(path, style) + b"\n")
        else:
            told = style.marked(snippet, list(spans_of(snippet, words)))
            out.write(b"%b:%b: %b\n" % (style.head(path), line, told))
        last = path
    out.flush()
    left = int(first[1]) - len(results)
    if left and style.is_terminal and not given.json:
        print(f"{left} more places: -n shows more", file=sys.stderr)
    return FOUND if first[1] != b"0" else NONE


def _quoted_in(expression: bytes) -> Iterator[bytes]:
    """What stands in quotes."""
    yield from expression.split(b'"')[1::2]
