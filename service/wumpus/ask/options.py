"""The arguments: which are options, and which are the query.

A word of the query may begin with `-`, which excludes. So an argument is an option only where it
begins with `--`, or is `-` and a known letter, with a number where the letter takes one.
"""

import argparse
import os
import re
from collections.abc import Sequence
from dataclasses import dataclass, field
from typing import Any

from .. import VERSION
from ..shared.script import SHOWN_MAX
from ..shared.store import SOCKETS
from .asking import Trouble
from .language import is_plain

_WHEN = ("auto", "always", "never")


@dataclass
class Known:
    """The options: which there are, and which of them take a value."""

    parser: argparse.ArgumentParser
    names: set[str] = field(default_factory=set)
    valued: set[str] = field(default_factory=set)
    numbered: set[str] = field(default_factory=set)

    def flag(self, *names: str, **more: Any) -> None:
        """An option without a value."""
        self.names.update(names)
        self.parser.add_argument(*names, action="store_true", **more)

    def value(self, *names: str, **more: Any) -> None:
        """An option with a value."""
        self.names.update(names)
        self.valued.update(names)
        if more.get("type") is int:
            self.numbered.update(names)
        self.parser.add_argument(*names, **more)


def known_options() -> Known:
    """All options of the client."""
    parser = argparse.ArgumentParser(
        prog="wumpus-ask",
        usage="wumpus-ask [OPTION].. QUERY..",
        description="Searches the files that you may read, by their words.",
        epilog='A query: budget lunch, "the plan", -draft, a OR b, plan*, a NEAR/5 b, line:(a b), '
        "in:DIR, name:GLOB, ext:md. Exit status: 0 something was found, 1 nothing, 2 trouble.",
        allow_abbrev=False,
        add_help=False,
    )
    known = Known(parser)
    flag, value = known.flag, known.value
    flag("-c", "--count", help="count files alone")
    flag("-l", "--list", help="list paths alone")
    flag("-0", "--null", help="list paths, each with a NUL behind")
    flag("-L", "--lines", help="lines for which the query holds, by path")
    value("-n", "--number", type=int, metavar="N", help="at most so many files, or lines with -L")
    value("-m", "--max-count", type=int, metavar="N", help="at most so many lines of a file")
    value("-A", "--after-context", type=int, metavar="N", help="so many lines after each")
    value("-B", "--before-context", type=int, metavar="N", help="so many lines before each")
    value("-C", "--context", type=int, metavar="N", help="so many lines before and after each")
    value("-o", "--open", type=int, metavar="N", help="open the Nth result in $VISUAL or $EDITOR")
    value("-f", "--file", metavar="FILE", help="read the query from a file, - is standard input")
    value("-e", "--expression", metavar="EXPR", help="the places of an expression, by path")
    flag("--vimgrep", help="path:line:column:text")
    flag("--json", help="a JSON value a line")
    flag("--explain", help="tell what is asked, on standard error")
    flag("--any", help="any of the words in place of all")
    flag("--exact-words", help="words with typographic marks don't count as those without")
    value("--color", choices=_WHEN, default="auto", help="highlighting (auto)")
    value("--hyperlink", choices=_WHEN, default="never", help="paths as links (never)")
    flag("--no-color", help="as --color never")
    flag("--no-pager", help="no pager at a terminal")
    value("--complete", metavar="TEXT", help="the words that go on with TEXT, most files first")
    value("--sockets", default=SOCKETS, metavar="DIR", help=f"of the service ({SOCKETS})")
    known.names.update({"-h", "--help", "--version"})
    parser.add_argument("-h", "--help", action="help", help="show this")
    parser.add_argument("--version", action="version", version=f"wumpus-ask {VERSION}")
    return known


def divide(arguments: Sequence[str], known: Known) -> tuple[list[str], list[str]]:
    """The options with their values, and the words of the query."""
    options: list[str] = []
    words: list[str] = []
    waiting = list(arguments)
    while waiting:
        argument = waiting.pop(0)
        if argument == "--":
            return options, words + waiting
        if argument == "-l0":
            options += ["-l", "-0"]  # the one pair of letters that everybody writes so
            continue
        short = re.fullmatch(r"(-[A-Za-z0-9])([0-9]*)", argument)
        if argument.startswith("--"):
            options.append(argument)
            if argument in known.valued and waiting:
                options.append(waiting.pop(0))
        elif short and short[1] in known.names and (not short[2] or short[1] in known.numbered):
            options.append(short[1])
            if short[2]:
                options.append(short[2])
            elif short[1] in known.valued and waiting:
                options.append(waiting.pop(0))
        else:
            words.append(argument)
    return options, words


def read_arguments(arguments: Sequence[str]) -> argparse.Namespace:
    """The options, with the words of the query as `words`. Raises `Trouble`."""
    known = known_options()
    options, words = divide(arguments, known)
    given = known.parser.parse_args(_with_values_joined(options, known))
    given.words = words
    _check(given)
    return given


def _with_values_joined(options: list[str], known: Known) -> list[str]:
    """The same, so that a value that begins with `-` is one."""
    told: list[str] = []
    for option in options:
        if told and told[-1] in known.valued:
            sign = "=" if told[-1].startswith("--") else ""
            told[-1] += sign + option
        else:
            told.append(option)
    return told


def _check(given: argparse.Namespace) -> None:
    """Raises `Trouble` where options are missing, out of range, or contradict each other."""
    sources = [bool(given.words), given.file is not None, given.expression is not None]
    if sum(sources) != 1 and given.complete is None:
        raise Trouble("give a query: words, -f FILE, or an expression with -e")
    for name, value in (("-n", given.number), ("-m", given.max_count)):
        if value is not None and not 0 <= value <= SHOWN_MAX:
            raise Trouble(f"{name} is 0 to {SHOWN_MAX}")
    around = (given.after_context, given.before_context, given.context)
    if any(value is not None and value < 0 for value in around):
        raise Trouble("-A, -B and -C are at least 0")
    if given.open is not None and not 1 <= given.open <= SHOWN_MAX:
        raise Trouble(f"-o is 1 to {SHOWN_MAX}")
    formats = [given.count, given.list or given.null, given.vimgrep, given.open is not None]
    if sum(formats) > 1:
        raise Trouble("only one of -c, -l, --vimgrep and -o can be given")


def query_of(words: Sequence[str]) -> bytes:
    """The query of its arguments. One with blanks and no syntax is a phrase.

    The shell took the quotes away that stood around it.
    """
    parts = [os.fsencode(word) for word in words]
    return b" ".join(b'"%b"' % part if is_plain(part) else part for part in parts)
