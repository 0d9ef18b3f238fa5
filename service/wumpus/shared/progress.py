"""What is told on standard error: warnings, and how far the mirror is where that is a terminal."""

import os
import sys
import time
from collections import Counter

EVERY = 0.1
WARNINGS = 1000  # of one turn: names are of users, who can make any number of them
OF_ONE_KIND = 5  # paths of which the same is told in a turn
PATH_SHOWN = 400  # bytes of a path


class Progress:
    """A line that is written over and over; nothing where standard error is no terminal."""

    def __init__(self, program: str, quiet: bool) -> None:
        self.program = program
        self.shown = sys.stderr.isatty() and not quiet
        self.quiet = quiet
        self.last = 0.0
        self.wide = 0
        self.warned: set[str] = set()  # in this turn
        self.before: set[str] = set()  # in the one before
        self.kinds: Counter[str] = Counter()  # paths of each kind, in this turn
        self.counts: dict[str, int] = {}  # how many more there were of each kind, as was told

    def tell(self, text: str) -> None:
        """Shows how far it is, at most ten times a second."""
        now = time.monotonic()
        if self.shown and now - self.last >= EVERY:
            self.last = now
            self._write(text)

    def _write(self, text: str) -> None:
        print("\r" + text.ljust(self.wide), end="", file=sys.stderr, flush=True)
        self.wide = len(text)

    def clear(self) -> None:
        """Takes the line away."""
        if self.wide:
            self._write("")
            print("\r", end="", file=sys.stderr, flush=True)
            self.wide = 0

    def warn(self, text: str) -> None:
        """Tells of something that is left out, once."""
        if self.quiet or text in self.warned or len(self.warned) > WARNINGS:
            return
        if text in self.before:
            self.warned.add(text)
            return
        if len(self.warned) == WARNINGS:
            text = "more is left out or shut than is told here"
        self.warned.add(text)
        self.clear()
        print(f"{self.program}: {plain(text)}", file=sys.stderr)

    def warn_of(self, kind: str, path: bytes) -> None:
        """Tells of a path, and what is the matter with it: of each kind the first few."""
        self.kinds[kind] += 1
        if self.kinds[kind] <= OF_ONE_KIND:
            shown = path if len(path) <= PATH_SHOWN else path[:PATH_SHOWN] + b".."
            self.warn(f"{os.fsdecode(shown)}: {kind}")

    def end_turn(self) -> None:
        """Tells how many more paths there were of each kind, where that is another number."""
        more = {kind: count - OF_ONE_KIND for kind, count in self.kinds.items()}
        for kind, count in more.items():
            if count > 0 and self.counts.get(kind) != count and not self.quiet:
                self.clear()
                print(f"{self.program}: {count} more: {kind}", file=sys.stderr)
        self.counts = more

    def next_turn(self) -> None:
        """What the last turn warned of isn't told again, and what was before it is forgotten."""
        self.before, self.warned = self.warned, set()
        self.kinds = Counter()


def plain(text: str) -> str:
    """The text with its control characters, and bytes that are no UTF-8, as escapes."""
    return "".join(one if one.isprintable() else _escaped(one) for one in text)


def _escaped(one: str) -> str:
    code = ord(one)
    if 0xDC80 <= code <= 0xDCFF:
        return f"\\x{code - 0xDC00:02x}"
    if code < 0x100:
        return f"\\x{code:02x}"
    return f"\\u{code:04x}" if code < 0x10000 else f"\\U{code:08x}"
