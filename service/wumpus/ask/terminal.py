"""Other programs at a terminal: the pager through which results are read, and the editor."""

import os
import shlex
import subprocess
import sys
from collections.abc import Iterator
from contextlib import contextmanager, suppress
from typing import IO

from .asking import Trouble

PAGER = "less"
LESS = "FRX"  # ends where all fits on the screen, passes colours on, leaves the screen as it is
EDITOR = "vi"


@contextmanager
def paged(wishes_pager: bool) -> Iterator[IO[bytes]]:
    """Where results are written: the pager's input, or where there is none the standard output."""
    words = _words_of("WUMPUS_PAGER", "PAGER", otherwise=PAGER) if wishes_pager else []
    pager = _started(words) if words and words != ["cat"] else None
    if pager is None or pager.stdin is None:
        yield sys.stdout.buffer
        sys.stdout.buffer.flush()
        return
    try:
        yield pager.stdin
        pager.stdin.close()
    except BrokenPipeError:
        pass  # she has seen enough
    finally:
        _wait_for(pager)


def _wait_for(pager: "subprocess.Popen[bytes]") -> None:
    """Waits until a pager ended; an interrupt is for that, and not for this program."""
    while True:
        with suppress(KeyboardInterrupt):
            pager.wait()
            return


def _started(words: list[str]) -> "subprocess.Popen[bytes] | None":
    surroundings = {"LESS": LESS, **os.environ}
    try:
        return subprocess.Popen(words, stdin=subprocess.PIPE, env=surroundings)
    except OSError:
        return None


def _words_of(*names: str, otherwise: str) -> list[str]:
    """The command that the first of some variables has which is there."""
    command = next((os.environ[name] for name in names if name in os.environ), otherwise)
    try:
        return shlex.split(command)
    except ValueError as error:
        raise Trouble(f"{command}: {error}") from error


def open_in_editor(path: bytes, line: int) -> int:
    """Opens a file at a line in the user's editor: its exit status."""
    words = _words_of("VISUAL", "EDITOR", otherwise=EDITOR) or [EDITOR]
    try:
        return subprocess.call([*words, f"+{line}", "--", os.fsdecode(path)])
    except OSError as error:
        raise Trouble(f"{words[0]}: {error.strerror}") from error
