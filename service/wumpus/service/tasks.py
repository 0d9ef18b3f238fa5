"""What the program is asked: one thing at a time, each with its owner and its end.

A task gives its bytes, takes the lines of its reply, and ends once: by `finish`, or by `fail` where
the program ended, was killed, or answered something else. Whoever asked is told by that end.
"""

import os
import stat
from abc import ABC, abstractmethod
from collections.abc import Callable
from dataclasses import dataclass
from enum import Enum

from ..shared.program import Pieces
from ..shared.script import BadReply, lines_after


class Cause(Enum):
    """Why a task failed."""

    SLOW = "slow"  # it took longer than it may, and the program was killed
    MEMORY = "memory"  # the program had none, or the kernel killed it
    ENDED = "ended"  # by itself
    ANSWER = "answer"  # another one than the language has
    OTHERS = "others"  # the program was killed for something else


@dataclass(frozen=True, slots=True)
class Failure:
    """How a task failed, in words for the administrator."""

    cause: Cause
    why: str


class Task(ABC):
    """One thing that the program is asked."""

    # Seconds of the processor, for a query; None: only the limit of all tasks holds.
    seconds: float | None = None

    @abstractmethod
    def more(self) -> bytes:
        """The next bytes for the program; empty where it was given all."""

    @abstractmethod
    def line(self, line: bytes) -> bool:
        """Takes a line of the reply; tells whether it is the last. Raises `BadReply`."""

    @abstractmethod
    def finish(self, taken: float) -> None:
        """The reply is whole, after so many seconds."""

    @abstractmethod
    def fail(self, failure: Failure, taken: float) -> None:
        """There is no whole reply; the program is gone."""


class Line(Task):
    """A line whose reply has one line. `ends` is told of it, or of the failure."""

    def __init__(self, line: bytes, ends: Callable[[bytes | Failure, float], None]) -> None:
        self.given = line
        self.ends = ends
        self.reply = b""

    def more(self) -> bytes:
        """The line, once."""
        line, self.given = self.given, b""
        return line

    def line(self, line: bytes) -> bool:
        """The reply."""
        self.reply = line
        return True

    def finish(self, taken: float) -> None:
        """Hands the reply on."""
        self.ends(self.reply, taken)

    def fail(self, failure: Failure, taken: float) -> None:
        """Hands the failure on."""
        self.ends(failure, taken)


class Asked(Task):
    """A query of a user, after lines that tell the program groups.

    Of a reply that is longer than `longest` nothing is kept: it is handed on as an empty one.
    """

    def __init__(
        self,
        groups: list[bytes],
        query: bytes,
        seconds: float,
        longest: int,
        ends: Callable[[bytes | Failure, float], None],
    ) -> None:
        self.seconds = seconds
        self.given = b"".join([*groups, query])
        self.groups_due = len(groups)
        self.longest = longest
        self.ends = ends
        self.reply = bytearray()
        self.size = 0
        self.lines_due = 0

    def more(self) -> bytes:
        """The lines, once."""
        lines, self.given = self.given, b""
        return lines

    def line(self, line: bytes) -> bool:
        """Takes `ok` for the groups, and the lines of the reply."""
        if self.groups_due:
            if line != b"ok":
                raise BadReply(f"a user's groups were answered {line[:80]!r}")
            self.groups_due -= 1
            return False
        if self.size == 0:
            self.lines_due = 1 + lines_after(line)
        self.lines_due -= 1
        self.size += len(line) + 1
        if self.size <= self.longest:
            self.reply += line + b"\n"
        return self.lines_due == 0

    def finish(self, taken: float) -> None:
        """Hands the reply on."""
        self.ends(bytes(self.reply) if self.size <= self.longest else b"", taken)

    def fail(self, failure: Failure, taken: float) -> None:
        """Hands the failure on."""
        self.ends(failure, taken)


class NoFile(Exception):
    """What came with a batch can't be read as a file; the text says why."""


class Fed(Task):
    """A batch of a mirror: a file with lines, each of which is to be answered `ok`.

    It owns the file, which is read from its front, wherever the mirror's own place in it is.
    Raises `NoFile`.
    """

    def __init__(self, file: int, due: int, ends: Callable[[Failure | None, float], None]) -> None:
        self.file = file
        self.due = due
        self.ends = ends
        if not stat.S_ISREG(os.fstat(file).st_mode):
            self._close()
            raise NoFile("a batch is to be a file")
        self.pieces = Pieces(file)

    def more(self) -> bytes:
        """The next piece of the file. Raises `BadReply` where it can't be read."""
        try:
            return self.pieces.next(self.due)
        except OSError as error:
            raise BadReply(f"a batch can't be read: {error}") from error

    def line(self, line: bytes) -> bool:
        """Takes the reply to one line."""
        if line != b"ok":
            raise BadReply(f"a line of a batch was answered {line[:80]!r}")
        self.due -= 1
        return self.due == 0

    def finish(self, taken: float) -> None:
        """It is in the program, and saved by its last line."""
        self._close()
        self.ends(None, taken)

    def fail(self, failure: Failure, taken: float) -> None:
        """Nothing of it is saved, or all of it: its serial tells."""
        self._close()
        self.ends(failure, taken)

    def _close(self) -> None:
        os.close(self.file)
        self.file = -1
