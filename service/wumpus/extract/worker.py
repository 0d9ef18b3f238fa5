"""The process of one document: forked before a byte of it was read, and gone after it.

What forks it never reads a document, so its memory has nothing of one.
"""

import os
import signal
from collections.abc import Callable
from dataclasses import dataclass
from typing import Protocol

from .frames import Output, Sink
from .reasons import Reason, Refusal
from .walls import DOCUMENT, OUTPUT, Allowance, Walls, die_with, hold_only, leave_rights, limit

Filter = Callable[[bytes, Output], None]

_FAILED = 1


class Task(Protocol):
    """What a worker does behind its walls."""

    @property
    def walls(self) -> Walls:
        """Its walls."""

    def run(self) -> None:
        """Reads the document and writes its text."""


@dataclass(frozen=True)
class CodeTask:
    """A filter that is code: it writes frames."""

    walls: Walls
    filter: Filter

    def run(self) -> None:
        """Reads the document as a whole, and writes what the filter makes of it."""
        sink = Sink(OUTPUT)
        try:
            self.filter(_whole(DOCUMENT), sink)
            sink.flush()
        except Refusal as refusal:
            sink.why(refusal.reason)
        except MemoryError:
            sink.why(Reason.MEMORY)
        except Exception:  # parsers raise what they like at what is broken
            sink.why(Reason.BROKEN)


@dataclass(frozen=True)
class ProgramTask:
    """A filter that is a program: it writes text."""

    walls: Walls
    words: tuple[str, ...]

    def run(self) -> None:
        """Becomes the program. Its surroundings are the same for each document."""
        os.lseek(DOCUMENT, 0, os.SEEK_SET)
        os.execve(self.words[0], self.words, ENVIRONMENT)


ENVIRONMENT = {"LC_ALL": "C.UTF-8", "PATH": "/usr/bin:/bin"}


def begin(task: Task, descriptors: tuple[int, int, int], allowed: Allowance) -> int:
    """Forks a worker: its number. Raises `OSError` where there is no process.

    The descriptors are those of the document, the pipe, and what leads nowhere.
    """
    parent = os.getpid()
    number = os.fork()
    if number == 0:
        status = _FAILED
        try:
            _wall_in(task.walls, parent, descriptors, allowed)
            task.run()
            status = 0
        except BaseException:  # the process ends here, whatever came
            status = _FAILED
        finally:
            os._exit(status)
    return number


def _wall_in(
    walls: Walls, parent: int, descriptors: tuple[int, int, int], allowed: Allowance
) -> None:
    """All walls, the outer ones first."""
    leave_rights()
    die_with(parent)
    _forget_signals()
    walls.restrict()
    hold_only(*descriptors)
    limit(allowed)
    walls.filter()


def _forget_signals() -> None:
    """Signals do what they do where nobody asked for anything else."""
    signal.set_wakeup_fd(-1)
    for one in (signal.SIGPIPE, signal.SIGINT, signal.SIGTERM, signal.SIGXFSZ):
        signal.signal(one, signal.SIG_DFL)


def _whole(descriptor: int) -> bytes:
    size = os.lseek(descriptor, 0, os.SEEK_END)
    pieces = []
    place = 0
    while place < size:
        pieces.append(os.pread(descriptor, size - place, place))
        if not pieces[-1]:
            break
        place += len(pieces[-1])
    return pieces[0] if len(pieces) == 1 else b"".join(pieces)
