"""Workers that this process forks itself: of a user who asks, and of the server when it begins.

They have the same walls as those of the server. What forks them may know what its user knows, and
what they write is read by nobody else.
"""

import os
import select
import signal
import time
from dataclasses import dataclass

from .documents import Document
from .reasons import Ended, Way
from .walls import Allowance
from .worker import ProgramTask, Task, begin


def ended_of(process: int) -> Ended:
    """How a process ended, which has ended, or is about to."""
    _, status, usage = os.wait4(process, 0)
    seconds = usage.ru_utime + usage.ru_stime
    code = os.waitstatus_to_exitcode(status)
    way = Way.SIGNAL if code < 0 else Way.EXIT
    return Ended(way, abs(code), seconds, usage.ru_maxrss)


class OwnRun:
    """A child of this process."""

    def __init__(self, process: int, output: int, patience: float) -> None:
        self.process = process
        self.output = output
        self.patience = patience
        self.late = time.monotonic() + patience

    def end(self) -> Ended:
        """Closes the pipe, and waits for the child, or ends it."""
        os.close(self.output)
        watched = os.pidfd_open(self.process)
        try:
            poller = select.poll()
            poller.register(watched, select.POLLIN)
            is_late = not poller.poll(max(0.0, self.late - time.monotonic()) * 1000)
            if is_late:
                signal.pidfd_send_signal(watched, signal.SIGKILL)
        finally:
            os.close(watched)
        ended = ended_of(self.process)
        return Ended(Way.LATE, 0, ended.seconds, ended.peak) if is_late else ended


@dataclass
class NoRun:
    """A worker that couldn't be begun."""

    output: int
    way: Way
    patience: float = 1.0

    def end(self) -> Ended:
        """Closes the pipe, which has nothing in it."""
        os.close(self.output)
        return Ended(self.way)


def no_run(way: Way) -> NoRun:
    """A worker that couldn't be begun: its pipe is at its end at once."""
    reading, writing = os.pipe2(os.O_CLOEXEC)
    os.close(writing)
    return NoRun(reading, way)


class OwnWorkers:
    """Forks a worker for each document."""

    def __init__(self, tasks: dict[str, Task]) -> None:
        self.tasks = tasks
        self.nowhere = os.open(os.devnull, os.O_RDWR | os.O_CLOEXEC)

    def is_program(self, kind: str) -> bool | None:
        """Tells whether a kind is made by a program; None if by nobody."""
        task = self.tasks.get(kind)
        return None if task is None else isinstance(task, ProgramTask)

    def begin(self, kind: str, document: Document, allowed: Allowance) -> OwnRun | NoRun:
        """Forks a worker."""
        reading, writing = os.pipe2(os.O_CLOEXEC)
        descriptors = (document.descriptor, writing, self.nowhere)
        try:
            process = begin(self.tasks[kind], descriptors, allowed)
        except OSError:
            return NoRun(reading, Way.NO_PROCESS)
        finally:
            os.close(writing)
        return OwnRun(process, reading, allowed.patience)

    def close(self) -> None:
        """Closes what is open of it."""
        os.close(self.nowhere)
