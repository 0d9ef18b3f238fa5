"""Programs that run side by side: what each wrote comes in one piece, as soon as it ended."""

import ctypes
import os
import signal
import subprocess
import tempfile
import time
from collections.abc import Iterator
from contextlib import suppress
from dataclasses import dataclass
from typing import IO

from harness import SERVICE  # it makes the package known

from wumpus.shared.program import die_with_parent  # isort: skip

LOOKED_EVERY = 0.1  # seconds
TOLD_EVERY = 60.0  # seconds in which nothing ended
KILLED = -signal.SIGKILL
_NEW_IPC = 0x08000000  # CLONE_NEWIPC
_libc = ctypes.CDLL(None, use_errno=True)


@dataclass(frozen=True)
class Job:
    """A program that is to run, in at most so many seconds: its words, and where it may write."""

    name: str
    words: list[str]
    folder: str | None = None
    seconds: float = 1200.0


@dataclass(frozen=True)
class Ended:
    """A program that ended: its status, what it wrote, and how many seconds it took."""

    job: Job
    status: int
    output: str
    seconds: float


def begin_child() -> None:
    """Has a child end with this process; as root, with queues and shared memory of its own."""
    die_with_parent()
    _libc.unshare(_NEW_IPC)


class Running:
    """A program that runs, in a process group of its own."""

    def __init__(self, job: Job) -> None:
        self.job = job
        self.began = time.monotonic()
        self.output: IO[bytes] = tempfile.TemporaryFile()
        folder = {} if job.folder is None else {"TMPDIR": job.folder}
        self.child = subprocess.Popen(
            job.words,
            stdin=subprocess.DEVNULL,
            stdout=self.output,
            stderr=subprocess.STDOUT,
            env={**os.environ, **folder},
            preexec_fn=begin_child,
            start_new_session=True,
        )

    def spent(self) -> float:
        """Seconds since it began."""
        return time.monotonic() - self.began

    def ended(self) -> Ended | None:
        """How it ended; None where it goes on. One that takes too long is killed."""
        if self.child.poll() is None:
            if self.spent() < self.job.seconds:
                return None
            self.kill()
        self.output.seek(0)
        told = self.output.read().decode("utf-8", "replace")
        if self.child.returncode == KILLED:
            told += f"{self.job.name}: killed after {self.spent():.0f} s\n"
        self.output.close()
        return Ended(self.job, self.child.returncode, told, self.spent())

    def kill(self) -> None:
        """Ends it, with what it began in its group."""
        with suppress(ProcessLookupError):
            os.killpg(self.child.pid, signal.SIGKILL)
        self.child.wait()


def side_by_side(jobs: list[Job], at_once: int) -> Iterator[Ended]:
    """Runs programs, so many at once, each begun in the order in which it stands.

    Where none ends for a minute, those that run are told.
    """
    waiting, running = list(reversed(jobs)), list[Running]()
    told = time.monotonic()
    try:
        while waiting or running:
            while waiting and len(running) < at_once:
                running.append(Running(waiting.pop()))
            for one in list(running):
                ended = one.ended()
                if ended is not None:
                    running.remove(one)
                    told = time.monotonic()
                    yield ended
            if time.monotonic() - told > TOLD_EVERY:
                told = time.monotonic()
                print("under way:", *(one.job.name for one in running), flush=True)
            time.sleep(LOOKED_EVERY)
    finally:
        for one in running:
            one.kill()


def path_of(test: str) -> str:
    """The file of a test."""
    return str(SERVICE / "tests" / f"{test}_test.py")
