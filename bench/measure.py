"""Runs the program and its peer, and tells the time of the clock, the time of the processor, and the peak of memory."""

import json
import os
import statistics
import subprocess
import time
from collections.abc import Callable, Sequence
from dataclasses import dataclass
from typing import Any

HERE = os.path.dirname(os.path.abspath(__file__))
STORE = "wumpus-store"
LINES_AT_ONCE = 50


@dataclass
class Usage:
    """Seconds of the clock and of the processor, and the peak of memory in MB, where it was measured."""

    wall: float
    processor: float
    peak: float = 0.0


def least(usages: Sequence[Usage]) -> Usage:
    """Returns the least of each time and of the peaks: other programs on the machine only add to them."""
    return Usage(min(it.wall for it in usages), min(it.processor for it in usages), min(it.peak for it in usages))


def median_wall(usages: Sequence[Usage]) -> float:
    """Returns the median of the times of the clock."""
    return statistics.median(it.wall for it in usages)


def run_child(words: Sequence[str], folder: str, input_path: str = os.devnull, input_bytes: bytes = b"") -> Usage:
    """Runs a command to its end, without its output, on the bytes of a file or on these. Its peak is at least that of this process."""
    with open(input_path, "rb") as source:
        start = time.perf_counter()
        child = subprocess.Popen(words, cwd=folder, stdin=subprocess.PIPE if input_bytes else source, stdout=subprocess.DEVNULL)
        if child.stdin is not None:
            child.stdin.write(input_bytes)
            child.stdin.close()
        _, status, used = os.wait4(child.pid, 0)
    wall = time.perf_counter() - start
    child.returncode = os.waitstatus_to_exitcode(status)
    if child.returncode != 0:
        raise RuntimeError(f"{words} ended with status {child.returncode}")
    return Usage(wall, used.ru_utime + used.ru_stime, used.ru_maxrss / 1024)


def processor_seconds(process: int) -> float:
    """Returns the processor time of a process that waits for input, in steps of a nanosecond."""
    time.sleep(0.001)
    with open(f"/proc/{process}/schedstat", encoding="ascii") as status:
        return int(status.read().split()[0]) / 1e9


def peak_of(process: int) -> float:
    """Returns the peak of the memory of a process, in MB."""
    with open(f"/proc/{process}/status", encoding="ascii") as status:
        line = next(line for line in status if line.startswith("VmHWM:"))
    return int(line.split()[1]) / 1024


def drop_pages(path: str) -> None:
    """Has the system forget what it keeps of a saved file, or of each file in a folder, so that the disk is read again."""
    names = [os.path.join(path, name) for name in os.listdir(path)] if os.path.isdir(path) else [path]
    for name in names:
        descriptor = os.open(name, os.O_RDONLY)
        os.posix_fadvise(descriptor, 0, 0, os.POSIX_FADV_DONTNEED)
        os.close(descriptor)


class Session:
    """One session of `wumpus run`, which is given lines and waits for the reply of each."""

    def __init__(self, program: str, folder: str, *options: str) -> None:
        self.child = subprocess.Popen(
            [program, "run", *options], cwd=folder, stdin=subprocess.PIPE, stdout=subprocess.PIPE, bufsize=1 << 16
        )
        assert self.child.stdin is not None and self.child.stdout is not None
        self.input, self.output = self.child.stdin, self.child.stdout

    def reply(self) -> bytes:
        """Reads one reply, with the lines that it tells to follow."""
        lines = [self.output.readline()]
        fields = lines[0].split()
        if not fields:
            raise RuntimeError("the program ended before its reply")
        if fields[0] == b"export":
            return lines[0] + self.output.read(int(fields[1]) + 1)
        following = int(fields[-1]) if fields[0] in (b"find", b"rank", b"paths", b"terms", b"top") else 0
        lines += [self.output.readline() for _ in range(following)]
        return b"".join(lines)

    def ask(self, lines: Sequence[bytes]) -> list[bytes]:
        """Gives some commands at once, as many as a pipe holds with their replies, and returns the replies."""
        replies = []
        for start in range(0, len(lines), LINES_AT_ONCE):
            some = lines[start : start + LINES_AT_ONCE]
            self.input.write(b"".join(some))
            self.input.flush()
            replies += [self.reply() for _ in some]
        return replies

    def timed(self, lines: Sequence[bytes]) -> tuple[Usage, list[bytes]]:
        """Gives some commands, and tells their time too."""
        before = processor_seconds(self.child.pid)
        start = time.perf_counter()
        replies = self.ask(lines)
        wall = time.perf_counter() - start
        return Usage(wall, processor_seconds(self.child.pid) - before), replies

    def peak(self) -> float:
        """Returns the peak of memory until now, in MB."""
        return peak_of(self.child.pid)

    def work_until_idle(self) -> None:
        """Has the index merged as far as it goes."""
        while self.ask([b"work\t1000000\n"]) != [b"idle\n"]:
            pass

    def close(self) -> None:
        """Ends the input, which saves, and waits for the end of the session."""
        self.input.close()
        self.output.close()
        if self.child.wait() != 0:
            raise RuntimeError(f"the session ended with status {self.child.returncode}")


def opened(program: str, folder: str) -> tuple[Usage, Session]:
    """Opens a session, and tells the time until its first reply, with the start of the process."""
    start = time.perf_counter()
    session = Session(program, folder)
    session.ask([b"stat\n"])
    wall = time.perf_counter() - start
    return Usage(wall, processor_seconds(session.child.pid), session.peak()), session


class PeerSession:
    """One session of FTS5 or of Xapian, in a process of its own."""

    def __init__(self, words: Sequence[str]) -> None:
        self.child = subprocess.Popen(words, stdin=subprocess.PIPE, stdout=subprocess.PIPE, text=True)
        assert self.child.stdin is not None and self.child.stdout is not None
        self.input, self.output = self.child.stdin, self.child.stdout

    def timed(self, name: str, *arguments: Any) -> tuple[Usage, Any]:
        """Makes a request, and tells the time that it took inside the peer's process, and its answer."""
        print(json.dumps([name, arguments]), file=self.input, flush=True)
        reply = json.loads(self.output.readline())
        return Usage(reply["wall"], reply["processor"]), reply["answer"]

    def peak(self) -> float:
        """Returns the peak of memory until now, in MB, with that of Python itself."""
        return peak_of(self.child.pid)

    def close(self) -> None:
        """Ends the session."""
        self.input.close()
        self.output.close()
        self.child.wait()


def seconds_for_one(batch: Callable[[int], float], queries: int, rounds: int, batch_seconds: float) -> float:
    """Returns the processor time of one query: `batch` asks them all again and again, and the least of some rounds counts."""
    batch(1)
    once = max(batch(1), 1e-6)
    repeat = max(1, min(1_000, int(batch_seconds / once)))
    return min(batch(repeat) for _ in range(rounds)) / repeat / queries
