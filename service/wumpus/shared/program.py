"""The program `wumpus run` as a child that answers line by line.

Whoever wants nothing saved kills it: the end of its input would be a save. It is killed too where
its parent dies.
"""

import ctypes
import os
import selectors
import signal
import subprocess
import time
from collections import deque
from pathlib import Path
from typing import IO

from .script import lines_after

PIECE = 1 << 16
SAVE = b"save\n"
NO_MEMORY = 4  # the program's own status
END_SECONDS = 0.5  # from the end of its output to its own
_PARENT_DEATH = 1  # PR_SET_PDEATHSIG
_libc = ctypes.CDLL(None, use_errno=True)


class Ended(Exception):
    """The program ended, or was killed; the text says how."""

    def __init__(self, text: str, for_memory: bool = False) -> None:
        super().__init__(text)
        self.for_memory = for_memory  # it had none, or the kernel killed it


class Refused(Exception):
    """A line of a batch wasn't answered `ok`."""


def die_with_parent() -> None:
    """Has this process killed when its parent ends; for a child before it begins."""
    _libc.prctl(_PARENT_DEATH, signal.SIGKILL, 0, 0, 0)


class Program:
    """One `wumpus run`, its pipes without waiting. `folder` is that in which its store lies."""

    def __init__(self, program: str, folder: Path) -> None:
        self.waiting: deque[memoryview] = deque()
        self.begun = bytearray()  # of a line that isn't whole yet
        if "/" in program:
            program = os.path.abspath(program)  # the child begins in another folder
        self.child = subprocess.Popen(
            [program, "run"],
            cwd=folder,
            stdin=subprocess.PIPE,
            stdout=subprocess.PIPE,
            preexec_fn=die_with_parent,
            umask=0o077,
        )
        self.input = _descriptor(self.child.stdin)
        self.output = _descriptor(self.child.stdout)
        os.set_blocking(self.input, False)
        os.set_blocking(self.output, False)

    def send(self, data: bytes) -> None:
        """Puts bytes behind those that wait to be written."""
        if data:
            self.waiting.append(memoryview(data))

    def write(self) -> int:
        """Writes what the pipe takes; gives how much that was. Raises `Ended`."""
        written = 0
        while self.waiting:
            first = self.waiting[0]
            try:
                count = os.write(self.input, first[:PIECE])
            except BlockingIOError:
                break
            except BrokenPipeError as error:
                raise self.how() from error
            written += count
            if count == len(first):
                self.waiting.popleft()
            else:
                self.waiting[0] = first[count:]
        return written

    def read(self) -> list[bytes]:
        """The whole lines that are there, without their LFs. Raises `Ended`."""
        try:
            data = os.read(self.output, PIECE)
        except BlockingIOError:
            return []
        if not data:
            raise self.how()
        self.begun += data
        if b"\n" not in data:
            return []
        lines = bytes(self.begun).split(b"\n")
        self.begun = bytearray(lines.pop())
        return lines

    def how(self) -> Ended:
        """How the program ended, which closed its output. One that goes on all the same is killed.

        A signal 9 of which this process knows nothing is the kernel's, which is short of memory.
        """
        try:
            status = self.child.wait(END_SECONDS)
        except subprocess.TimeoutExpired:
            self.child.kill()
            self.child.wait()
            return Ended("the program closed its output")
        if status < 0:
            told = f"the program was ended by signal {-status}"
            return Ended(told, -status == signal.SIGKILL)
        return Ended(f"the program ended with status {status}", status == NO_MEMORY)

    def spent(self) -> float:
        """Seconds of the processor that it has taken; 0 where it has ended."""
        # The kernel's number for the clock of another process, of all its threads.
        clock = (~self.child.pid << 3) | 2
        try:
            return time.clock_gettime(clock)
        except OSError:
            return 0.0

    def waited(self) -> float:
        """Seconds for which it was ready and had no processor; 0 where that can't be known."""
        try:
            told = Path(f"/proc/{self.child.pid}/schedstat").read_text(encoding="ascii").split()
        except OSError:
            return 0.0
        return int(told[1]) / 1e9 if len(told) > 1 else 0.0

    def memory(self) -> int:
        """Bytes of memory that it has; 0 where it has ended."""
        try:
            told = Path(f"/proc/{self.child.pid}/statm").read_text(encoding="ascii").split()
        except OSError:
            return 0
        return int(told[1]) * os.sysconf("SC_PAGE_SIZE") if len(told) > 1 else 0

    def kill(self) -> None:
        """Ends the program at once; nothing more is saved."""
        self.child.kill()
        self.child.wait()
        self._close()

    def finish(self, seconds: float) -> int:
        """Ends the input, which saves, and waits for the end: the status."""
        try:
            if self.child.stdin is not None:
                self.child.stdin.close()
            return self.child.wait(seconds)
        except subprocess.TimeoutExpired:
            self.child.kill()
            return self.child.wait()
        finally:
            self._close()

    def _close(self) -> None:
        for pipe in (self.child.stdin, self.child.stdout):
            if pipe is not None:
                try:
                    pipe.close()
                except BrokenPipeError:
                    pass


def _descriptor(pipe: IO[bytes] | None) -> int:
    if pipe is None:
        raise ValueError("a pipe to the program wasn't asked for")
    return pipe.fileno()


class Pieces:
    """A batch in a file, piece by piece. A save in its last line is held back to the end.

    The program reads ahead: where a line in the midst is refused it might save, and be killed then.
    """

    def __init__(self, file: int) -> None:
        self.file = file
        self.place = 0
        self.size = os.fstat(file).st_size
        held = os.pread(file, len(SAVE), max(0, self.size - len(SAVE)))
        self.held = len(SAVE) if held == SAVE else 0

    def next(self, due: int) -> bytes:
        """The next piece, while so many replies are due. Raises `OSError`."""
        end = self.size - (self.held if due > 1 else 0)
        piece = os.pread(self.file, min(PIECE, max(0, end - self.place)), self.place)
        self.place += len(piece)
        return piece


class Talk:
    """Sends to a program and waits for its replies, for a mirror without a service."""

    def __init__(self, program: Program) -> None:
        self.program = program
        self.lines: deque[bytes] = deque()
        self.selector = selectors.DefaultSelector()
        self.selector.register(program.output, selectors.EVENT_READ)

    def ask(self, line: bytes) -> bytes:
        """The reply to one line, which must have one line."""
        self.program.send(line)
        return self._next()

    def ask_whole(self, line: bytes) -> list[bytes]:
        """The lines of the reply to one line. Raises `Ended`, and `BadReply`."""
        first = self.ask(line)
        return [first, *(self._next() for _ in range(lines_after(first)))]

    def _next(self) -> bytes:
        while not self.lines:
            self._turn()
        return self.lines.popleft()

    def feed(self, batch: IO[bytes], due: int) -> None:
        """Sends a batch. Raises `Refused` at the first reply that isn't `ok`, and `Ended`."""
        answered = 0
        pieces = Pieces(batch.fileno())
        while answered < due:
            if not self.program.waiting:
                self.program.send(pieces.next(due - answered))
            self._turn()
            while self.lines:
                answered += 1
                reply = self.lines.popleft()
                if reply != b"ok":
                    raise Refused(f"line {answered} of the batch: {reply[:200]!r}")
        if self.lines or self.program.waiting or pieces.next(0):
            raise Refused("the batch has more lines than replies")

    def _turn(self) -> None:
        """Writes and reads what can be."""
        wanted = bool(self.program.waiting)
        if wanted and self.program.write() == 0:
            self._wait_for_both()
        elif not wanted:
            self.selector.select(None)
        self.lines.extend(self.program.read())

    def _wait_for_both(self) -> None:
        self.selector.register(self.program.input, selectors.EVENT_WRITE)
        try:
            self.selector.select(None)
        finally:
            self.selector.unregister(self.program.input)

    def close(self) -> None:
        """Closes what it took of the system."""
        self.selector.close()
