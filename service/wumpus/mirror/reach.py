"""How the mirror reaches the program: through the service, or by running it itself.

The control socket of the service takes lines with TABs between their fields, and answers each with
one: `ask LINE` passes a line to the program and answers `reply LINE`; `batch DUE`, which brings a
file, feeds it whole; `live DUE` does so with one that only takes rights away, and saves nothing;
`reset` moves the store aside; `fed MOMENT` tells when the walk began whose names and rights the
program has; `heard SINCE UNTIL` that it has what the kernel told of from one moment to another and
that gives less; `unheard` that the kernel tells nothing; `done` that all that there is was fed
once. `ok` is the answer to all but the first, or `failed WHY`.
"""

import contextlib
import os
import socket
import stat
from pathlib import Path
from typing import Protocol

from ..shared.peers import peer_of
from ..shared.program import Ended, Program, Refused, Talk
from ..shared.privileges import LEAST_PERSON
from ..shared.script import escape, unescape
from ..shared.store import Failed, move_aside, only_program
from .batch import Batch

WORK = b"work\t100000\n"
END_SECONDS = 600.0
NO_MEMORY = 4  # with this status the program ends where memory is short


class Unanswered(Failed):
    """No service answers; it may be about to."""


class NoMemory(Failed):
    """The program has no memory for a batch, of which nothing is saved."""


class Reach(Protocol):
    """What the mirror needs of the program."""

    def ask(self, line: bytes) -> bytes:
        """The reply to a line that has a reply of one line."""

    def feed(self, batch: Batch) -> None:
        """Feeds a batch whole, or not at all."""

    def reset(self) -> None:
        """Moves the store aside: the program begins with an empty one."""

    def fed(self, moment: int) -> None:
        """The program has all names and rights as a walk saw them that began at this moment.

        It is in milliseconds of the clock that goes on since the machine began.
        """

    def done(self) -> None:
        """All that there is was fed once."""

    def close(self) -> None:
        """Ends the connection, or the program."""


def _failure(why: str) -> Failed:
    """What went wrong with a batch. The program's status is 4 where it has no memory."""
    if why.startswith("failed memory") or why.endswith(f"status {NO_MEMORY}"):
        return NoMemory(why)
    return Failed(f"the service says: {why}" if why.startswith("failed") else why)


class Direct:
    """The program as a child of the mirror. What isn't finished is never saved.

    Raises `Failed` where another process runs it over the same folder.
    """

    def __init__(self, program: str, folder: Path) -> None:
        self.path = program
        self.folder = folder
        self.lock = contextlib.ExitStack()
        self.lock.enter_context(only_program(folder))
        self._start()

    def _start(self) -> None:
        self.program = Program(self.path, self.folder)
        self.talk = Talk(self.program)

    def _stop(self) -> None:
        self.talk.close()
        self.program.kill()

    def ask(self, line: bytes) -> bytes:
        """The reply to a line."""
        try:
            return self.talk.ask(line)
        except Ended as error:
            raise Failed(f"{error}: is a service running over the same folder?") from error

    def feed(self, batch: Batch) -> None:
        """Feeds a batch; where a reply isn't `ok`, the program is killed and started anew."""
        try:
            self.talk.feed(batch.file, batch.due)
        except (Ended, Refused) as error:
            self._stop()
            self._start()
            raise _failure(str(error)) from error

    def reset(self) -> None:
        """Moves the store aside."""
        self._stop()
        move_aside(self.folder)
        self._start()

    def fed(self, moment: int) -> None:
        """Nobody is answered meanwhile, so there is nobody to tell."""

    def done(self) -> None:
        """Merges the parts of the index until there is nothing to do; the end saves that."""
        while self.ask(WORK) == b"busy":
            pass

    def close(self) -> None:
        """Ends the program as it should end: all batches are saved, and the end saves too."""
        self.talk.close()
        status = self.program.finish(END_SECONDS)
        self.lock.close()
        if status != 0:
            raise Failed(f"the program ended with status {status}")

    def abandon(self) -> None:
        """Kills the program."""
        self._stop()
        self.lock.close()


def _owner_of(folder: Path) -> int:
    """The system account that alone may write to a folder; user 0 where there is no such one."""
    status = os.lstat(folder)
    alone = stat.S_ISDIR(status.st_mode) and not status.st_mode & 0o022
    return status.st_uid if alone and status.st_uid < LEAST_PERSON else 0


class Served:
    """The program that a service holds, by its control socket. It is handed everybody's texts.

    So it has to be of user 0, of this process's own, or of the owner of the folder in which the
    socket is, who has to be a system account, and the only one who may put a socket there.
    """

    def __init__(self, path: Path) -> None:
        self.socket = socket.socket(socket.AF_UNIX, socket.SOCK_STREAM)
        self.socket.connect(str(path))
        if peer_of(self.socket).user not in (0, os.geteuid(), _owner_of(path.parent)):
            raise Failed(f"{path} isn't a socket of the service")
        self.answers = self.socket.makefile("rb")

    def _answer(self) -> list[bytes]:
        try:
            line = self.answers.readline()
        except OSError as error:
            raise Failed(f"the service is gone: {error}") from error
        if not line.endswith(b"\n"):
            raise Failed("the service is gone")
        return line[:-1].split(b"\t")

    def _expect(self) -> None:
        fields = self._answer()
        if fields != [b"ok"]:
            raise _failure(b" ".join(fields).decode("utf-8", "replace"))

    def _send(self, line: bytes) -> None:
        try:
            self.socket.sendall(line)
        except OSError as error:
            raise Failed(f"the service is gone: {error}") from error

    def ask(self, line: bytes) -> bytes:
        """The reply to a line."""
        self._send(b"ask\t" + escape(line.rstrip(b"\n")) + b"\n")
        fields = self._answer()
        told = unescape(fields[-1])
        if fields[0] != b"reply" or told is None:
            raise Failed("the service says: " + b" ".join(fields).decode("utf-8", "replace"))
        return told

    def feed(self, batch: Batch, word: bytes = b"batch") -> None:
        """Hands a batch over as a file; by the word `live` one that isn't saved."""
        try:
            line = b"%b\t%d\n" % (word, batch.due)
            socket.send_fds(self.socket, [line], [batch.file.fileno()])
        except OSError as error:
            raise Failed(f"the service is gone: {error}") from error
        self._expect()

    def reset(self) -> None:
        """Has the store moved aside."""
        self._send(b"reset\n")
        self._expect()

    def fed(self, moment: int) -> None:
        """Tells how old the walk is whose names and rights were fed."""
        self._send(b"fed\t%d\n" % moment)
        self._expect()

    def heard(self, since: int, until: int) -> None:
        """Tells that what became less by the kernel's word was fed, up to a moment.

        What it told before `since` may have been missed: a walk finds that which began later.
        """
        self._send(b"heard\t%d\t%d\n" % (since, until))
        self._expect()

    def unheard(self) -> None:
        """Tells that the kernel tells nothing."""
        self._send(b"unheard\n")
        self._expect()

    def done(self) -> None:
        """Tells that all that there is was fed once."""
        self._send(b"done\n")
        self._expect()

    def abort(self) -> None:
        """Ends the connection; another thread that waits for an answer gets none."""
        with contextlib.suppress(OSError):
            self.socket.shutdown(socket.SHUT_RDWR)

    def close(self) -> None:
        """Closes the connection."""
        self.answers.close()
        self.socket.close()

    abandon = close
