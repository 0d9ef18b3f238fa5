"""Events as the mirror takes them, from the process that empties the kernel's queue."""

import os
import select
import socket
import subprocess
import sys
from pathlib import Path

from .emptier import ASKS, EVENT, HEAD

PROGRAM = (
    "import sys; sys.path.insert(0, sys.argv.pop(1)); "
    "from wumpus.live.emptier import main; main()"
)
END_SECONDS = 5.0

Event = tuple[int, bytes]  # what happened, and all that is named


class Gone(Exception):
    """The process isn't there any more."""


class Reader:
    """Begins the process over a group, which is its own from then on.

    `mounts` is the list of mounts, open to be waited for; `is_mounted` tells that it is another one.
    """

    def __init__(self, group: int, mounts: int) -> None:
        self.group = group
        self.mounts = mounts
        self.is_mounted = False
        self.socket, theirs = socket.socketpair()
        folder = Path(__file__).resolve().parent.parent.parent
        words = [sys.executable, "-I", "-c", PROGRAM, str(folder), str(group), str(theirs.fileno())]
        given = (group, theirs.fileno())
        self.child = subprocess.Popen(words, pass_fds=given, stdin=subprocess.DEVNULL)
        theirs.close()
        self.is_asked = False
        self.waking, self.wakes = os.pipe()

    def end(self) -> None:
        """Ends the process."""
        self.socket.close()
        try:
            self.child.wait(END_SECONDS)
        except subprocess.TimeoutExpired:
            self.child.kill()
            self.child.wait()
        for descriptor in (self.group, self.waking, self.wakes):
            os.close(descriptor)

    def wake(self) -> None:
        """Has another thread's `take` end."""
        os.write(self.wakes, b"!")

    def take(self, seconds: float | None) -> tuple[list[Event], int, int]:
        """Waits for events, at most so long: those that came, and flags of what was lost.

        And up to which moment all that the kernel told came, or is lost; 0 where that isn't known.
        Each second there is an answer. Raises `Gone`.
        """
        try:
            if not self.is_asked:
                self.socket.sendall(ASKS)
                self.is_asked = True
            waited_for = [self.socket, self.waking]
            ready, _, others = select.select(waited_for, [], [self.mounts], seconds)
            self.is_mounted = self.is_mounted or bool(others)
            if self.waking in ready:
                os.read(self.waking, 4096)
            if self.socket not in ready:
                return [], 0, 0
            size, flags, until = HEAD.unpack(self._receive(HEAD.size))
            data = self._receive(size)
        except OSError as error:
            raise Gone(str(error)) from error
        self.is_asked = False
        return events_in(data), flags, until

    def _receive(self, size: int) -> bytes:
        pieces = bytearray()
        while len(pieces) < size:
            piece = self.socket.recv(size - len(pieces))
            if not piece:
                raise Gone("the process that reads events ended")
            pieces += piece
        return bytes(pieces)


def events_in(data: bytes) -> list[Event]:
    """The events that were given."""
    found: list[Event] = []
    at = 0
    while at < len(data):
        what, size = EVENT.unpack_from(data, at)
        at += EVENT.size
        found.append((what, data[at : at + size]))
        at += size
    return found
