"""The connections of mirrors. What one sends is done in turn; a file comes with a batch."""

import os
import selectors
import socket
from collections.abc import Callable
from dataclasses import dataclass, field

from ..shared.peers import Peer
from ..shared.program import PIECE
from ..shared.script import LINE_MAX
from .accepting import Accepting

AT_MOST = 8  # mirrors, and files of one that wait
WAITING_MAX = 4 * LINE_MAX  # bytes of lines that wait; a line of the language, escaped, is two


@dataclass(slots=True)
class Control:
    """The connection of a mirror: its lines that wait, and the files of those that are batches."""

    socket: socket.socket
    received: bytearray = field(default_factory=bytearray)
    files: list[int] = field(default_factory=list)
    is_served: bool = False  # the program is at work for it

    def next_line(self) -> list[bytes] | None:
        """The fields of the line that waits first, or None where none is whole."""
        line, found, _ = self.received.partition(b"\n")
        return bytes(line).split(b"\t") if found else None

    def take_line(self) -> int | None:
        """Takes the line that waits first; gives the file of a batch, which is then the caller's.

        A file that came with another line goes with the last line that waits.
        """
        line, _, self.received = self.received.partition(b"\n")
        file = None
        if line.partition(b"\t")[0] in (b"batch", b"live") and self.files:
            file = self.files.pop(0)
        if not self.received:
            self.drop_files()
        return file

    def drop_lines(self) -> None:
        """Forgets all that waits."""
        self.received.clear()
        self.drop_files()

    def drop_files(self) -> None:
        """Closes the files that wait."""
        for file in self.files:
            os.close(file)
        self.files = []


class Controls:
    """All of them. `owners` are the users who may be a mirror; no others are heard."""

    def __init__(
        self,
        listening: socket.socket,
        selector: selectors.BaseSelector,
        owners: frozenset[int],
        log: Callable[[str], None],
    ) -> None:
        self.selector = selector
        self.owners = owners
        self.log = log
        self.all: dict[int, Control] = {}
        self.accepting = Accepting(listening, selector, self._refusal, self._take, lambda: None)

    def _refusal(self, user: int) -> bytes | None:
        """Who isn't a mirror is told nothing."""
        return b"" if user not in self.owners or len(self.all) >= AT_MOST else None

    def _take(self, connection: socket.socket, _peer: Peer) -> None:
        self.all[connection.fileno()] = Control(connection)
        self.selector.register(connection, selectors.EVENT_READ, self._ready)

    def _ready(self, descriptor: int) -> None:
        control = self.all.get(descriptor)
        if control is None:
            return
        try:
            flags = socket.MSG_CMSG_CLOEXEC
            data, files, _, _ = socket.recv_fds(control.socket, PIECE, AT_MOST, flags)
        except BlockingIOError:
            return
        except OSError:
            data, files = b"", []
        control.files += files
        control.received += data
        if len(control.files) > AT_MOST or len(control.received) > WAITING_MAX:
            self.log("a mirror sent more than it may, and is cut off")
            data = b""
        if not data:
            self.close(control)

    def is_waiting(self) -> bool:
        """Whether a whole line of a mirror's waits."""
        return any(b"\n" in control.received for control in self.all.values())

    def tell(self, control: Control, answer: bytes) -> None:
        """Answers a mirror, if it is still there. One that reads no answers is cut off."""
        if control.socket.fileno() not in self.all:
            return
        try:
            if control.socket.send(answer) == len(answer):
                return
        except OSError:
            pass
        self.close(control)

    def close(self, control: Control) -> None:
        """Ends a connection, and what it waits for. A batch under way has its file, and goes on."""
        descriptor = control.socket.fileno()
        if self.all.pop(descriptor, None) is None:
            return
        if descriptor in self.selector.get_map():
            self.selector.unregister(control.socket)
        control.drop_lines()
        control.socket.close()

    def end(self) -> None:
        """Ends all connections."""
        for control in list(self.all.values()):
            self.close(control)
