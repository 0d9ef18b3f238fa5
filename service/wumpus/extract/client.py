"""The mirror's side: whether a server is there, which kind a file is of, and its text.

    extractor = Extractor(table_here())
    if extractor.reach():                               # once a turn
        extractor.fingerprints                          # of each kind that is made there
    kind = extractor.kind_of(name, front)               # at a look; None: no document
    with Document() as document:                        # beside the look
        document.add(piece)
        document.seal()
        made = extractor.text_of(name, document)        # Made, or Failed with a reason

Nothing is raised. `Failed.reason.final` tells whether the same bytes would fail again. The mirror's
own descriptor of the file never leaves it, and no name goes to a worker.
"""

import os
import socket
import stat
import time
from enum import Enum
from pathlib import Path

from .documents import Document
from .kinds import Kind, Table
from .own import NoRun, no_run
from .packets import (
    ANSWER_SIZE,
    GREETING_MAX,
    SOCKET,
    BadPacket,
    Offer,
    Request,
    answer_of,
    offers_of,
)
from .reasons import Ended, Reason, Way
from .texts import Failed, Made, text_of
from .walls import Allowance

GREETING_SECONDS = 5.0
ANEW_SECONDS = 30.0  # for a server that was just there, and begins anew: it tries its walls again
GRACE = 5.0  # seconds beyond those after which the server kills a worker
LAST_SECONDS = 1.0  # in which an answer comes where it is late already


class NoServer(Exception):
    """No server that may be trusted answers; the text says why."""


class State(Enum):
    """What a connection is good for."""

    FINE = 0
    GONE = 1  # the server ended it, and may have begun anew
    LOST = 2  # it doesn't answer


class ServerRun:
    """A worker of the server's."""

    def __init__(self, server: "Server", tag: int, output: int, patience: float) -> None:
        self.server = server
        self.tag = tag
        self.output = output
        self.patience = patience
        self.late = time.monotonic() + patience

    def end(self) -> Ended:
        """Closes the pipe, and waits until the server tells how the worker ended."""
        os.close(self.output)
        left = max(LAST_SECONDS, self.late - time.monotonic())
        return self.server.ended(self.tag, left)


class Server:
    """A connection to the server."""

    def __init__(self, path: Path, seconds: float) -> None:
        """Connects, and hears what is made there, within some seconds. Raises `NoServer`."""
        _check_place(path)
        self.socket = socket.socket(socket.AF_UNIX, socket.SOCK_SEQPACKET)
        self.state = State.FINE
        self.tag = 0
        try:
            self.socket.settimeout(seconds)
            self.socket.connect(str(path))
            offers = offers_of(self.socket.recv(GREETING_MAX))
        except (OSError, BadPacket) as error:
            self.socket.close()
            raise NoServer(f"{path}: {error or 'it is no wumpus-extract'}") from error
        self.offers = {one.name: (place, one) for place, one in enumerate(offers)}

    def begin(self, kind: str, document: Document, allowed: Allowance) -> ServerRun | NoRun:
        """Has a worker begun."""
        place, _ = self.offers[kind]
        self.tag = (self.tag + 1) % (1 << 32)
        packet = Request(place, allowed, self.tag).packed()
        reading, writing = os.pipe2(os.O_CLOEXEC)
        descriptors = [document.descriptor, writing]
        try:
            socket.send_fds(self.socket, [packet], descriptors, socket.MSG_NOSIGNAL)
        except OSError:
            self.state = State.GONE
            return NoRun(reading, Way.GONE)
        finally:
            os.close(writing)
        return ServerRun(self, self.tag, reading, allowed.patience + GRACE)

    def ended(self, tag: int, seconds: float) -> Ended:
        """How the worker of a request ended, as the server tells it within some seconds."""
        self.socket.settimeout(seconds)
        try:
            packet = self.socket.recv(ANSWER_SIZE + 1)
            if packet:
                told, ended = answer_of(packet)
                if told == tag:
                    return ended
            self.state = State.LOST if packet else State.GONE
        except ConnectionError:
            self.state = State.GONE
        except (OSError, BadPacket):
            self.state = State.LOST
        return Ended(Way.GONE if self.state is State.GONE else Way.NO_SERVER)

    def close(self) -> None:
        """Ends the connection."""
        self.socket.close()


def _check_place(path: Path) -> None:
    """Raises `NoServer` where somebody else could have put a socket there.

    Who could would be handed everybody's documents.
    """
    trusted = {0, os.geteuid()}
    try:
        for one in (path, *path.absolute().parents):
            status = os.lstat(one)
            is_shared = status.st_mode & (stat.S_IWGRP | stat.S_IWOTH) and one != path
            is_sticky = bool(status.st_mode & stat.S_ISVTX)
            if status.st_uid not in trusted or (is_shared and not is_sticky):
                raise NoServer(f"{path}: others may write to {one}, or it is theirs")
    except OSError as error:
        raise NoServer(f"{one}: {error.strerror}") from error


class Extractor:
    """The texts of documents, from a server that may be there or not."""

    def __init__(self, table: Table, path: Path = Path(SOCKET)) -> None:
        self.table = table
        self.path = path
        self.server: Server | None = None
        self.trouble = "it wasn't asked"  # why there is no server

    def reach(self) -> bool:
        """Tells whether a server is there: call it at the beginning of a turn."""
        return self._connect(GREETING_SECONDS)

    def _connect(self, seconds: float) -> bool:
        self.close()
        try:
            self.server = Server(self.path, seconds)
        except NoServer as error:
            self.trouble = str(error)
        return self.server is not None

    @property
    def fingerprints(self) -> dict[str, str]:
        """Each kind that is made, with what changes where its texts may come out different."""
        offers = {} if self.server is None else self.server.offers
        return {name: one.fingerprint for name, (_, one) in offers.items()}

    def kind_of(self, name: bytes, front: bytes) -> Kind | None:
        """The kind of a file with this name that begins with these 8,192 bytes; None if none."""
        return self.table.kind_of(name, front)

    def text_of(self, name: bytes, document: Document) -> Made | Failed:
        """The text of a sealed document with this name, or why it has none."""
        if self.server is None:
            return Failed(Reason.NO_SERVER, 0.0)
        return text_of(self, self.table, name, document)

    def is_program(self, kind: str) -> bool | None:
        """Tells whether a kind is made by a program; None if by nobody."""
        offer = self._offer(kind)
        return None if offer is None else offer.is_program

    def _offer(self, kind: str) -> Offer | None:
        found = None if self.server is None else self.server.offers.get(kind)
        return None if found is None else found[1]

    def begin(self, kind: str, document: Document, allowed: Allowance) -> "ServerRun | NoRun":
        """Has a worker begun. A server that began anew is connected to again."""
        if self.server is not None and self.server.state is not State.FINE:
            self._leave(self.server.state)
        if self.server is None or self._offer(kind) is None:
            return no_run(Way.NO_SERVER)
        return self.server.begin(kind, document, allowed)

    def _leave(self, state: State) -> None:
        if state is State.GONE:
            self._connect(ANEW_SECONDS)
        else:
            self.close()
            self.trouble = "it didn't answer"

    def close(self) -> None:
        """Ends the connection."""
        if self.server is not None:
            self.server.close()
            self.server = None
