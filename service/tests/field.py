"""Where an attack goes on: a tree, a service and a mirror, and the processes that make it.

They run with the ids of users, and end when they are killed.
"""

import ctypes
import os
import signal
import socket
import tempfile
import time
from collections.abc import Callable, Iterator
from contextlib import contextmanager, suppress
from dataclasses import dataclass, field
from pathlib import Path

import harness  # noqa: F401  # it says where the package is
from kernel import User, become

from wumpus.shared.program import die_with_parent  # isort: skip

EVE = User(1002, (1002,))
CAROL = User(1003, (1003,))
ACCOUNTS = tuple(User(1010 + one, (1010 + one,)) for one in range(6))
FIRST_SUBORDINATE = 200_000
SUBORDINATES = tuple(
    User(FIRST_SUBORDINATE + one, (FIRST_SUBORDINATE + one,)) for one in range(36)
)
SUBUID = f"{EVE.number}:{FIRST_SUBORDINATE}:65536\n"
_libc = ctypes.CDLL(None, use_errno=True)


def take_own_mounts() -> None:
    """Has this process, and those that it begins, see an `/etc/subuid` in which eve has numbers.

    Raises `OSError`.
    """
    new_mounts, bind, private, all_below = 0x20000, 0x1000, 0x40000, 0x4000
    _checked(_libc.unshare(new_mounts))
    _checked(_libc.mount(b"none", b"/", None, private | all_below, None))
    with tempfile.NamedTemporaryFile("w", suffix=".subuid") as file:
        file.write(SUBUID)
        file.flush()
        _checked(_libc.mount(os.fsencode(file.name), b"/etc/subuid", None, bind, None))


def _checked(status: int) -> None:
    if status != 0:
        error = ctypes.get_errno()
        raise OSError(error, os.strerror(error))


@dataclass
class Field:
    """Where an attack goes on, and the processes that were begun for it."""

    tree: Path
    store: Path
    sockets: Path
    program: str
    mirror: Callable[[], int]
    children: list[int] = field(default_factory=list)
    mounts: list[Path] = field(default_factory=list)
    stopped: list[int] = field(default_factory=list)

    @property
    def eve(self) -> Path:
        """Her home."""
        return self.tree / "eve"

    def begin(self, user: User | None, what: Callable[[], None]) -> None:
        """Runs a function with the ids of a user, or as root, again and again where it fails."""
        child = os.fork()
        if child:
            self.children.append(child)
            return
        try:
            die_with_parent()
            if user is not None:
                become(user)
                die_with_parent()  # what another user's ids took away
            os.umask(0o022)
            while True:
                with suppress(OSError):
                    what()
                time.sleep(0.01)
        finally:
            os._exit(0)

    def as_user(self, user: User, what: Callable[[], None]) -> None:
        """Runs a function with the ids of a user, and waits for its end."""
        child = os.fork()
        if child == 0:
            status = 1
            try:
                become(user)
                os.umask(0o022)
                what()
                status = 0
            finally:
                os._exit(status)
        if os.waitpid(child, 0)[1] != 0:
            raise ChildProcessError("an attack couldn't be prepared")

    def mount(self, place: Path, kind: str, words: str) -> None:
        """Mounts a file system; `end` takes it away. Raises `OSError`."""
        _checked(_libc.mount(b"wumpus", os.fsencode(place), kind.encode(), 0, words.encode()))
        self.mounts.append(place)

    def end(self) -> None:
        """Ends what was begun."""
        for process in self.stopped:
            with suppress(ProcessLookupError):
                os.kill(process, signal.SIGCONT)
        self.stopped.clear()
        for child in self.children:
            os.kill(child, signal.SIGKILL)
            os.waitpid(child, 0)
        self.children.clear()

    def unmount(self) -> None:
        """Takes the mounts away, also those that somebody uses."""
        detach = 2
        for place in self.mounts:
            _libc.umount2(os.fsencode(place), detach)
        self.mounts.clear()


def nothing(_: Field) -> None:
    """There is nothing to prepare."""


@dataclass(frozen=True)
class Attack:
    """An attack: what is there before it, and what begins it. `about` is told."""

    name: str
    about: str
    prepare: Callable[[Field], None]
    begin: Callable[[Field], None]
    ends_in_stale: bool = False
    only_stand_in: bool = False


@contextmanager
def asking(field: Field) -> Iterator[socket.socket]:
    """A connection to the service."""
    with socket.socket(socket.AF_UNIX, socket.SOCK_STREAM) as connection:
        connection.settimeout(60)
        connection.connect(str(field.sockets / "ask"))
        yield connection


def ask_and_wait(field: Field, query: bytes) -> bytes:
    """The first line that a query is answered."""
    with asking(field) as connection:
        connection.sendall(query)
        return connection.makefile("rb").readline()
