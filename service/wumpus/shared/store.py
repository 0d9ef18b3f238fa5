"""Where the store and the sockets are, and that one process at a time has them.

`Failed` says why the program can't be reached or used.
"""

import contextlib
import fcntl
import os
import shutil
import stat
import time
from collections.abc import Callable, Iterator
from pathlib import Path

FOLDER = "/var/lib/wumpus"
MIRROR_FOLDER = "/var/lib/wumpus-mirror"
SOCKETS = "/run/wumpus"
STORE = "wumpus-store"
ASIDE = "wumpus-store.old"
ASK = "ask"
CONTROL = "control"
ROOM_LEFT = 4 << 30  # bytes, or a tenth of the disk: what can wait leaves them free


class Failed(Exception):
    """What was asked of the program wasn't done; the text says why."""


class Busy(Failed):
    """Another process does it already."""


@contextlib.contextmanager
def only_one(path: Path, who: str) -> Iterator[None]:
    """Holds the lock of a file, which is made. Raises `Busy` where another process has it."""
    # Reading is enough for a lock, and so one that user 0 made is no hindrance to the unit's user.
    flags = os.O_RDONLY | os.O_CREAT | os.O_NOFOLLOW | os.O_CLOEXEC
    with open(os.open(path, flags, 0o644), "rb") as lock:
        try:
            fcntl.flock(lock, fcntl.LOCK_EX | fcntl.LOCK_NB)
        except BlockingIOError as error:
            raise Busy(f"{who} is at work in {path.parent}") from error
        yield


def check_own(folder: Path) -> None:
    """Raises `Failed` where others than this process's user may put something into a folder."""
    status = os.lstat(folder)
    if not stat.S_ISDIR(status.st_mode) or status.st_uid != os.geteuid() or status.st_mode & 0o022:
        raise Failed(f"{folder} is a link, somebody else's, or others may write to it")


def only_program(folder: Path) -> contextlib.AbstractContextManager[None]:
    """Held by whoever runs the program over the store of a folder, which has to be her own."""
    check_own(folder)
    return only_one(folder / "program.lock", "another program, perhaps that of a service,")


def room_left(folder: Path) -> int:
    """How many bytes the disk of a folder has beside those that are kept free; negative: none.

    Rights that are taken away need little, and must never wait for room. Raises `OSError`.
    """
    disk = os.statvfs(folder)
    kept = min(ROOM_LEFT, disk.f_blocks * disk.f_frsize // 10)
    return disk.f_bavail * disk.f_frsize - kept


class Aside:
    """The store that was moved aside in a folder: it is told of, and removed after a week."""

    KEPT = 7 * 86_400.0  # seconds
    EVERY = 3600.0

    def __init__(self, folder: Path, log: Callable[[str], None]) -> None:
        self.path = folder / ASIDE
        self.log = log
        self.looked: float | None = None
        self.is_told = False

    def look(self) -> None:
        """Looks for it, at most once an hour."""
        now = time.monotonic()
        if self.looked is not None and now - self.looked < self.EVERY:
            return
        self.looked = now
        try:
            age = time.time() - os.lstat(self.path).st_ctime
        except FileNotFoundError:
            self.is_told = False
            return
        if age > self.KEPT:
            shutil.rmtree(self.path, ignore_errors=True)
            self.log(f"{self.path} was moved aside {age / 86_400:.0f} days ago: it is removed")
        elif not self.is_told:
            self.is_told = True
            self.log(f"{self.path} has the texts of all users: it is removed after a week")


def move_aside(folder: Path) -> None:
    """Moves a store out of the way, and removes the one that was moved before it."""
    aside = folder / ASIDE
    if (folder / STORE).exists():
        shutil.rmtree(aside, ignore_errors=True)
        os.rename(folder / STORE, aside)
