"""What an administrator asks of a mirror that runs: a path that is to be looked at at once.

It stands in a file of the folder, into which nobody but the folder's owner and user 0 may write.
"""

import fcntl
import os
from dataclasses import dataclass
from pathlib import Path

from ..shared.script import escape, unescape

NAME = "mirror.wanted"
AT_MOST = 1 << 20  # bytes
FORCE = b"force"
NOW = b"now"


@dataclass(frozen=True)
class Wanted:
    """Paths that are to be looked at first, and whether what is held is to be taken."""

    paths: tuple[bytes, ...] = ()
    force: bool = False

    def __bool__(self) -> bool:
        return self.force or bool(self.paths)


def _opened(folder: Path, flags: int) -> int:
    descriptor = os.open(folder / NAME, flags | os.O_NOFOLLOW | os.O_CLOEXEC, 0o600)
    fcntl.flock(descriptor, fcntl.LOCK_EX)
    return descriptor


def want(folder: Path, wanted: Wanted) -> None:
    """Asks the mirror that runs. Raises `OSError`."""
    lines = [NOW + b"\t" + escape(path) + b"\n" for path in wanted.paths]
    lines += [FORCE + b"\n"] if wanted.force else []
    descriptor = _opened(folder, os.O_WRONLY | os.O_CREAT | os.O_APPEND)
    try:
        os.write(descriptor, b"".join(lines))
    finally:
        os.close(descriptor)


def take_wanted(folder: Path) -> Wanted:
    """What was asked since the last time. Raises `OSError`."""
    try:
        descriptor = _opened(folder, os.O_RDWR)
    except FileNotFoundError:
        return Wanted()
    try:
        lines = os.read(descriptor, AT_MOST).split(b"\n")
        os.ftruncate(descriptor, 0)
    finally:
        os.close(descriptor)
    fields = [line.split(b"\t") for line in lines]
    paths = [unescape(words[1]) for words in fields if words[0] == NOW and len(words) == 2]
    return Wanted(tuple(path for path in paths if path), [FORCE] in fields)
