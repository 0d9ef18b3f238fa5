"""The way to a file as the kernel has it: each step by its descriptor, no link followed."""

import errno
import os
import signal
import stat
from dataclasses import dataclass
from enum import Enum

from ..mirror.access import Access, BadList
from ..mirror.mounts import Mounts
from ..mirror.names import DECLINES
from ..mirror.nodes import Rights
from .users import User

KERNELS = Access(unlisted=True)
_OPENED = os.O_RDONLY | os.O_NOFOLLOW | os.O_NONBLOCK | os.O_NOCTTY | os.O_CLOEXEC
_SECONDS = 10  # after which a file system that doesn't answer counts as one that denies


class Kind(Enum):
    """What is there."""

    DIRECTORY = "directory"
    FILE = "file"
    LINK = "symbolic link"
    OTHER = "neither a file nor a directory"
    NOTHING = "nothing"
    MOUNT = "file system that isn't walked"


@dataclass(frozen=True)
class Step:
    """One name on the way. `mirrored` are the rights that the mirror gives for the kernel's."""

    path: bytes
    kind: Kind
    rights: Rights | None = None
    mirrored: Rights | None = None
    fault: str = ""
    changed: int = 0  # nanoseconds
    size: int = 0
    is_marked: bool = False  # a directory that a file `.nowumpus` of its owner or root leaves out


def steps_to(path: bytes, access: Access) -> list[Step]:
    """The steps from `/` to a path, as far as there are directories. Raises `OSError`."""
    mounts = Mounts()
    descriptor = os.open(b"/", os.O_RDONLY | os.O_DIRECTORY | os.O_CLOEXEC)
    steps = [_step_at(descriptor, b"/", access)]
    here = b""
    try:
        for name in path.split(b"/"):
            if not name:
                continue
            if steps[-1].kind is not Kind.DIRECTORY:
                break
            mounted = mounts.left_out_in(here).get(name)
            here += b"/" + name
            if mounted is not None:
                steps.append(Step(here, Kind.MOUNT, fault=mounted))
                break
            below = _opened(descriptor, name)
            if isinstance(below, Step):
                steps.append(Step(here, below.kind, fault=below.fault))
                break
            os.close(descriptor)
            descriptor = below
            steps.append(_step_at(descriptor, here, access))
    finally:
        os.close(descriptor)
        mounts.close()
    return steps


def _opened(above: int, name: bytes) -> int | Step:
    """A descriptor of a file or directory, or what is there instead."""
    try:
        mode = os.stat(name, dir_fd=above, follow_symlinks=False).st_mode
        if stat.S_ISLNK(mode):
            return Step(b"", Kind.LINK)
        if not stat.S_ISREG(mode) and not stat.S_ISDIR(mode):
            return Step(b"", Kind.OTHER)
        return os.open(name, _OPENED, dir_fd=above)
    except FileNotFoundError:
        return Step(b"", Kind.NOTHING)
    except OSError as error:
        return Step(b"", Kind.NOTHING, fault=error.strerror or str(error))


def _step_at(descriptor: int, path: bytes, access: Access) -> Step:
    status = os.fstat(descriptor)
    is_directory = stat.S_ISDIR(status.st_mode)
    kind = Kind.DIRECTORY if is_directory else Kind.FILE
    try:
        if is_directory:
            rights = KERNELS.of_directory(descriptor, status)
            mirrored = access.of_directory(descriptor, status)
        else:
            rights = mirrored = KERNELS.of_file(descriptor, status)
    except (BadList, OSError) as error:
        return Step(path, kind, fault=str(error))
    is_marked = is_directory and _is_marked(descriptor, status.st_uid)
    return Step(path, kind, rights, mirrored, "", status.st_ctime_ns, status.st_size, is_marked)


def _is_marked(descriptor: int, owner: int) -> bool:
    try:
        status = os.stat(DECLINES, dir_fd=descriptor, follow_symlinks=False)
    except OSError:
        return False
    return status.st_uid in (0, owner)


def opens(path: bytes, user: User) -> str:
    """Why the kernel doesn't let a user open a file; empty where it does. Raises `OSError`.

    A child with her ids tries it.
    """
    child = os.fork()
    if child == 0:
        os._exit(_try(path, user))
    status = os.waitpid(child, 0)[1]
    if not os.WIFEXITED(status):
        return f"it doesn't answer within {_SECONDS} s"
    number = os.WEXITSTATUS(status)
    return os.strerror(number) if number else ""


def _try(path: bytes, user: User) -> int:
    """The number of the error, in a child."""
    try:
        signal.signal(signal.SIGALRM, signal.SIG_DFL)
        signal.alarm(_SECONDS)
        os.setgroups(sorted(user.groups))
        os.setresgid(user.main, user.main, user.main)
        os.setresuid(user.number, user.number, user.number)
        os.close(os.open(path, _OPENED))
    except OSError as error:
        return error.errno or errno.EIO
    except Exception:
        return errno.EIO
    return 0
