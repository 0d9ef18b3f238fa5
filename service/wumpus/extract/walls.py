"""What a worker puts around itself before it reads the first byte of a document.

Each wall holds without the others as far as it goes, and no right is needed to put one up. None can
be taken down again. There is no way to leave one out.
"""

import ctypes
import fcntl
import os
import resource
import signal
import struct
from collections.abc import Callable
from dataclasses import dataclass
from pathlib import Path

from . import calls, landlock, system

DOCUMENT, OUTPUT, ERRORS = 0, 1, 2
DESCRIPTORS = 32
NOBODY = 65534
LIBRARIES = ("/lib", "/lib64", "/usr/lib", "/usr/lib64", "/etc/ld.so.cache")
CHARACTERS = ("/usr/share/poppler",)  # tables for PDFs in Chinese, Japanese and Korean


class Missing(Exception):
    """A wall can't be put up here; the text says which."""


class Hole(Exception):
    """A wall was put up and doesn't hold."""


@dataclass(frozen=True)
class Allowance:
    """What one worker may take: seconds of the processor, and MiB of memory."""

    seconds: int
    memory: int

    @property
    def patience(self) -> float:
        """Seconds of the clock after which it is too late: the machine may have other work."""
        return 3.0 * self.seconds


def limit(allowed: Allowance) -> None:
    """Limits of this process: what it takes, what it leaves behind, and that it has no children."""
    most = allowed.memory << 20
    for what, value in (
        (resource.RLIMIT_AS, most),
        (resource.RLIMIT_CORE, 0),
        (resource.RLIMIT_FSIZE, 0),
        (resource.RLIMIT_MEMLOCK, 0),
        (resource.RLIMIT_MSGQUEUE, 0),
        (resource.RLIMIT_NOFILE, DESCRIPTORS),
        (resource.RLIMIT_NPROC, 0),
    ):
        resource.setrlimit(what, (value, value))
    # At the first of both it is told, at the second it is killed.
    resource.setrlimit(resource.RLIMIT_CPU, (allowed.seconds, allowed.seconds + 1))


def hold_only(document: int, output: int, nowhere: int) -> None:
    """Has no descriptor but the document, the pipe, and one that leads nowhere."""
    # Where this process was begun without them, one of the three may be among the first three.
    given = [fcntl.fcntl(one, fcntl.F_DUPFD, ERRORS + 1) for one in (document, output, nowhere)]
    for number, one in enumerate(given):
        os.dup2(one, number)
    system.close_all_from(ERRORS + 1)


def leave_rights() -> None:
    """Has no capability, and isn't root: what root forks is nobody."""
    if os.geteuid() == 0:
        os.setgroups([])
        os.setresgid(NOBODY, NOBODY, NOBODY)
        os.setresuid(NOBODY, NOBODY, NOBODY)
    if system.has_capability():
        system.drop_capabilities()


def die_with(parent: int) -> None:
    """Has this process end with the one that forked it."""
    system.die_with_parent(signal.SIGKILL)
    if os.getppid() != parent:
        os._exit(1)


class Walls:
    """The walls of one sort of workers, made before any document is there.

    They are used in this order: `restrict` while the descriptor of the rules is open, `filter`
    last.
    """

    def __init__(self, rules: landlock.Ruleset, program: ctypes.Array[ctypes.c_char]) -> None:
        self.rules = rules
        self.program = program

    @classmethod
    def for_code(cls) -> "Walls":
        """For a filter that is code: nothing may be opened or executed. Raises `Missing`."""
        try:
            return cls(landlock.Ruleset(), calls.for_code())
        except (landlock.Missing, calls.Missing) as error:
            raise Missing(str(error)) from error

    @classmethod
    def for_program(cls, path: str) -> "Walls":
        """For one program, which may read its libraries. Raises `Missing`."""
        try:
            rules = landlock.Ruleset()
            rules.allow(LIBRARIES, landlock.READ)
            rules.allow(CHARACTERS, landlock.READ | landlock.LIST)
            rules.allow((path, *loader_of(path)), landlock.READ | landlock.EXECUTE)
            return cls(rules, calls.for_programs())
        except (landlock.Missing, calls.Missing) as error:
            raise Missing(str(error)) from error

    def restrict(self) -> None:
        """From here on Landlock says which files there are."""
        system.forbid_new_privileges()
        self.rules.restrict()
        _check_refused(lambda: os.open("/", os.O_RDONLY | os.O_CLOEXEC))

    def filter(self) -> None:
        """From here on seccomp says which calls there are."""
        system.filter_calls(self.program)
        # A call that takes nothing from anybody, and that is in no list.
        _check_refused(lambda: os.sched_get_priority_max(os.SCHED_OTHER))

    def close(self) -> None:
        """Closes what is open of them."""
        self.rules.close()


def _check_refused(call: Callable[[], object]) -> None:
    """Raises `Hole` where a call works that mustn't behind the wall that was just put up."""
    try:
        call()
    except OSError:
        return
    raise Hole


_LOADER = 3  # PT_INTERP
_LARGE = 2  # ELFCLASS64


def loader_of(path: str) -> tuple[str, ...]:
    """The loader that a program names, which executes too; none where it names none."""
    with Path(path).open("rb") as file:
        head = file.read(64)
        if len(head) < 64 or head[:4] != b"\x7fELF" or head[4] != _LARGE:
            return ()
        order = "<" if head[5] == 1 else ">"
        (start,) = struct.unpack_from(order + "Q", head, 32)
        size, count = struct.unpack_from(order + "HH", head, 54)
        for place in range(count):
            file.seek(start + place * size)
            part = file.read(size)
            what, _, begin, _, _, length = struct.unpack_from(order + "IIQQQQ", part)
            if what == _LOADER:
                file.seek(begin)
                return (os.fsdecode(file.read(length).rstrip(b"\0")),)
    return ()
