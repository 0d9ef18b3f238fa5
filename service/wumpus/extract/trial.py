"""The server tries its walls when it begins: what mustn't work behind them, and what must.

Without the second half a wall that ends each worker at once would be taken for one that holds.
"""

import hashlib
import os
import select
import signal
import socket
import sys
from collections.abc import Callable
from dataclasses import dataclass

from . import samples, system
from .documents import Document
from .filters import VERSION
from .kinds import PLAIN, WRITTEN, Code, Kind, Table
from .own import OwnRun
from .packets import Offer
from .reasons import Ended, Way
from .walls import Allowance, Walls
from .worker import ENVIRONMENT, ProgramTask, Task, begin

_ALLOWED = Allowance(5, 512)
_PIECE = 4096


class Untrusted(Exception):
    """Nothing is served here; the text says why."""


@dataclass(frozen=True)
class _Deed:
    """Something that mustn't work behind some walls."""

    walls: Walls
    run_it: Callable[[], object]

    def run(self) -> None:
        """Does it."""
        self.run_it()


def _execute() -> None:
    os.execve(sys.executable, [sys.executable, "-I", "-S", "-c", ""], ENVIRONMENT)


_DEEDS: dict[str, Callable[[], object]] = {
    "open a file": lambda: os.open(os.devnull, os.O_RDONLY),
    "make a socket": lambda: socket.socket(socket.AF_UNIX, socket.SOCK_STREAM),
    "fork": os.fork,
    "execute a program": _execute,
    "reach another process": lambda: os.kill(os.getppid(), 0),
}


def check_rights() -> None:
    """Raises `Untrusted` where this process has any right of its own."""
    if 0 in (*os.getresuid(), *os.getresgid()):
        raise Untrusted("it doesn't serve as root: see wumpus-extract(8)")
    if set(os.getgroups()) - {os.getgid()}:
        raise Untrusted("it doesn't serve with groups beside its own")
    if system.has_capability():
        raise Untrusted("it doesn't serve with a capability")


def _outcome(task: Task, document: Document, errors: bool = False) -> tuple[bytes, Ended]:
    """What a worker writes at first, also to standard error if so wanted, and how it ends."""
    reading, writing = os.pipe2(os.O_CLOEXEC)
    nowhere = os.open(os.devnull, os.O_RDWR | os.O_CLOEXEC)
    try:
        second = writing if errors else nowhere
        process = begin(task, (document.descriptor, writing, second), _ALLOWED)
    except OSError as error:
        os.close(reading)
        raise Untrusted(f"no worker can be begun: {error.strerror}") from error
    finally:
        os.close(writing)
        os.close(nowhere)
    run = OwnRun(process, reading, _ALLOWED.patience)
    written = b""
    while len(written) < _PIECE and select.select([reading], [], [], run.patience)[0]:
        piece = os.read(reading, _PIECE)
        if not piece:
            break
        written += piece
    return written, run.end()


def try_walls(tasks: dict[str, Task]) -> None:
    """Raises `Untrusted` where something works behind walls that mustn't."""
    with Document.of(b"") as nothing:
        for walls, of in {task.walls: name for name, task in tasks.items()}.items():
            for what, deed in _DEEDS.items():
                _, ended = _outcome(_Deed(walls, deed), nothing)
                if ended.way is Way.EXIT and ended.number == 0:
                    raise Untrusted(f"a worker for {of} can {what}")


def offers(
    table: Table, tasks: dict[str, Task], warn: Callable[[str], None]
) -> dict[str, Offer]:
    """What is offered of each task that works behind its walls.

    Raises `Untrusted` where not even a plain text can be read.
    """
    offered = {}
    for name in (PLAIN, WRITTEN):
        trouble = _trouble_of(tasks[name], samples.OF_FILTER[name])
        if trouble is not None:
            raise Untrusted(f"behind its walls a worker can read nothing: {trouble}")
        offered[name] = _offer(name, tasks[name], (name,))
    for kind in table.kinds.values():
        task = tasks.get(kind.name)
        trouble = _trouble_of(task, _sample_of(kind)) if task else "its program isn't there"
        if task is not None and trouble is None:
            made_by = kind.made_by
            words = (made_by.name,) if isinstance(made_by, Code) else made_by.words
            offered[kind.name] = _offer(kind.name, task, words)
        else:
            warn(f"{kind.name}: {trouble}: its documents have no text")
    return offered


def _sample_of(kind: Kind) -> bytes | None:
    """A document of a kind; None for one that is made by a program that isn't known here."""
    if isinstance(kind.made_by, Code):
        return samples.OF_FILTER[kind.made_by.name]
    is_known = os.path.basename(kind.made_by.words[0]) == "pdftotext"
    return samples.pdf(samples.WORD) if is_known else None


def _trouble_of(task: Task, sample: bytes | None) -> str | None:
    """Why a task can't read a sample, or can't even begin; None where it can."""
    with Document.of(sample or b"") as document:
        written, ended = _outcome(task, document)
    if ended.way is Way.SIGNAL and ended.number == signal.SIGSYS:
        return "each worker is killed, as where Landlock isn't allowed to this service"
    if ended.way is not Way.EXIT:
        return f"it ends by {ended.way.name.lower()} {ended.number}"
    if sample is not None and samples.WORD.encode() not in written:
        return "it doesn't read its sample"
    return None


def _offer(name: str, task: Task, words: tuple[str, ...]) -> Offer:
    """An offer of what some words make; of a program the fingerprint has the version it tells."""
    told = [f"{VERSION}", *words]
    if isinstance(task, ProgramTask):
        version = ProgramTask(task.walls, (task.words[0], "-v"))
        with Document.of(b"") as nothing:
            written, _ = _outcome(version, nothing, errors=True)
        told.append(written.partition(b"\n")[0].decode("utf-8", "replace"))
    fingerprint = hashlib.blake2b("\0".join(told).encode(), digest_size=8).hexdigest()
    return Offer(name, isinstance(task, ProgramTask), fingerprint)
