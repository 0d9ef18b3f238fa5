"""How a worker ended, and why a document has no text."""

import signal
from dataclasses import dataclass
from enum import Enum


class Reason(Enum):
    """Why a document has no text; the value is what is told of it."""

    BROKEN = "isn't what its name or its first bytes say"
    ENCRYPTED = "is encrypted"
    PROGRAM = "its program gave up: it is broken, or encrypted"
    NOT_MADE = "nothing here makes text of its kind"
    TEXT = "has too much text for its size"
    WITHIN = "has too much within it"
    TIME = "takes too much time of the processor"
    MEMORY = "takes too much memory"
    CRASHED = "its filter crashed"
    HOSTILE = "its filter was stopped at what no document asks for"
    LATE = "wasn't done in time"
    STOPPED = "its filter was stopped from outside"
    NO_PROCESS = "the machine had no process for it"
    NO_SERVER = "the server didn't answer"
    NO_ROOM = "its owner has too much text"
    NO_DISK = "the disk of the store is nearly full"

    @property
    def final(self) -> bool:
        """Tells whether the same document would fail again, on a machine with time and memory.

        One of a kind that isn't made would until the server has another fingerprint for the kind.
        """
        return self not in _PASSING


_PASSING = {
    Reason.LATE,
    Reason.STOPPED,
    Reason.NO_PROCESS,
    Reason.NO_SERVER,
    Reason.NO_ROOM,
    Reason.NO_DISK,
}

# What a worker itself says, in one byte, so that a hostile one has no words to choose.
SAID = {
    b"b": Reason.BROKEN,
    b"e": Reason.ENCRYPTED,
    b"m": Reason.MEMORY,
    b"w": Reason.WITHIN,
}
BYTE_OF = {reason: byte for byte, reason in SAID.items()}


class Refusal(Exception):
    """A filter has no text of a document."""

    def __init__(self, reason: Reason) -> None:
        super().__init__(reason.value)
        self.reason = reason


class Way(Enum):
    """In which way a worker ended."""

    EXIT = 0  # by itself, with a status
    SIGNAL = 1
    LATE = 2  # killed at its limit of time
    NO_PROCESS = 3  # it never began
    GONE = 4  # the server ended, or began anew
    NO_SERVER = 5  # nobody tells


@dataclass(frozen=True)
class Ended:
    """How a worker ended: the status or the number of the signal, and what it took."""

    way: Way
    number: int = 0
    seconds: float = 0.0  # of the processor
    peak: int = 0  # KiB

    def reason(self, allowed: float) -> Reason | None:
        """Why it has no text, if so; it was allowed so many seconds of the processor."""
        if self.way is Way.EXIT:
            return Reason.PROGRAM if self.number else None
        if self.way is not Way.SIGNAL:
            return _REASON_OF_WAY[self.way]
        if self.number == signal.SIGKILL:
            # By the limit of the processor, or for memory of the whole unit.
            return Reason.TIME if self.seconds >= allowed else Reason.STOPPED
        return _REASON_OF_SIGNAL.get(self.number, Reason.STOPPED)


_REASON_OF_WAY = {
    Way.LATE: Reason.LATE,
    Way.NO_PROCESS: Reason.NO_PROCESS,
    Way.GONE: Reason.NO_SERVER,
    Way.NO_SERVER: Reason.NO_SERVER,
}
_REASON_OF_SIGNAL: dict[int, Reason] = {
    signal.SIGXCPU: Reason.TIME,
    signal.SIGSYS: Reason.HOSTILE,
    signal.SIGSEGV: Reason.CRASHED,
    signal.SIGBUS: Reason.CRASHED,
    signal.SIGABRT: Reason.CRASHED,
    signal.SIGFPE: Reason.CRASHED,
    signal.SIGILL: Reason.CRASHED,
    signal.SIGTRAP: Reason.CRASHED,
    signal.SIGXFSZ: Reason.CRASHED,
}
CRASHES = frozenset(_REASON_OF_SIGNAL) - {signal.SIGXCPU}
