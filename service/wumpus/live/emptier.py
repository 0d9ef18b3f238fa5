"""The process that empties the kernel's queue of events, whatever the mirror does.

It has a process of its own, as a walk leaves a thread too little of the processor. It joins equal
events and keeps the others, by the directory that each names, until the mirror asks for them. Where
one directory has too many, or the kernel had no room, some are lost, and the mirror is told. It is
told too up to which moment all that the kernel told was given, also where that is nothing.
"""

import array
import fcntl
import os
import select
import socket
import struct
import sys
import termios
from collections import OrderedDict
from itertools import islice

from ..shared.clock import moment
from ..shared.program import die_with_parent
from .calls import FAN_ONDIR, FAN_Q_OVERFLOW, LESS
from .events import Unreadable, is_of_directory, split

READ = 1 << 18  # bytes at once
OF_HEAD = 24  # bytes of an event that the kernel counts
REST = 1000  # milliseconds after which the mirror is told that there is nothing
PAUSE = 5  # milliseconds between two readings, in which the kernel joins equal events
OF_ONE = 20_000  # events that wait, of one directory, and of files without one
BYTES_MAX = 64 << 20
OF_EVENT = 400  # bytes beside its own that an event takes
AT_ONCE = 20_000  # events that the mirror is given at once
OF_TURN = 200  # of them of one directory, before others have their turn
ASKS = b"?"
HEAD = struct.Struct("=IIQ")  # of what is given: its bytes, flags, and up to which moment
WHOLE = 1 << 32  # beside what happened to one name: to others of its directory, too
LOST, LOST_OF_ONE = 1, 2  # by the kernel, or for want of memory; and of one directory
EVENT = struct.Struct("=QI")  # what happened, and how many bytes tell where
FILES = b""  # in the place of the directory, of events that name none


class Kept:
    """The events that wait. All that the kernel told before the moment `until` came, or is lost.

    Directories have turns. Each had one, of what was told before the moment `given`.
    """

    def __init__(self) -> None:
        self.events: OrderedDict[bytes, dict[bytes, int]] = OrderedDict()
        self.size = 0
        self.flags = 0
        self.until = self.given = 0
        self.due = 0  # what `given` becomes
        self.turns = 0  # after so many turns

    def is_empty(self) -> bool:
        """Whether there is nothing to be given."""
        return not self.events and not self.flags

    def add(self, data: bytes) -> int:
        """Takes what the kernel told: how many events. Raises `Unreadable`."""
        count = 0
        for what, first, names in split(data):
            count += 1
            if what & FAN_Q_OVERFLOW:
                self.flags |= LOST
                continue
            directory = first if is_of_directory(names) else FILES
            events = self.events.get(directory, {})
            before = events.get(names)
            if before is not None:
                events[names] = before | what
            elif self.size >= BYTES_MAX:
                self.flags |= LOST
            elif len(events) >= OF_ONE and directory == FILES:
                pass
            elif len(events) >= OF_ONE and what & LESS & ~FAN_ONDIR:
                self.flags |= LOST_OF_ONE
            elif len(events) >= OF_ONE:
                events[next(iter(events))] |= WHOLE
            else:
                self.events.setdefault(directory, events)[names] = what
                self.size += len(names) + OF_EVENT
        return count

    def give(self) -> bytes:
        """Some of them, of each directory in turn, as bytes: what is left waits behind these.

        However many directories somebody has, those of others wait for one round at most.
        """
        pieces: list[bytes] = []
        while self.events and len(pieces) < AT_ONCE:
            if not self.turns:
                self.due, self.turns = self.until, len(self.events)
            directory, events = self.events.popitem(last=False)
            for names in list(islice(events, OF_TURN)):
                pieces.append(EVENT.pack(events.pop(names), len(names)) + names)
                self.size -= len(names) + OF_EVENT
            if events:
                self.events[directory] = events
            self.turns -= 1
            if not self.turns:
                self.given = self.due
        if not self.events:
            self.given = self.until
        told = b"".join(pieces)
        flags, self.flags = self.flags, 0
        return HEAD.pack(len(told), flags, self.given) + told


def empty(group: int, mirror: socket.socket) -> None:
    """Empties a group until the mirror ends. Raises `Unreadable`, and `OSError`."""
    kept = Kept()
    is_asked = False
    poll = select.poll()
    poll.register(group, select.POLLIN)
    poll.register(mirror, select.POLLIN)
    pause = select.poll()
    pause.register(mirror, select.POLLIN)
    while True:
        began = moment()
        ready = [number for number, _ in poll.poll(REST if is_asked else None)]
        if mirror.fileno() in ready:
            if not mirror.recv(1):
                return
            is_asked = True
        if group in ready:
            _read(group, kept)
        else:
            kept.until = began
        if is_asked and (not kept.is_empty() or not ready):
            mirror.sendall(kept.give())
            is_asked = False
        if not is_asked:
            pause.poll(PAUSE)
        else:
            select.select([], [], [], PAUSE / 1000)


def _read(group: int, kept: Kept) -> None:
    """Reads what is there at this moment, and nothing that comes meanwhile, on and on."""
    kept.until = moment()
    left = _waiting_in(group)
    while left > 0:
        try:
            left -= kept.add(os.read(group, READ))
        except BlockingIOError:
            return


def _waiting_in(group: int) -> int:
    """How many events wait in a group. Raises `OSError`."""
    count = array.array("i", [0])
    fcntl.ioctl(group, termios.FIONREAD, count)
    return count[0] // OF_HEAD


def main() -> None:
    """Runs with the descriptors of the group and of the mirror's socket as words."""
    die_with_parent()
    group, number = int(sys.argv[1]), int(sys.argv[2])
    try:
        empty(group, socket.socket(fileno=number))
    except ConnectionError:
        pass  # the mirror ended, with something untaken
    except (Unreadable, OSError) as error:
        print(f"wumpus-mirror: events can't be read: {error}", file=sys.stderr)
        sys.exit(1)
