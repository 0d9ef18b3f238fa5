"""What the kernel told, as it came, until the mirror asks for it between two looks.

A directory is known only once it was read and taken in. What is told of it meanwhile is kept here,
and understood later: so nothing is lost that a look didn't see. What there is no room for waits for
the next turn.
"""

import threading
import time
from dataclasses import dataclass, field

ALL = b"/"  # in the place of a name: all names of the directory
OF_ONE = 5_000  # names of one directory; where there are more it is all of them
AT_MOST = 100_000  # directories, names and nodes in all

Name = tuple[bytes, bytes]  # a name in a directory, and the key of a file's handle; or empty


@dataclass(slots=True)
class Times:
    """When something was told first, and last, by the monotonic clock."""

    first: float
    last: float


@dataclass(slots=True)
class Batch:
    """What was told: names by the keys of their directories, nodes, and directories with all their
    names, by their numbers. `is_short` is set where there was no room for all."""

    names: dict[bytes, dict[Name, Times]] = field(default_factory=dict)
    nodes: dict[int, Times] = field(default_factory=dict)
    whole: dict[int, Times] = field(default_factory=dict)
    count: int = 0
    is_short: bool = False


class Kept:
    """What is kept. It is told by one thread, and taken by another, which `came` wakes."""

    def __init__(self) -> None:
        self.lock = threading.Lock()
        self.came = threading.Event()
        self.batch = Batch()

    def tell(self, directory: bytes, name: bytes, file: bytes) -> None:
        """Something happened in a directory, to a name in it, or to a file; keys where known."""
        now = time.monotonic()
        with self.lock:
            batch = self.batch
            names = batch.names.get(directory)
            if names is None:
                if batch.count >= AT_MOST:
                    batch.is_short = True
                    return
                names = batch.names[directory] = {}
            self._put(names, (name, file), now)
        self.came.set()

    def _put(self, names: dict[Name, Times], what: Name, now: float) -> None:
        times = names.get(what)
        if times is not None:
            times.last = now
        elif len(names) < OF_ONE and self.batch.count < AT_MOST:
            names[what] = Times(now, now)
            self.batch.count += 1
        else:
            names.setdefault((ALL, b""), Times(now, now)).last = now

    def tell_of(self, number: int, is_whole: bool = False) -> None:
        """Something happened to a node; or, to any name of a directory."""
        now = time.monotonic()
        with self.lock:
            found = self.batch.whole if is_whole else self.batch.nodes
            if number in found:
                found[number].last = now
            elif self.batch.count < AT_MOST:
                found[number] = Times(now, now)
                self.batch.count += 1
            else:
                self.batch.is_short = True
        self.came.set()

    def take(self) -> Batch:
        """All that was told since the last time."""
        self.came.clear()
        with self.lock:
            batch, self.batch = self.batch, Batch()
        return batch
