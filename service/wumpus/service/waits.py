"""Who has to wait since her queries were killed, and until when.

A killed query costs all others the start of the program. So each costs its person a wait that is
twice as long as the one before; what was long ago counts for less.
"""

import math
import time
from collections.abc import Callable
from dataclasses import dataclass

FIRST = 30.0  # seconds, for a first kill
OF_COST = 10.0  # times what the kill cost the others, where that is more
LONGEST = 4 * 3600.0
FORGIVEN = 3600.0  # seconds after which a wait is half as long
SUSPECTED = 600.0  # seconds in which a second end of the program counts as a kill
KEPT = 10_000  # persons
PRUNED = 0.75  # of them, where they are more


@dataclass(slots=True)
class Record:
    """Kills of one person: `level` of them count, as of the moment `at`."""

    level: float = 0.0
    at: float = 0.0
    until: float = 0.0
    suspected: float = -SUSPECTED

    def level_at(self, now: float) -> float:
        """How many kills count now."""
        return max(0.0, self.level - (now - self.at) / FORGIVEN)


class Waits:
    """The records of all persons. `clock` gives seconds."""

    def __init__(self, clock: Callable[[], float] = time.monotonic) -> None:
        self.clock = clock
        self.records: dict[int, Record] = {}

    def kill(self, person: int, cost: float) -> float:
        """Counts a kill that cost the others so many seconds; gives how long she waits."""
        now = self.clock()
        record = self._record(person)
        level = record.level_at(now)
        wait = min(LONGEST, max(FIRST, OF_COST * cost) * math.pow(2.0, level))
        record.level, record.at = level + 1.0, now
        record.until = max(record.until, now + wait)
        return wait

    def suspect(self, person: int, cost: float) -> None:
        """The program ended in the midst of her query: a second time soon counts as a kill."""
        now = self.clock()
        record = self._record(person)
        again = now - record.suspected < SUSPECTED
        record.suspected = now
        if again:
            self.kill(person, cost)

    def has_to_wait(self, person: int) -> bool:
        """Whether none of her queries is answered."""
        record = self.records.get(person)
        return record is not None and record.until > self.clock()

    def slow(self) -> list[tuple[int, float]]:
        """Who has to wait, and for how many seconds."""
        now = self.clock()
        return [
            (person, record.until - now)
            for person, record in self.records.items()
            if record.until > now
        ]

    def _record(self, person: int) -> Record:
        if len(self.records) >= KEPT and person not in self.records:
            self._forget()
        return self.records.setdefault(person, Record())

    def _forget(self) -> None:
        """Forgets some: what counts for nothing any more, and then those who wait least."""
        now = self.clock()
        kept = [
            (record.until, person)
            for person, record in self.records.items()
            if record.until > now
            or record.level_at(now) > 0.0
            or now - record.suspected < SUSPECTED
        ]
        kept = sorted(kept, reverse=True)[: int(KEPT * PRUNED)]
        self.records = {person: self.records[person] for _, person in kept}
