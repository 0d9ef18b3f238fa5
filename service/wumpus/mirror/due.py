"""The documents of which text is to be made: persons in turn, by what each took of the time.

Nobody's documents keep others' waiting for long: the next one is of the person who took least in
the minute that is under way, and who took as much as a budget allows waits for the next one. What
failed for now is tried again after a pause, each longer than the one before.
"""

import heapq
import time
from collections import deque
from collections.abc import Callable, Iterable
from dataclasses import dataclass

from .nodes import Node
from .seen import SeenDirectory

MINUTE = 60.0  # seconds in which the time of each person is counted together
PAUSE = 60.0  # seconds after the first failure
PAUSE_MOST = 6 * 3600.0


@dataclass(frozen=True, slots=True)
class Due:
    """A document of which text is to be made, by one of its names."""

    directory: SeenDirectory
    name: bytes
    number: int


@dataclass(frozen=True, slots=True)
class Pause:
    """Until when a document waits that failed, by the monotonic clock, and how long that is."""

    until: float
    seconds: float


class Queue:
    """What waits, by person."""

    def __init__(self) -> None:
        self.waiting: dict[int, deque[Due]] = {}
        self.spent: dict[int, float] = {}  # seconds of each person's, in this minute
        self.order: list[tuple[float, int]] = []  # a heap of those of `waiting`, least first
        self.end = 0.0  # of the minute
        self.pauses: dict[int, Pause] = {}
        self.busy: int | None = None  # whose document was taken, and isn't charged yet
        self.count = 0

    def renew(
        self, found: Iterable[Due], nodes: dict[int, Node], person_of: Callable[[int], int]
    ) -> None:
        """Takes what a walk found in the place of what waits."""
        self.pauses = {number: one for number, one in self.pauses.items() if number in nodes}
        self.waiting = {}
        self.order = []
        self.count = 0
        for one in found:
            self.add(one, person_of(nodes[one.number].rights.owner))

    def add(self, due: Due, person: int) -> None:
        """Takes a document of a person's, if it isn't to wait for longer."""
        pause = self.pauses.get(due.number)
        if pause is not None and pause.until > time.monotonic():
            return
        self.count += 1
        if person not in self.waiting:
            self.waiting[person] = deque()
            if person != self.busy:
                heapq.heappush(self.order, (self.spent.get(person, 0.0), person))
        self.waiting[person].append(due)

    def has_any(self, budget: float) -> bool:
        """Whether a person has any who took less than the budget, in seconds of a minute."""
        if time.monotonic() >= self.end:
            self.end = time.monotonic() + MINUTE
            self.spent = {}
            self.order = [(0.0, one) for one in sorted(self.waiting) if one != self.busy]
        return bool(self.order) and self.order[0][0] < budget

    def take(self, budget: float) -> tuple[int, Due] | None:
        """The next one, and whose it is; None where nobody has one who has time left.

        Nothing more comes before `charge`.
        """
        if not self.has_any(budget):
            return None
        _, self.busy = heapq.heappop(self.order)
        self.count -= 1
        return self.busy, self.waiting[self.busy].popleft()

    def charge(self, person: int, seconds: float) -> None:
        """Counts the time of the one that was taken last."""
        self.busy = None
        spent = self.spent[person] = self.spent.get(person, 0.0) + seconds
        if self.waiting.get(person):
            heapq.heappush(self.order, (spent, person))
        else:
            self.waiting.pop(person, None)

    def put_off(self, number: int) -> None:
        """Has a document that failed for now wait: twice as long as the last time."""
        before = self.pauses.get(number)
        seconds = PAUSE if before is None else min(2 * before.seconds, PAUSE_MOST)
        self.pauses[number] = Pause(time.monotonic() + seconds, seconds)

    def is_done(self, number: int) -> None:
        """A document needs no more pauses."""
        self.pauses.pop(number, None)
