"""What has to be looked at, and when: persons in turn.

A change is looked at once its ctime can be trusted, and nothing came for a moment; what goes on
changing is tried all the same, and again later. Who costs time waits as long before her next look.
"""

import heapq
import time
from collections import OrderedDict
from collections.abc import Callable
from dataclasses import dataclass, field
from typing import NamedTuple

from .kept import Times

QUIET = 0.055  # seconds after a change before which its ctime can't be trusted
FIRST_TRY = 1.0  # seconds after the first change of several
AGAIN, AGAIN_MOST = 0.03, 1.0  # seconds until what failed is tried again, at first and at last
GIVEN_UP = 60.0  # seconds after which that is left to the turns
AT_MOST = 20_000  # that wait, of one person
AT_ONCE = 500  # in one look
CHARGED_MOST = 10.0  # seconds that somebody waits for a look that took as long, or longer
BETWEEN = 0.25  # seconds between two looks at one name
BYTES_A_SECOND = 256 << 10  # of one file that goes on changing


class Spot(NamedTuple):
    """A directory's number, and a name in it; without one its own rights, or all names in it."""

    directory: int
    name: bytes = b""
    is_whole: bool = False


@dataclass(slots=True)
class _Due:
    first: float
    at: float
    tries: int = 0


@dataclass(slots=True)
class _Line:
    """What waits of one person. In the heap are moments, of which some don't hold any more."""

    spots: dict[Spot, _Due] = field(default_factory=dict)
    heap: list[tuple[float, Spot]] = field(default_factory=list)
    ready: float = 0.0  # when she may have the next look
    most: int = AT_ONCE  # spots in a look: fewer, where one of them failed

    def put(self, spot: Spot, due: _Due) -> None:
        self.spots[spot] = due
        heapq.heappush(self.heap, (due.at, spot))
        if len(self.heap) > 100 + 4 * len(self.spots):
            self.heap = [(one.at, spot) for spot, one in self.spots.items()]
            heapq.heapify(self.heap)

    def next(self) -> float | None:
        """When the first of them is due."""
        while self.heap:
            at, spot = self.heap[0]
            due = self.spots.get(spot)
            if due is not None and due.at == at:
                return max(at, self.ready)
            heapq.heappop(self.heap)
        return None


class Dirty:
    """The spots of all persons. `clock` gives seconds; `left` counts what is left to the turns."""

    def __init__(self, clock: Callable[[], float] = time.monotonic) -> None:
        self.clock = clock
        self.lines: OrderedDict[int, _Line] = OrderedDict()
        self.not_before: dict[Spot, float] = {}
        self.taken: dict[Spot, _Due] = {}  # by the look that is under way
        self.left = 0

    def is_empty(self) -> bool:
        """Whether nothing waits."""
        return not any(line.spots for line in self.lines.values())

    def put(self, person: int, spot: Spot, times: Times) -> None:
        """Has something looked at."""
        line = self.lines.get(person)
        if line is None:
            line = self.lines[person] = _Line()
        before = line.spots.get(spot)
        if before is None and len(line.spots) >= AT_MOST:
            self.left += 1
            return
        first = times.first if before is None else before.first
        at = min(times.last + QUIET, first + FIRST_TRY)
        at = max(at, self.not_before.get(spot, 0.0))
        if before is not None and before.tries:
            at = max(at, before.at)
        line.put(spot, _Due(first, at, 0 if before is None else before.tries))

    def seconds(self) -> float | None:
        """After how many seconds something is due; None where nothing waits."""
        moments = [at for line in self.lines.values() if (at := line.next()) is not None]
        return max(0.0, min(moments) - self.clock()) if moments else None

    def take(self) -> tuple[int, list[Spot]] | None:
        """Some that are due, of the person who waited longest for her turn."""
        now = self.clock()
        for person, line in self.lines.items():
            at = line.next()
            if at is not None and at <= now:
                self.lines.move_to_end(person)
                return person, self._some(line, now)
        return None

    def _some(self, line: _Line, now: float) -> list[Spot]:
        self.taken = {}
        while len(self.taken) < line.most:
            at = line.next()
            if at is None or line.heap[0][0] > now:
                break
            _, spot = heapq.heappop(line.heap)
            self.taken[spot] = line.spots.pop(spot)
        return list(self.taken)

    # ---- after a look

    def is_done(self, person: int, seconds: float) -> None:
        """A look went well, in so many seconds."""
        line = self.lines[person]
        line.ready = self.clock() + min(CHARGED_MOST, seconds)
        line.most = min(AT_ONCE, 2 * line.most)

    def failed(self, person: int, seconds: float, is_final: bool) -> None:
        """A look failed: of several spots fewer are tried next, and one is tried later, or left."""
        line, now = self.lines[person], self.clock()
        line.ready = now + min(CHARGED_MOST, seconds)
        if len(self.taken) > 1:
            line.most = max(1, len(self.taken) // 2)
            for spot, due in self.taken.items():
                line.put(spot, due)
            return
        line.most = min(AT_ONCE, 2 * line.most)
        for spot in list(self.taken):
            if is_final:
                self.left += 1
            else:
                self.again(person, spot)

    def again(self, person: int, spot: Spot) -> None:
        """Has one that was taken looked at again, later; after a while it is left to the turns."""
        now = self.clock()
        due = self.taken.get(spot) or _Due(now, now)
        if now - due.first > GIVEN_UP:
            self.left += 1
            return
        pause = min(AGAIN_MOST, AGAIN * 2**due.tries)
        line = self.lines.setdefault(person, _Line())
        if spot not in line.spots:
            line.put(spot, _Due(due.first, now + pause, min(10, due.tries + 1)))

    def looked_at(self, spot: Spot, size: int) -> None:
        """A file was read: it isn't at once again."""
        now = self.clock()
        if len(self.not_before) > AT_MOST:
            self.not_before = {one: at for one, at in self.not_before.items() if at > now}
        if len(self.not_before) <= AT_MOST:
            self.not_before[spot] = now + max(BETWEEN, size / BYTES_A_SECOND)

    def tidy(self) -> None:
        """Forgets the persons of whom nothing is to be known."""
        now = self.clock()
        for person, line in list(self.lines.items()):
            if not line.spots and line.ready <= now:
                del self.lines[person]
