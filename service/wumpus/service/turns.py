"""Whose query is next: that of the person for whom the program worked least.

The program's seconds count, not queries. Each person has a clock that goes on while the program
works for her, and of those who wait the one whose clock shows least is next. Who comes after a
while begins where the one who is being answered began: she pays for nothing that others took, and
has saved up nothing.

Some queries are likely dear. Where cheaper ones wait, these get as much time after a dear one as
that took. So many who are new, with slow queries, don't all go before one who asks quick ones.
"""

import collections
import time
from collections.abc import Callable
from enum import IntEnum

from .clients import Query

KEPT = 15  # the program keeps which files it may show to so many users who asked last
PATIENCE = 0.25  # seconds in which cheaper queries go before others
OF_SERVICE = 0.0002  # seconds that the service itself takes for a query
QUICK = 0.1  # seconds of the processor, which a query takes at most that isn't dear
CLOCKS = 10_000  # persons whose clocks are kept
PRUNED = 0.75  # of them, where they are more


class Cost(IntEnum):
    """What a query is likely to take."""

    QUICK = 0
    FINDING = 1  # quick, but the program doesn't keep which files it may show to its user
    SLOW = 2  # of a person whose last ones were, or of whom nothing is known


class Turns:
    """The queries that wait, those of each person in the order in which they came."""

    def __init__(self, clock: Callable[[], float] = time.monotonic) -> None:
        self.clock = clock
        self.queues: dict[int, collections.deque[Query]] = {}
        self.used: dict[int, float] = {}  # the clock of each person, in seconds
        self.lately: dict[int, float] = {}  # what a query of hers took, of the last ones most
        self.begun = 0.0  # what the clock showed of the last one who was taken
        self.recent: collections.deque[int] = collections.deque(maxlen=KEPT)
        self.is_dear = False  # the query under way
        self.dear_spent = 0.0  # seconds of the last dear query
        self.cheap_spent = 0.0  # seconds of the queries after it

    def put(self, query: Query) -> None:
        """Puts a query behind those of the same person."""
        person = query.person
        if person not in self.queues:
            self.used[person] = max(self.used.get(person, 0.0), self.begun)
            self.queues[person] = collections.deque()
        self.queues[person].append(query)

    def __len__(self) -> int:
        return sum(len(queue) for queue in self.queues.values())

    def is_empty(self) -> bool:
        """Whether none waits."""
        return not self.queues

    def take(self) -> Query | None:
        """The next query, or None where none waits. Those of clients who are gone are left out."""
        while self.queues:
            person = self._whose_turn()
            queue = self.queues[person]
            query = queue.popleft()
            if not queue:
                del self.queues[person]
            if not query.client.ended:
                self.begun = max(self.begun, self.used[person])
                return query
        return None

    def note(self, person: int, user: int) -> None:
        """A query of this user is given to the program."""
        self.is_dear = self._cost(person, user) is not Cost.QUICK
        if self.is_kept(user):
            self.recent.remove(user)
        self.recent.append(user)

    def _cost(self, person: int, user: int) -> Cost:
        """What a query is likely to take."""
        if self.lately.get(person, QUICK + 1.0) > QUICK:
            return Cost.SLOW
        return Cost.QUICK if self.is_kept(user) else Cost.FINDING

    def is_kept(self, user: int) -> bool:
        """Whether the program may know already which files it may show to this user."""
        return user in self.recent

    def forget(self) -> None:
        """The program began anew, and keeps nothing."""
        self.recent.clear()

    def _whose_turn(self) -> int:
        """The person who is answered next: the first one, unless hers is dear and may wait.

        Between two dear queries the others get as much time as the first of them took.
        """
        first = min(self.queues, key=self._place)
        late = self.clock() - self.queues[first][0].since > PATIENCE
        if late and self.cheap_spent >= self.dear_spent:
            return first
        return min(self.queues, key=self._place_by_cost)

    def _place_by_cost(self, person: int) -> tuple[Cost, tuple[float, float]]:
        """The order of persons where dear queries may wait."""
        return self._cost(person, self.queues[person][0].user), self._place(person)

    def _place(self, person: int) -> tuple[float, float]:
        """The order of persons: by their clocks, and then by when their queries came."""
        return self.used[person], self.queues[person][0].since

    def charge(self, person: int, seconds: float) -> None:
        """The program worked so long for a person."""
        self.used[person] = self.used.get(person, self.begun) + seconds + OF_SERVICE
        if len(self.used) > CLOCKS:
            self._prune()

    def count_time(self, person: int, taken: float) -> None:
        """The query that was given took so many seconds, whatever came of it."""
        self.charge(person, taken)
        self.lately[person] = (self.lately.get(person, taken) + taken) / 2
        if self.is_dear:
            self.dear_spent, self.cheap_spent = taken, 0.0
        else:
            self.cheap_spent += taken

    def _prune(self) -> None:
        """Forgets clocks that show no more than a new one would, and then those that show least."""
        ahead = sorted(
            (
                (shown, person)
                for person, shown in self.used.items()
                if shown > self.begun or person in self.queues
            ),
            reverse=True,
        )[: int(CLOCKS * PRUNED)]
        waiting = {person: self.used[person] for person in self.queues}
        self.used = {person: shown for shown, person in ahead} | waiting
        self.lately = {
            person: taken for person, taken in self.lately.items() if person in self.used
        }
