"""What waits to be looked at: persons in turn, and of each the oldest first.

So who changes very much waits for herself. A batch costs all users time, as what the program keeps
of them is made anew: each person may cause some at once, and then so many a second.
"""

import time
from collections import OrderedDict
from collections.abc import Callable
from dataclasses import dataclass, field
from typing import NamedTuple

AT_MOST = 20_000  # that wait, of one person
AT_ONCE = 20.0  # batches that one person may cause
A_SECOND = 2.0  # and so many more each second
LONG = 200  # items of one person's, over which her line is as late as she made it
NOT_BOUNDED = 0  # user 0


class Item(NamedTuple):
    """A directory, by its number, and a name in it, or none where it is meant itself; or a file.

    A file is given by the key of its handle, and has no other field.
    """

    directory: int = 0
    name: bytes = b""
    file: bytes = b""


@dataclass(slots=True)
class _Person:
    items: "OrderedDict[Item, int]" = field(default_factory=OrderedDict)  # and since when each
    left: float = AT_ONCE  # batches, as of the moment `at`
    at: float = 0.0


class Waiting:
    """The items of all persons. `clock` gives seconds."""

    def __init__(self, clock: Callable[[], float] = time.monotonic) -> None:
        self.clock = clock
        self.persons: dict[int, _Person] = {}
        self.turns: OrderedDict[int, _Person] = OrderedDict()  # who has items
        self.dropped = 0  # of persons who had too many

    def put(self, person: int, item: Item, since: int = 0) -> bool:
        """Has something looked at that was told of after this moment: whether there is room."""
        found = self.persons.get(person)
        if found is None:
            found = self.persons[person] = _Person(at=self.clock())
        if item in found.items:
            return True
        if len(found.items) >= AT_MOST:
            self.dropped += 1
            return False
        found.items[item] = since
        self.turns.setdefault(person, found)
        return True

    def take(self) -> tuple[int, Item] | None:
        """The next one, of the person who waited longest of those who may cause a batch."""
        now = self.clock()
        for person, found in self.turns.items():
            if self._left(person, found, now) >= 1.0:
                item, _ = found.items.popitem(last=False)
                if found.items:
                    self.turns.move_to_end(person)
                else:
                    del self.turns[person]
                return person, item
        return None

    def since(self) -> int | None:
        """The moment after which what waits was told of; None where nothing does.

        It isn't asked of who has a long line, or has no batch left: she waits for herself.
        """
        now = self.clock()
        moments = [
            next(iter(found.items.values()))
            for person, found in self.turns.items()
            if len(found.items) <= LONG and self._left(person, found, now) >= 1.0
        ]
        return min(moments, default=None)

    def charge(self, person: int) -> None:
        """A batch was fed, for her among others."""
        found, now = self.persons[person], self.clock()
        found.left, found.at = self._left(person, found, now) - 1.0, now

    def seconds(self) -> float | None:
        """After how many seconds there is something to be taken; None: nothing waits."""
        now = self.clock()
        left = [self._left(person, found, now) for person, found in self.turns.items()]
        return max(0.0, (1.0 - max(left)) / A_SECOND) if left else None

    def tidy(self) -> None:
        """Forgets the persons of whom nothing is to be known."""
        now = self.clock()
        for person, found in list(self.persons.items()):
            if not found.items and self._left(person, found, now) >= AT_ONCE:
                del self.persons[person]

    @staticmethod
    def _left(person: int, found: _Person, now: float) -> float:
        if person == NOT_BOUNDED:
            return AT_ONCE
        return min(AT_ONCE, found.left + A_SECOND * max(0.0, now - found.at))
