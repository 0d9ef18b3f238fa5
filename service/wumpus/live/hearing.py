"""What the service is told of the kernel's word: up to which moment it was heard, and fed.

It answers nobody where that is too long ago, so a mirror that hangs shows no old rights. What is
told is so whichever thread or process hangs: the moment is that of the process which empties the
kernel's queue, it counts once all that came until then was looked at and fed, and a walk's tree
counts once the directories in it are known. Not counted is what waits behind other changes of one
person, or in one directory, who has very many.
"""

import time
from collections.abc import Callable

from ..mirror.reach import Served
from ..shared.clock import moment

APART = 0.9  # seconds from one word to the next


class Hearing:
    """From when on the kernel's word is heard, and up to when it came here."""

    def __init__(self, reach: Served, clock: Callable[[], int] = moment) -> None:
        self.reach = reach
        self.clock = clock
        self.since = 0
        self.until = 0
        self.told = 0  # the moment that the service was told last
        self.due = 0.0

    def miss(self) -> None:
        """Something that the kernel told until now isn't heard, or it wasn't asked: a walk has to
        find it that begins later."""
        self.since = self.clock()

    def end(self) -> None:
        """The kernel tells nothing any more. Raises `Failed`."""
        self.until = self.told = 0
        self.reach.unheard()

    def tell(self, waits_since: int | None) -> None:
        """Tells the service, where it is time. Raises `Failed`.

        `waits_since` is the moment after which the kernel told of what waits to be looked at.
        """
        until = self.until if waits_since is None else min(self.until, waits_since)
        now = time.monotonic()
        if until > self.told and now >= self.due:
            self.reach.heard(self.since, until)
            self.told, self.due = until, now + APART
