"""When the program merges the parts of its index: while nobody asks, and a little in any case.

A merge that is under way is lost where the program is killed, and one that is done is lost unless
it is saved. So what was done is saved; who loses merges again and again waits until they are done;
and where some were lost the program gives them more of its time.
"""

import time
from collections.abc import Callable
from dataclasses import dataclass, field
from pathlib import Path

from ..shared.store import room_left
from .tasks import Failure, Line, Task

WORK = b"work\t200\n"
SAVE = b"save\n"
SHARE = 0.125  # of the program's time, while queries wait
SHARE_AT_MOST = 0.5  # where merges were lost, each of which doubles the share
OWED_AT_MOST = 1.0  # seconds
SAVED_AFTER = 30.0  # seconds of work that a kill may lose, beside the merge that is under way
HELD_AFTER = 2  # merges that one person lost
HELD_AT_MOST = 3600.0  # seconds
PAUSE = 60.0  # seconds after a failure, twice as many after the next
LONGEST_PAUSE = 3600.0
LOOKED_AT = 2.0  # seconds in which the disk is looked at once


@dataclass
class Merging:
    """What is known of the merges. `clock` gives seconds; `folder` is that of the store."""

    folder: Path
    log: Callable[[str], None]
    clock: Callable[[], float] = time.monotonic
    room: Callable[[Path], int] = room_left
    saved: Callable[[], None] = lambda: None  # is called after each save
    is_idle: bool = True  # nothing is left to merge
    unsaved: float = 0.0  # seconds of work since the last save
    save_cost: float = 0.0  # seconds of the last save
    lost: int = 0  # kills while there was unsaved work, since all was merged
    losers: dict[int, list[float]] = field(default_factory=dict)  # when each person lost one
    owed: float = 0.0  # seconds of the program that queries took from the work
    failures: int = 0
    paused_until: float = 0.0
    looked: float = -LOOKED_AT
    is_short: bool = False  # the disk

    def opened(self) -> None:
        """The program began: it may have something to merge."""
        self.is_idle = False
        self.unsaved = 0.0

    def fed(self) -> None:
        """A batch went in, and its last line saved all that was merged before."""
        self.is_idle = False
        self.unsaved = 0.0

    def queried(self, seconds: float) -> None:
        """A query took so long of the program's time."""
        share = min(SHARE_AT_MOST, SHARE * 2.0**self.lost)
        self.owed = min(OWED_AT_MOST, self.owed + seconds * share / (1.0 - share))

    def killed_by(self, person: int) -> None:
        """A query of this person was killed, and with it what was merged and not saved."""
        if self.unsaved > 0.0:
            self.lost += 1
            self.losers.setdefault(person, []).append(self.clock())

    def holds(self, person: int) -> bool:
        """Whether a person waits for the merges, of which she lost several."""
        when = self.losers.get(person, [])
        return len(when) >= HELD_AFTER and self.clock() - when[-1] < HELD_AT_MOST

    def next_task(self, is_asked: bool) -> Task | None:
        """What is to be done, where something is. `is_asked` where queries wait."""
        now = self.clock()
        if now < self.paused_until:
            return None
        if self._is_to_be_saved(now):
            return Line(SAVE, self._saved)
        if self.is_idle or self._disk_is_short(now) or (is_asked and self.owed <= 0.0):
            return None
        return Line(WORK, self._worked)

    def _is_to_be_saved(self, now: float) -> bool:
        """Whether a save is worth its time, or gives back room that is missing."""
        if self.unsaved <= 0.0:
            return False
        if self.unsaved >= SAVED_AFTER or self._disk_is_short(now):
            return True
        return self.is_idle and self.unsaved >= self.save_cost

    def _disk_is_short(self, now: float) -> bool:
        """Whether the disk of the store has no room for a merge."""
        if now - self.looked >= LOOKED_AT:
            self.looked = now
            try:
                short = self.room(self.folder) <= 0
            except OSError:
                short = True
            if short and not self.is_short:
                self.log("the disk of the store is nearly full: nothing is merged")
            self.is_short = short
        return self.is_short

    def _worked(self, told: bytes | Failure, taken: float) -> None:
        if isinstance(told, Failure):
            self._put_off()
            return
        self.owed -= taken
        self.unsaved += taken
        self.is_idle = told == b"idle"
        if self.is_idle and self.unsaved < self.save_cost:
            self._done()

    def _saved(self, told: bytes | Failure, taken: float) -> None:
        if told != b"ok":
            self._put_off()
            return
        self.saved()
        self.unsaved = 0.0
        self.save_cost = taken
        if self.is_idle:
            self._done()

    def _done(self) -> None:
        """All is merged, and as good as saved."""
        self.failures = self.lost = 0
        self.losers.clear()

    def _put_off(self) -> None:
        """The program failed at it: it is tried again later, the later the more often it failed."""
        self.failures += 1
        pause = min(LONGEST_PAUSE, PAUSE * 2.0 ** min(self.failures - 1, 10))
        self.paused_until = self.clock() + pause
