"""How old the rights are by which the program answers, and whether it may.

The mirror tells when the walk began whose names and rights the program has whole. One to which the
kernel tells of changes says each second, too, up to which moment the program has what became less
by that. Where either is longer ago than is allowed nothing is answered, whatever the reason: a
mirror that stopped, hangs or fails, a full disk, or a program that takes no batch.
"""

from collections.abc import Callable
from dataclasses import dataclass, field
from enum import Enum

from ..shared import queries

CLAIMS = (b"fed", b"heard", b"unheard", b"done")  # lines of a mirror, each with moments after it


class Told(Enum):
    """What became of a moment that a mirror told."""

    TAKEN = ""
    FUTURE = "that moment is yet to come"
    DOUBTED = "a batch of that time failed"
    UNKNOWN = "not understood"


@dataclass(frozen=True, slots=True)
class Heard:
    """What became less by the kernel's word up to `until` is in the program.

    Before `since` it may have told of something that wasn't heard: a walk finds that, which began
    later.
    """

    since: int
    until: int


@dataclass(slots=True)
class Freshness:
    """What the mirror told. `clock` gives milliseconds, and so are all moments.

    `stale` is how long ago a walk may be, and `silent` what was heard; 0: as long as you like.

    A claim never says more than the program has after a kill: each batch of a walk is saved in its
    last line, a walk is told after that, and a program that is killed begins again with its last
    save, and with the batches that were fed since. Where these are lost, the claims fall.
    """

    clock: Callable[[], int]
    stale: int
    silent: int = 0
    walk: int | None = None  # when the walk began that was fed whole
    failed: int | None = None  # when a batch failed, where none was fed since
    heard: Heard | None = None  # None: by walks alone
    missed: int | None = None  # when the last batch failed that takes away at once
    is_done: bool = field(default=False)  # all that there is was fed once

    def claim(self, fields: list[bytes]) -> Told:
        """Takes what a line of a mirror says."""
        moments = [number_in(field) for field in fields[1:]]
        match fields[0], moments:
            case b"fed", [int(began)]:
                return self.fed(began)
            case b"heard", [int(since), int(until)]:
                return self.hear(since, until)
            case b"unheard", []:
                self.heard = None
            case b"done", []:
                self.is_done = True
            case _:
                return Told.UNKNOWN
        return Told.TAKEN

    def fed(self, began: int) -> Told:
        """A mirror tells that the walk which began then was fed."""
        if began > self.clock():
            return Told.FUTURE
        if self.failed is not None and began <= self.failed:
            return Told.DOUBTED
        self.walk = began if self.walk is None else max(self.walk, began)
        return Told.TAKEN

    def hear(self, since: int, until: int) -> Told:
        """A mirror tells that what it heard was fed, as far as `Heard` says.

        Where such a batch failed it has to begin anew to hear.
        """
        if max(since, until) > self.clock():
            return Told.FUTURE
        if self.missed is not None and since <= self.missed:
            return Told.DOUBTED
        self.heard = Heard(since, until)
        return Told.TAKEN

    def batch_went_in(self) -> None:
        """A batch is in the program, and saved."""
        self.failed = None

    def batch_failed(self) -> None:
        """A batch isn't in the program: a walk that began before this moment isn't whole there."""
        self.failed = self.clock()

    def live_batch_failed(self) -> None:
        """The same of one that takes away at once: what was heard until now isn't whole there."""
        self.batch_failed()
        self.missed = self.failed

    def forget(self) -> None:
        """The program begins with an empty store."""
        self.failed = None
        self.fall()

    def fall(self) -> None:
        """The program lost what was fed after the last save, and it can't be fed again."""
        self.walk = self.heard = None
        self.missed = self.clock()
        self.is_done = False

    def age(self) -> int | None:
        """Milliseconds since the walk began that was fed; None where none was."""
        return None if self.walk is None else self.clock() - self.walk

    def heard_age(self) -> int | None:
        """Milliseconds since the moment up to which all that the kernel told was fed.

        None where it tells nothing, or some of it was lost and no walk came since.
        """
        if self.heard is None or self.walk is None or self.walk < self.heard.since:
            return None
        return self.clock() - self.heard.until

    def is_stale(self) -> bool:
        """Whether the walk is too long ago, or there was none, or the mirror fell silent."""
        age = self.age()
        if self.stale > 0 and (age is None or age > self.stale):
            return True
        silent = 0 if self.heard is None else self.clock() - self.heard.until
        return 0 < self.silent < silent

    def refusal(self) -> bytes:
        """Why nothing may be answered; empty where it may."""
        if not self.is_done:
            return queries.NOT_READY
        return queries.STALE if self.is_stale() else b""


def number_in(field: bytes) -> int | None:
    """A number of at most 18 digits, or None."""
    return int(field) if field.isdigit() and len(field) <= 18 else None
