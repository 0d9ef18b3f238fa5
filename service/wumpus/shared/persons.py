"""Who is one person: an account, with the numbers that are subordinate to it.

A user may run processes under each number of her ranges in `/etc/subuid`, so numbers bound nobody;
what a number takes is counted to the account whose it is.
"""

import os
from bisect import bisect_right
from collections.abc import Callable
from dataclasses import dataclass
from pathlib import Path

from .progress import plain
from .script import NUMBER_MAX

ACCOUNTS = Path("/etc/passwd")
SUBORDINATE = Path("/etc/subuid")
TOLD_AT_MOST = 5  # bad lines of one reading
_Stamp = tuple[int, int, int, int]


@dataclass(frozen=True, slots=True)
class Range:
    """Numbers from `first` to `last`, and the account that they count as."""

    first: int
    last: int
    owner: int


class Persons:
    """The account of each number, as the two files have it. `look` reads them where they changed.

    No name service is asked, since one that doesn't answer would hold up everybody. A range whose
    owner is no name in `/etc/passwd` counts as a person of its own, as its first number; and so
    does one of user 0, who has it for a container of others.
    """

    def __init__(
        self,
        log: Callable[[str], None],
        subordinate: Path = SUBORDINATE,
        accounts: Path = ACCOUNTS,
    ) -> None:
        self.log = log
        self.subordinate = subordinate
        self.accounts = accounts
        self.stamps: tuple[_Stamp | None, _Stamp | None] | None = None
        self.numbers: frozenset[int] = frozenset()
        self.firsts: list[int] = []
        self.owners: list[tuple[int, int]] = []  # the last number from each first one, and whose
        self.told: set[str] = set()

    def of(self, user: int) -> int:
        """The account that a number counts as. One that is an account itself is its own."""
        if user in self.numbers:
            return user
        place = bisect_right(self.firsts, user) - 1
        if place >= 0 and user <= self.owners[place][0]:
            return self.owners[place][1]
        return user

    def look(self) -> None:
        """Reads the files again, where one of them isn't as it was."""
        stamps = _stamp(self.accounts), _stamp(self.subordinate)
        if stamps == self.stamps:
            return
        self.stamps = stamps
        names = _accounts(_lines(self.accounts))
        self.numbers = frozenset(names.values())
        ranges, bad = _ranges(_lines(self.subordinate), names)
        self._keep(ranges)
        self._tell(bad)

    def _keep(self, ranges: list[Range]) -> None:
        """Keeps ranges; what two have is the one's that begins first, or stands first."""
        self.firsts, self.owners = [], []
        last = -1
        for one in sorted(ranges, key=lambda found: found.first):
            first = max(one.first, last + 1)
            if first <= one.last:
                self.firsts.append(first)
                self.owners.append((one.last, one.owner))
                last = one.last

    def _tell(self, bad: list[tuple[int, str]]) -> None:
        """Tells of lines that say nothing, each once."""
        fresh = [(number, line) for number, line in bad if line not in self.told]
        self.told = {line for _, line in bad}
        for number, line in fresh[:TOLD_AT_MOST]:
            self.log(f"{self.subordinate}, line {number} is left out: {plain(line[:80])}")
        if len(fresh) > TOLD_AT_MOST:
            self.log(f"{self.subordinate}: {len(fresh) - TOLD_AT_MOST} more lines are left out")


def _stamp(path: Path) -> _Stamp | None:
    """What changes with a file; None where there is none."""
    try:
        status = os.stat(path)
    except OSError:
        return None
    return status.st_ino, status.st_size, status.st_mtime_ns, status.st_ctime_ns


def _lines(path: Path) -> list[str]:
    """The lines of a file; none where it can't be read."""
    try:
        return path.read_text(encoding="utf-8", errors="surrogateescape").splitlines()
    except OSError:
        return []


def _accounts(lines: list[str]) -> dict[str, int]:
    """The number of each account, by its name."""
    found: dict[str, int] = {}
    for line in lines:
        fields = line.split(":")
        number = _number(fields[2]) if len(fields) > 2 else None
        if number is not None:
            found.setdefault(fields[0], number)
    return found


def _ranges(lines: list[str], names: dict[str, int]) -> tuple[list[Range], list[tuple[int, str]]]:
    """The ranges of `/etc/subuid`, and its lines that say nothing, with their numbers."""
    ranges: list[Range] = []
    bad: list[tuple[int, str]] = []
    for number, line in enumerate(lines, 1):
        if not line.strip() or line.startswith("#"):
            continue
        found = _range(line.split(":"), names)
        if found is None:
            bad.append((number, line))
        else:
            ranges.append(found)
    return ranges, bad


def _range(fields: list[str], names: dict[str, int]) -> Range | None:
    """The range of a line: an account's name or number, the first number, and how many."""
    if len(fields) != 3 or not fields[0]:
        return None
    first, count = _number(fields[1]), _number(fields[2])
    if first is None or not count or first + count - 1 > NUMBER_MAX:
        return None
    owner = names.get(fields[0], _number(fields[0]))
    return Range(first, first + count - 1, owner or first)


def _number(field: str) -> int | None:
    """A number of a user, in decimal; None where the field is none."""
    if not field.isascii() or not field.isdigit() or len(field) > 10:
        return None
    number = int(field)
    return number if number <= NUMBER_MAX else None
