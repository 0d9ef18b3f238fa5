"""What one owner may cost: beyond it what she owns is shut, and what others own is not.

Names and directories that the program has keep their room, so that new ones are refused first.
The time that something takes is counted to whoever owns it. What user 0 owns isn't bounded, but
for the time of a directory of hers into which others may write, and for waiting.
"""

import math
import sys
import time
from collections import Counter
from collections.abc import Callable
from dataclasses import dataclass, field

from .nodes import Identity, Tree

YOUNG = 50_000_000  # nanoseconds in which two changes may have one ctime
PATIENCE_OF_OWNER = 2.0  # seconds that a walk, or the looks of a turn, wait for what one owns
PATIENCE_OF_ALL = 10.0  # and for what all own
WRITABLE = 0o022  # by others than the owner


@dataclass(frozen=True)
class Budget:
    """The bounds for each owner."""

    names: int = 1_000_000
    directories: int = 100_000
    links: int = 10_000  # names of one inode: where it has more, new ones are refused
    text_bytes: int = 16 << 30  # of texts that the program keeps
    seconds: float = 60.0  # of a walk, and of the looks between two walks
    documents: float = 30.0  # seconds of a minute in which text of documents is made


@dataclass(slots=True)
class Account:
    """What is left to one owner."""

    known_names: int
    fresh_names: int
    known_directories: int
    fresh_directories: int
    seconds: float
    patience: float = PATIENCE_OF_OWNER

    def take_name(self, is_known: bool) -> bool:
        """Takes room for a name: whether there was room."""
        if (self.known_names if is_known else self.fresh_names) <= 0:
            return False
        self._add(is_known, -1, 0)
        return True

    def give_name(self, is_known: bool) -> None:
        """Gives the room of a name back."""
        self._add(is_known, 1, 0)

    def has_directory(self, is_known: bool) -> bool:
        """Whether there is room for a directory and its name."""
        if is_known:
            return self.known_directories > 0 and self.known_names > 0
        return self.fresh_directories > 0 and self.fresh_names > 0

    def take_directory(self, is_known: bool) -> None:
        """Takes room for a directory and its name."""
        self._add(is_known, -1, -1)

    def give_directory(self, is_known: bool) -> None:
        """Gives the room of a directory and its name back."""
        self._add(is_known, 1, 1)

    def _add(self, is_known: bool, names: int, directories: int) -> None:
        if is_known:
            self.known_names += names
            self.known_directories += directories
        else:
            self.fresh_names += names
            self.fresh_directories += directories


@dataclass(slots=True)
class Counts:
    """How many names, and how many directories, the program has of each owner's."""

    names: Counter[int] = field(default_factory=Counter)
    directories: Counter[int] = field(default_factory=Counter)

    @staticmethod
    def of(tree: Tree) -> "Counts":
        """Those of a tree."""
        nodes, found = tree.nodes, Counts()
        for entries in tree.entries.values():
            found.names.update(nodes[child].rights.owner for child in entries.values())
        found.directories.update(nodes[number].rights.owner for number in tree.entries)
        return found


class Accounts:
    """The accounts of a walk, or of the looks after it, by person and by directory of user 0.

    `person_of` gives the number of a user whose number it is: those that are subordinate to one
    count as that one.
    """

    def __init__(self, budget: Budget, person_of: Callable[[int], int]) -> None:
        self.budget = budget
        self.person_of = person_of
        self.by_owner: dict[int, Account] = {0: self._unbounded(math.inf)}
        self.by_directory: dict[Identity, Account] = {}
        self.patience = PATIENCE_OF_ALL
        self.waited = 0.0  # seconds, in all

    @staticmethod
    def _unbounded(seconds: float) -> Account:
        return Account(sys.maxsize, sys.maxsize, sys.maxsize, sys.maxsize, seconds)

    def reserve(self, tree: Tree) -> None:
        """Keeps room for what the program has."""
        self.reserve_counted(Counts.of(tree))

    def reserve_counted(self, counts: Counts) -> None:
        """The same, where it is counted already."""
        for owner, count in counts.names.items():
            account = self.of_owner(owner)
            account.fresh_names = max(0, account.fresh_names - count)
        for owner, count in counts.directories.items():
            account = self.of_owner(owner)
            account.fresh_directories = max(0, account.fresh_directories - count)

    def of_owner(self, owner: int) -> Account:
        """The account of an owner."""
        found = self.by_owner.get(owner)
        if found is None:
            person = self.person_of(owner)
            found = self.by_owner.get(person)
            if found is None:
                budget = self.budget
                rooms = (budget.names, budget.names, budget.directories, budget.directories)
                found = self.by_owner[person] = Account(*rooms, budget.seconds)
            self.by_owner[owner] = found
        return found

    def of_directory(self, owner: int, mode: int, identity: Identity) -> Account:
        """The account to which the time of a directory counts."""
        if owner != 0:
            return self.of_owner(owner)
        found = self.by_directory.get(identity)
        if found is None:
            bounded = mode & WRITABLE != 0
            found = self._unbounded(self.budget.seconds if bounded else math.inf)
            self.by_directory[identity] = found
        return found

    def is_patient(self, account: Account) -> bool:
        """Whether there is time left to wait for what an owner has."""
        return account.patience > 0 and self.patience > 0

    def wait(self, account: Account, seconds: float) -> None:
        """Counts time in which something was waited for, or done again.

        What is more than an account had left isn't taken from all: who goes on being restless then
        is shut, and costs the others no patience.
        """
        self.patience -= min(seconds, max(0.0, account.patience))
        account.patience -= seconds

    def wait_for(self, account: Account, changed: int) -> bool:
        """Waits until a change that comes now has another ctime than this one.

        False where its owner has no more time: then it isn't waited for.
        """
        age = time.time_ns() - changed
        if not 0 <= age < YOUNG:
            return True
        if not self.is_patient(account):
            return False
        time.sleep((YOUNG - age) / 1e9)
        self.wait(account, (YOUNG - age) / 1e9)
        self.waited += (YOUNG - age) / 1e9
        return True
