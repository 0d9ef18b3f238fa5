"""Users and their groups: those that the system tells, or those of a file.

The service takes an asker's groups from the kernel; these here are for a program that runs without
it. A number that has several names has the groups that all of them have.
"""

import os
import pwd
import threading
import time
from collections.abc import Callable
from pathlib import Path

from ..shared.script import NUMBER_MAX, spell_user
from .changes import Groups


class BadUsers(Exception):
    """The users can't be told to the program; the text says why."""


def of_system() -> Groups:
    """The users that the system lists, without user 0, who needs no group. Raises `BadUsers`."""
    found: dict[int, set[int]] = {}
    for user in pwd.getpwall():
        groups = set(os.getgrouplist(user.pw_name, user.pw_gid))
        if user.pw_uid in found:
            groups &= found[user.pw_uid]
        found[user.pw_uid] = groups
    return _checked({user: tuple(sorted(told)) for user, told in found.items() if user != 0})


def _checked(users: Groups) -> Groups:
    """The same. Without some of her groups a user might be shown too much, so none is left out."""
    for user, groups in users.items():
        if spell_user(user, groups) is None:
            raise BadUsers(f"user {user} is in more groups than a line can tell")
    return users


class SystemUsers:
    """The users that the system lists, asked again now and then beside what else is done.

    A name service that is slow, or doesn't answer, holds nothing up: until it has answered the users
    are those that it told before. Raises `BadUsers` at the first time.
    """

    EVERY = 600.0  # seconds

    def __init__(self, warn: Callable[[str], None]) -> None:
        self.warn = warn
        self.found = of_system()
        self.asked = time.monotonic()
        self.asking: threading.Thread | None = None

    def latest(self) -> Groups:
        """What was told last; asks again where that is long ago."""
        is_asking = self.asking is not None and self.asking.is_alive()
        if not is_asking and time.monotonic() - self.asked > self.EVERY:
            self.asking = threading.Thread(target=self._ask, daemon=True)
            self.asking.start()
        return self.found

    def _ask(self) -> None:
        try:
            self.found = of_system()
        except (BadUsers, OSError) as error:
            self.warn(f"users are as they were told before: {error}")
        self.asked = time.monotonic()


def of_file(path: Path) -> Groups:
    """The users of a file: a line has a user's number and those of her groups, with spaces.

    Raises `BadUsers`, and `OSError`.
    """
    found: Groups = {}
    for number, line in enumerate(path.read_text(encoding="ascii").splitlines(), 1):
        fields = line.split()
        if not fields or fields[0].startswith("#"):
            continue
        if not all(one.isdigit() and int(one) <= NUMBER_MAX for one in fields):
            raise BadUsers(f"{path}, line {number}: not a user's number and those of groups")
        found[int(fields[0])] = tuple(sorted({int(one) for one in fields[1:]}))
    return _checked(found)
