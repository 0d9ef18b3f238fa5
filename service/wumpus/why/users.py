"""Who a user is: her number and groups."""

import os
import pwd
from dataclasses import dataclass

from ..shared.script import NUMBER_MAX


class BadUser(Exception):
    """There is no such user, or her groups aren't known; the text says why."""


@dataclass(frozen=True)
class User:
    """A user. `groups` are hers, `main` the one of her own."""

    name: str
    number: int
    main: int
    groups: frozenset[int]


def user_of(word: str, groups: str | None) -> User:
    """The user of this name or number, with the system's groups of hers or those that are given.

    Raises `BadUser`.
    """
    account = _account_of(word)
    if groups is not None:
        given = [_number_of(one, "a group") for one in groups.split(",")]
        number = account.pw_uid if account is not None else _number_of(word, "a user")
        return User(word, number, given[0], frozenset(given))
    if account is None:
        raise BadUser(f"there is no account {word}: --groups gives the groups of a number")
    found = os.getgrouplist(account.pw_name, account.pw_gid)
    return User(account.pw_name, account.pw_uid, account.pw_gid, frozenset(found))


def _account_of(word: str) -> pwd.struct_passwd | None:
    try:
        return pwd.getpwnam(word)
    except (KeyError, ValueError):
        pass
    try:
        return pwd.getpwuid(int(word)) if word.isdecimal() else None
    except (KeyError, OverflowError):
        return None


def _number_of(word: str, what: str) -> int:
    if not word.isascii() or not word.isdecimal() or int(word) > NUMBER_MAX:
        raise BadUser(f"{word} isn't the number of {what}")
    return int(word)
