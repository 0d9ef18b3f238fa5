"""Which part of a node's mode or access list applies to a user, and what that grants her."""

from dataclasses import dataclass
from enum import Enum

from ..mirror.nodes import Rights
from .users import User

READ, SEARCH = 4, 1


class Who(Enum):
    """Who she is to a node; the first that applies."""

    ROOT = "user 0"
    OWNER = "its owner"
    NAMED = "named in its list"
    GROUP = "in its group"
    LISTED = "in a group of its list"
    OTHER = "one of the others"


@dataclass(frozen=True)
class Grant:
    """Who she is, and the bits that she has by that."""

    who: Who
    bits: int

    def gives(self, bit: int) -> bool:
        """Whether one bit is among them."""
        return self.bits & bit != 0


def grant(rights: Rights, user: User) -> Grant:
    """What a node's rights grant a user."""
    if user.number == 0:
        return Grant(Who.ROOT, 7)
    if user.number == rights.owner:
        return Grant(Who.OWNER, rights.mode >> 6 & 7)
    if not rights.entries:
        if rights.group in user.groups:
            return Grant(Who.GROUP, rights.mode >> 3 & 7)
        return Grant(Who.OTHER, rights.mode & 7)
    return _by_list(rights, user)


def _by_list(rights: Rights, user: User) -> Grant:
    """By the list, whose mask the mode has."""
    mask = rights.mode >> 3 & 7
    is_owning = is_listed = False
    bits = 0
    for entry in rights.entries.split(b","):
        kind, who, told = entry.split(b":")
        if kind == b"u" and int(who) == user.number:
            return Grant(Who.NAMED, int(told) & mask)
        if kind == b"g" and (int(who) if who else rights.group) in user.groups:
            is_owning = is_owning or not who
            is_listed = is_listed or bool(who)
            bits |= int(told) & mask
    if is_owning or is_listed:
        return Grant(Who.GROUP if is_owning else Who.LISTED, bits)
    return Grant(Who.OTHER, rights.mode & 7)
