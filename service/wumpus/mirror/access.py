"""Who may use a node: its mode and its access list, as the kernel has them, for the program.

A directory that gives search without read hides its names: the kernel opens what is below for
whoever knows the name, and an answer would tell it. So unless that is wanted a directory's search is
given only with its read, in the mode and in each entry of its list.
"""

import errno
import os
import struct
from dataclasses import dataclass

from ..shared.script import LINE_MAX
from .nodes import Rights

ATTRIBUTE = "system.posix_acl_access"
_VERSION = 2
_OWNER, _USER, _OWNING, _GROUP, _MASK, _OTHER = 1, 2, 4, 8, 16, 32
ENTRIES_MAX = LINE_MAX - len(b"acl\t4294967295\t")
_ABSENT = {errno.ENODATA, errno.EOPNOTSUPP, errno.ENOSYS}


class BadList(Exception):
    """The kernel's bytes aren't an access list of the form that is known."""


def listed(bits: int) -> int:
    """The bits of one class or entry, its search only where it reads too."""
    return bits if bits & 4 else bits & ~1


def entries_of(value: bytes, hides: bool = False) -> bytes:
    """The entries as the line `acl` has them, empty where the mode alone decides.

    Where `hides` is set, each entry gives search only where it reads too. Linux asks no list whose mask is empty, where the language does; so such a list is left out.
    Raises `BadList` where the bytes have another form, or no line has room for them.
    """
    if len(value) < 4 or (len(value) - 4) % 8 or struct.unpack_from("<I", value)[0] != _VERSION:
        raise BadList("an access list of an unknown version")
    found = [struct.unpack_from("<HHI", value, place) for place in range(4, len(value), 8)]
    if any(bits > 7 for _, bits, _ in found):
        raise BadList("an access list with bits that are unknown")
    masks = [bits for tag, bits, _ in found if tag == _MASK]
    if not masks or masks[0] == 0:
        return b""
    owning = [bits for tag, bits, _ in found if tag == _OWNING]
    users: dict[int, int] = {}
    groups: dict[int, int] = {}
    for tag, bits, number in found:
        # Linux takes entries in any order, and several of one number, and asks so: the first one
        # of a user, and any one of a group.
        if tag == _USER:
            users.setdefault(number, bits)
        elif tag == _GROUP:
            groups[number] = groups.get(number, 0) | bits
    if hides:
        owning, masks = [listed(bits) for bits in owning], [listed(bits) for bits in masks]
        users = {user: listed(bits) for user, bits in users.items()}
        groups = {group: listed(bits) for group, bits in groups.items()}
    known = {_OWNER, _USER, _OWNING, _GROUP, _MASK, _OTHER}
    if len(owning) != 1 or len(masks) != 1 or any(tag not in known for tag, _, _ in found):
        raise BadList("an access list with entries that are unknown")
    spelled = [b"g::%d" % owning[0]]
    spelled += [b"u:%d:%d" % entry for entry in sorted(users.items())]
    spelled += [b"g:%d:%d" % entry for entry in sorted(groups.items())]
    entries = b",".join(spelled) + b",m::%d" % masks[0]
    if len(entries) > ENTRIES_MAX:
        raise BadList("an access list that is longer than a line of the program's")
    return entries


def _list_at(place: int | str) -> bytes:
    """The kernel's bytes of the list of the node that is open there; empty where it has none."""
    try:
        return os.getxattr(place, ATTRIBUTE)
    except OSError as error:
        if error.errno in _ABSENT:
            return b""
        raise


@dataclass(frozen=True)
class Access:
    """How rights are read. Where `unlisted` is set, directories that hide names are as they are."""

    unlisted: bool = False

    def of_file(self, place: int | str, status: os.stat_result) -> Rights:
        """The rights of a file that is open, whose status is given.

        Raises `BadList`, and `OSError`.
        """
        value = _list_at(place)
        entries = entries_of(value) if value else b""
        return Rights(status.st_mode & 0o7777, status.st_uid, status.st_gid, entries)

    def of_directory(self, place: int | str, status: os.stat_result) -> Rights:
        """The rights that are given for a directory. Raises `BadList`, and `OSError`."""
        value = _list_at(place)
        entries = entries_of(value, not self.unlisted) if value else b""
        return Rights(self.mode_of_directory(status), status.st_uid, status.st_gid, entries)

    def mode_of_directory(self, status: os.stat_result) -> int:
        """The mode that is given for a directory."""
        mode = status.st_mode & 0o7777
        if self.unlisted:
            return mode
        return mode & ~0o777 | sum(listed(mode >> place & 7) << place for place in (0, 3, 6))
