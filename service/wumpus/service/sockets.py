"""The two sockets of the service, and the rights on them."""

import grp
import os
import socket
import struct
from pathlib import Path

from ..shared.store import Failed

BACKLOG = 4096  # connections that nobody took yet; the kernel may have a lower limit
OWN = 0o600
ALL = 0o666
_LIST = "system.posix_acl_access"
_VERSION = 2
_NO_ID = 0xFFFFFFFF
_OWNER, _USER, _GROUP, _MASK, _OTHER = 0x01, 0x02, 0x04, 0x10, 0x20
_READ_WRITE = 6


def listening(path: Path, mode: int, group: int = -1) -> socket.socket:
    """A socket that listens there; one that a service left behind goes. Raises `OSError`.

    Nobody reaches it before it has its group and mode.
    """
    path.unlink(missing_ok=True)
    found = socket.socket(socket.AF_UNIX, socket.SOCK_STREAM)
    before = os.umask(0o177)
    try:
        found.bind(str(path))
    finally:
        os.umask(before)
    if group != -1:
        os.chown(path, -1, group)
    os.chmod(path, mode)
    found.listen(BACKLOG)
    return found


def listening_for(path: Path, mirror: int | None) -> socket.socket:
    """The socket for mirrors: of its owner alone, and of one user more where one is named.

    Who may be a mirror is asked of the kernel at each connection, whoever reaches the socket. So
    where the file system has no access lists, everybody may reach it.
    """
    found = listening(path, OWN)
    if mirror is not None:
        try:
            os.setxattr(path, _LIST, _list_for(mirror))
        except OSError:
            os.chmod(path, ALL)
    return found


def _list_for(user: int) -> bytes:
    """The access list, as the kernel has it, by which the owner and one user may connect."""
    entries = [
        (_OWNER, _READ_WRITE, _NO_ID),
        (_USER, _READ_WRITE, user),
        (_GROUP, 0, _NO_ID),
        (_MASK, _READ_WRITE, _NO_ID),
        (_OTHER, 0, _NO_ID),
    ]
    return struct.pack("<I", _VERSION) + b"".join(struct.pack("<HHI", *one) for one in entries)


def group_number(name: str) -> int:
    """The number of a group, given by it or by its name. Raises `Failed`."""
    if name.isascii() and name.isdigit() and len(name) <= 9:
        return int(name)
    try:
        return grp.getgrnam(name).gr_gid
    except KeyError as error:
        raise Failed(f"there is no group {name}") from error
