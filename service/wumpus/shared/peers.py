"""Who asks: the user and her groups, as the kernel tells them of a connection.

They are those of the moment at which she connected, and no byte that she sends changes them.
"""

import ctypes
import os
import socket
import struct
from dataclasses import dataclass

_SO_PEERGROUPS = 59
_GROUPS_AT_MOST = 65_536
NOBODY = 65534  # the kernel's number for a user that has no number here
_libc = ctypes.CDLL(None, use_errno=True)


@dataclass(frozen=True)
class Peer:
    """A process at the other end of a connection: its user, and all groups of its own."""

    process: int
    user: int
    groups: tuple[int, ...]


def user_of(connection: socket.socket) -> int:
    """The user who connected, which costs far less than her groups. Raises `OSError`."""
    return _credentials_of(connection)[1]


def peer_of(connection: socket.socket) -> Peer:
    """Who connected. Raises `OSError` where the kernel doesn't tell."""
    process, user, group = _credentials_of(connection)
    return Peer(process, user, tuple(sorted({group, *_groups_of(connection)})))


def _credentials_of(connection: socket.socket) -> tuple[int, int, int]:
    told = connection.getsockopt(socket.SOL_SOCKET, socket.SO_PEERCRED, 12)
    process, user, group = struct.unpack("iII", told)
    return process, user, group


def _groups_of(connection: socket.socket) -> list[int]:
    """The supplementary groups, of which there may be more than Python's own call can tell."""
    room = 64
    while room <= _GROUPS_AT_MOST:
        groups = (ctypes.c_uint32 * room)()
        size = ctypes.c_uint32(ctypes.sizeof(groups))
        status = _libc.getsockopt(
            connection.fileno(),
            socket.SOL_SOCKET,
            _SO_PEERGROUPS,
            ctypes.byref(groups),
            ctypes.byref(size),
        )
        if status == 0:
            return list(groups[: size.value // 4])
        room *= 8
    error = ctypes.get_errno()
    raise OSError(error, os.strerror(error))
