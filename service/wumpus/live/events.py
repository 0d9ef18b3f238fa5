"""The bytes of events, as fanotify(7) has them.

An event names a directory by its handle, and a name in it; or a directory itself, by the name `.`;
or a file by its own handle; or both. A handle stands behind the number of its file system: these
bytes together are its key.
"""

import struct
from collections.abc import Iterator
from typing import NamedTuple

_HEAD = struct.Struct("=IBBHQii")  # size, version, -, size of the head, what, -, process
_INFO = struct.Struct("=BBH")  # kind, -, size
_SIZE = struct.Struct("=I")  # of a handle
_FILE, _DIRECTORY_AND_NAME, _DIRECTORY = 1, 2, 3
VERSION = 3
_SYSTEM = 8  # bytes of a file system's number
_KEY = _INFO.size  # where the key begins in a piece
_HANDLE = _KEY + _SYSTEM  # where the handle's own bytes begin
_BYTES = _HANDLE + 8  # where the handle's last part begins


class Unreadable(Exception):
    """The kernel's bytes have another form than is known."""


class Told(NamedTuple):
    """What an event names: keys are empty where there is none."""

    directory: bytes = b""
    name: bytes = b""
    file: bytes = b""


def key_of(system: int, handle: bytes) -> bytes:
    """The key of a handle on a file system, whose number is that of `statvfs`."""
    return struct.pack("=Q", system) + handle


def handle_in(key: bytes) -> bytes:
    """The handle in a key."""
    return key[_SYSTEM:]


def system_in(key: bytes) -> bytes:
    """The number of the file system in a key."""
    return key[:_SYSTEM]


def split(data: bytes) -> Iterator[tuple[int, bytes, bytes]]:
    """Of each event: what happened, the first key, and all that it names, as bytes.

    Raises `Unreadable`.
    """
    at, end = 0, len(data)
    while at < end:
        size, version, _, head, what, _, _ = _HEAD.unpack_from(data, at)
        if version != VERSION or size < head or at + size > end:
            raise Unreadable(f"an event of version {version} and of {size} bytes")
        names = data[at + head : at + size]
        if names:
            (count,) = _SIZE.unpack_from(names, _HANDLE)
            yield what, names[_KEY : _BYTES + count], names
        else:
            yield what, b"", b""
        at += size


def is_of_directory(names: bytes) -> bool:
    """Whether what `split` gave names a directory first, and not a file alone."""
    return bool(names) and names[0] != _FILE


def told_in(names: bytes) -> Told:
    """What the bytes name that `split` gave. Raises `Unreadable`."""
    directory = name = file = b""
    at = 0
    while at < len(names):
        kind, _, size = _INFO.unpack_from(names, at)
        (count,) = _SIZE.unpack_from(names, at + _HANDLE)
        if size < _BYTES + count:
            raise Unreadable(f"a handle of {count} bytes among {size}")
        key = names[at + _KEY : at + _BYTES + count]
        if kind == _FILE:
            file = key
        elif kind in (_DIRECTORY, _DIRECTORY_AND_NAME):
            directory = key
            name = names[at + _BYTES + count : at + size].partition(b"\0")[0]
        at += size
    return Told(directory, name, file)
