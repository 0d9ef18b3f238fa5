"""The kernel's calls by which it tells of changes, and which names files by handles.

The numbers are those of `linux/fanotify.h` and `linux/fcntl.h`, which are the same on all machines.
"""

import ctypes
import os
import struct

# fanotify_init(2). Events have the handle of a directory and a name in it, and that of the file.
FAN_CLOEXEC = 0x1
FAN_NONBLOCK = 0x2
FAN_REPORT_FID = 0x200
FAN_REPORT_DIR_FID = 0x400
FAN_REPORT_NAME = 0x800
GROUP = FAN_CLOEXEC | FAN_NONBLOCK | FAN_REPORT_FID | FAN_REPORT_DIR_FID | FAN_REPORT_NAME

# fanotify_mark(2).
FAN_MARK_ADD = 0x1
FAN_MARK_FILESYSTEM = 0x100
FAN_MODIFY = 0x2
FAN_ATTRIB = 0x4  # mode, owner, access list, count of names
FAN_CLOSE_WRITE = 0x8
FAN_MOVED_FROM = 0x40
FAN_MOVED_TO = 0x80
FAN_CREATE = 0x100
FAN_DELETE = 0x200
FAN_MOVE_SELF = 0x800
FAN_Q_OVERFLOW = 0x4000
FAN_ONDIR = 0x40000000
LESS = FAN_ATTRIB | FAN_MOVED_FROM | FAN_MOVED_TO | FAN_DELETE | FAN_MOVE_SELF | FAN_ONDIR
ALL = LESS | FAN_MODIFY | FAN_CLOSE_WRITE | FAN_CREATE

# openat2(2), whose number is the same on all machines.
_OPENAT2 = 437
_RESOLVE_NO_XDEV = 0x1
_HOW = struct.Struct("=QQQ")

AT_EMPTY_PATH = 0x1000
HANDLE_MAX = 128  # bytes of a handle
_HANDLE = struct.Struct("=Ii")  # how many bytes it has, and of which type it is
_libc = ctypes.CDLL(None, use_errno=True)
_libc.fanotify_mark.argtypes = (
    ctypes.c_int, ctypes.c_uint, ctypes.c_uint64, ctypes.c_int, ctypes.c_char_p
)  # fmt: skip
_libc.name_to_handle_at.argtypes = (
    ctypes.c_int, ctypes.c_char_p, ctypes.c_void_p, ctypes.c_void_p, ctypes.c_int
)  # fmt: skip
_libc.open_by_handle_at.argtypes = (ctypes.c_int, ctypes.c_char_p, ctypes.c_int)
_libc.syscall.restype = ctypes.c_long


def _checked(status: int) -> int:
    if status < 0:
        error = ctypes.get_errno()
        raise OSError(error, os.strerror(error))
    return status


def new_group() -> int:
    """A descriptor from which events can be read. Raises `OSError`.

    File systems can be marked only in a group that was made with `CAP_SYS_ADMIN`.
    """
    return _checked(_libc.fanotify_init(GROUP, os.O_RDONLY | os.O_CLOEXEC))


def mark_file_system(group: int, directory: int, mask: int) -> None:
    """Has a group told of what the mask says on a directory's file system. Raises `OSError`."""
    what = FAN_MARK_ADD | FAN_MARK_FILESYSTEM
    _checked(_libc.fanotify_mark(group, what, mask, directory, None))


def mark_directory(group: int, directory: int) -> None:
    """Has a group told of one directory and the names in it. Raises `OSError`."""
    _checked(_libc.fanotify_mark(group, FAN_MARK_ADD, LESS, directory, None))


def handle_of(descriptor: int) -> bytes:
    """The handle of what is open there, as events and `open_handle` have it. Raises `OSError`."""
    room = ctypes.create_string_buffer(_HANDLE.pack(HANDLE_MAX, 0), _HANDLE.size + HANDLE_MAX)
    mount = ctypes.c_int()
    _checked(
        _libc.name_to_handle_at(descriptor, b"", room, ctypes.byref(mount), AT_EMPTY_PATH)
    )
    size, _ = _HANDLE.unpack_from(room)
    return room.raw[: _HANDLE.size + size]


def open_handle(beside: int, handle: bytes) -> int:
    """Opens a place on the file system of another descriptor (`O_PATH`). Raises `OSError`.

    It needs `CAP_DAC_READ_SEARCH`.
    """
    flags = os.O_PATH | os.O_CLOEXEC
    return _checked(_libc.open_by_handle_at(beside, handle, flags))


def check_open_here() -> None:
    """Raises `OSError` where `open_here` can't be had, as behind some filters of system calls."""
    top = os.open(b"/", os.O_PATH | os.O_CLOEXEC)
    try:
        os.close(open_here(top, b"."))
    finally:
        os.close(top)


def open_here(directory: int, name: bytes) -> int:
    """Opens a name in a directory as a place, following no link. Raises `OSError`.

    Where something is mounted there it fails, with `EXDEV`: a server might never answer for it.
    """
    flags = os.O_PATH | os.O_NOFOLLOW | os.O_CLOEXEC
    how = _HOW.pack(flags, 0, _RESOLVE_NO_XDEV)
    numbers = (ctypes.c_long(_OPENAT2), ctypes.c_long(directory))
    return _checked(_libc.syscall(*numbers, name, how, ctypes.c_long(_HOW.size)))
