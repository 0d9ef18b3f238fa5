"""Calls of the kernel that the standard library has no function for."""

import ctypes
import os

_libc = ctypes.CDLL(None, use_errno=True)
_libc.syscall.restype = ctypes.c_long

_SET_PARENT_DEATH = 1
_SET_DUMPABLE = 4
_SET_SECCOMP = 22
_SET_NO_NEW_PRIVILEGES = 38
_FILTER = 2  # SECCOMP_MODE_FILTER
_LAST_DESCRIPTOR = 0xFFFFFFFF
_CAPABILITY_VERSION = 0x20080522  # two words of each set


class _Header(ctypes.Structure):
    _fields_ = [("version", ctypes.c_uint32), ("process", ctypes.c_int)]


class _Capabilities(ctypes.Structure):
    _fields_ = [
        ("effective", ctypes.c_uint32),
        ("permitted", ctypes.c_uint32),
        ("inheritable", ctypes.c_uint32),
    ]


class _Filter(ctypes.Structure):
    _fields_ = [("length", ctypes.c_ushort), ("instructions", ctypes.c_void_p)]


def system_call(number: int, *arguments: int | ctypes.Array[ctypes.c_char] | None) -> int:
    """Makes a call by its number, each argument as wide as a register. Raises `OSError`."""
    wide = [ctypes.c_long(one) if isinstance(one, int) else one for one in arguments]
    return _checked(_libc.syscall(ctypes.c_long(number), *wide))


def _checked(result: int) -> int:
    if result < 0:
        error = ctypes.get_errno()
        raise OSError(error, os.strerror(error))
    return result


def _control(option: int, first: int, second: int | None = None) -> None:
    """`prctl`. Raises `OSError`."""
    arguments = (ctypes.c_ulong(first), ctypes.c_ulong(second or 0))
    _checked(_libc.prctl(option, *arguments, ctypes.c_ulong(0), ctypes.c_ulong(0)))


def die_with_parent(number: int) -> None:
    """Has this process sent a signal when its parent ends."""
    _control(_SET_PARENT_DEATH, number)


def hide_memory() -> None:
    """Has no other process of the same user trace this one or read its memory, and no core."""
    _control(_SET_DUMPABLE, 0)


def forbid_new_privileges() -> None:
    """Setuid programs and files with capabilities give this process and its children nothing."""
    _control(_SET_NO_NEW_PRIVILEGES, 1)


def filter_calls(program: ctypes.Array[ctypes.c_char]) -> None:
    """Has the kernel ask a program of BPF about each call from here on. Raises `OSError`."""
    told = _Filter(len(program) // 8, ctypes.addressof(program))
    _control(_SET_SECCOMP, _FILTER, ctypes.addressof(told))


def close_all_from(first: int) -> None:
    """Closes each descriptor from a number on. Raises `OSError`."""
    _checked(_libc.close_range(ctypes.c_uint(first), ctypes.c_uint(_LAST_DESCRIPTOR), 0))


def has_capability() -> bool:
    """Tells whether this process has any capability, or could give one to its children."""
    header = _Header(_CAPABILITY_VERSION, 0)
    sets = (_Capabilities * 2)()
    _checked(_libc.capget(ctypes.byref(header), ctypes.byref(sets)))
    return any(one.effective or one.permitted or one.inheritable for one in sets)


def drop_capabilities() -> None:
    """Gives up each capability, also for children. Raises `OSError`."""
    header = _Header(_CAPABILITY_VERSION, 0)
    sets = (_Capabilities * 2)()
    _checked(_libc.capset(ctypes.byref(header), ctypes.byref(sets)))
