"""What a process that reads everybody's files gives up before it begins.

A mirror that is started by root needs root for nothing: it becomes the owner of its folder, and
keeps the right to read, which is one capability.
"""

import ctypes
import os
import pwd
import stat
from pathlib import Path

from .store import Failed

LEAST_PERSON = 1000  # of the numbers of users: system accounts are below
_KEEP_CAPABILITIES, _BOUNDING_DROP, _NO_NEW_PRIVILEGES = 8, 24, 38  # of prctl(2)
_READ_ALL = 2  # CAP_DAC_READ_SEARCH
_VERSION = 0x20080522
_NEVER_MORE = 64
_libc = ctypes.CDLL(None, use_errno=True)


class _Header(ctypes.Structure):
    _fields_ = (("version", ctypes.c_uint32), ("process", ctypes.c_int))


class _Sets(ctypes.Structure):
    _fields_ = (
        ("effective", ctypes.c_uint32),
        ("permitted", ctypes.c_uint32),
        ("inheritable", ctypes.c_uint32),
    )


def _checked(status: int) -> None:
    if status != 0:
        error = ctypes.get_errno()
        raise OSError(error, os.strerror(error))


def become_owner_of(folder: Path) -> None:
    """Of a process of user 0: becomes the owner of a folder, with the right to read each file.

    Of another user's process nothing changes. Raises `Failed` where the owner has no account, or is
    a person, who would be handed everybody's texts; and `OSError`.
    """
    if os.geteuid() != 0:
        return
    status = os.lstat(folder)
    if not stat.S_ISDIR(status.st_mode):
        raise Failed(f"{folder} is no directory")
    for capability in range(_NEVER_MORE):
        if capability != _READ_ALL:
            _libc.prctl(_BOUNDING_DROP, capability, 0, 0, 0)  # fails for numbers without meaning
    if status.st_uid != 0:
        if status.st_uid >= LEAST_PERSON:
            raise Failed(f"{folder} is of user {status.st_uid}, which is no system account")
        try:
            account = pwd.getpwuid(status.st_uid)
        except KeyError as error:
            raise Failed(f"{folder} is of user {status.st_uid}, who has no account") from error
        _checked(_libc.prctl(_KEEP_CAPABILITIES, 1, 0, 0, 0))
        os.initgroups(account.pw_name, account.pw_gid)
        os.setresgid(account.pw_gid, account.pw_gid, account.pw_gid)
        os.setresuid(account.pw_uid, account.pw_uid, account.pw_uid)
    keep = 1 << _READ_ALL
    sets = (_Sets * 2)(_Sets(keep, keep, 0), _Sets(0, 0, 0))
    _checked(_libc.capset(ctypes.byref(_Header(_VERSION, 0)), sets))
    _checked(_libc.prctl(_NO_NEW_PRIVILEGES, 1, 0, 0, 0))
