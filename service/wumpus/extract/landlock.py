"""Landlock: which files a process may open, as the process itself gives up the rest.

The numbers of its three calls are the same on all architectures.
"""

import ctypes
import os
import struct
from collections.abc import Iterable

from .system import system_call

_CREATE, _ADD, _RESTRICT = 444, 445, 446
_ASK_VERSION = 1
_BENEATH = 1  # LANDLOCK_RULE_PATH_BENEATH

EXECUTE = 1 << 0
READ = 1 << 2
LIST = 1 << 3
# The rights that are given up, by the first version that knows them.
_FILES = {1: (1 << 13) - 1, 2: 1 << 13, 3: 1 << 14, 5: 1 << 15}
_NETWORK = {4: 0b11}  # bind and connect by TCP
_SCOPES = {6: 0b11}  # abstract sockets and signals of processes outside


class Missing(Exception):
    """The kernel has none, or doesn't let this process use it."""


def version() -> int:
    """The version of the kernel's. Raises `Missing`."""
    try:
        return system_call(_CREATE, None, 0, _ASK_VERSION)
    except OSError as error:
        raise Missing(f"Landlock: {error.strerror}") from error


def _known(rights: dict[int, int]) -> int:
    here = version()
    return sum(bits for first, bits in rights.items() if first <= here)


class Ruleset:
    """Gives up all rights to files, networks and processes outside, but for those that are given.

    It is a descriptor of the kernel's, so many processes that are forked after it can use it.
    """

    def __init__(self) -> None:
        wanted = struct.pack("=QQQ", _known(_FILES), _known(_NETWORK), _known(_SCOPES))
        attributes = ctypes.create_string_buffer(wanted, len(wanted))
        try:
            self.descriptor = system_call(_CREATE, attributes, len(wanted), 0)
        except OSError as error:
            raise Missing(f"Landlock: {error.strerror}") from error
        os.set_inheritable(self.descriptor, False)

    def allow(self, paths: Iterable[str], rights: int) -> None:
        """Gives rights to what is there of some paths, and below them."""
        for path in paths:
            try:
                beneath = os.open(path, os.O_PATH | os.O_CLOEXEC)
            except FileNotFoundError:
                continue
            try:
                rule = struct.pack("=Qi", rights, beneath)
                attributes = ctypes.create_string_buffer(rule, len(rule))
                system_call(_ADD, self.descriptor, _BENEATH, attributes, 0)
            finally:
                os.close(beneath)

    def restrict(self) -> None:
        """This process has what the rules give, for ever. Raises `OSError`."""
        system_call(_RESTRICT, self.descriptor, 0)

    def close(self) -> None:
        """Closes the descriptor."""
        os.close(self.descriptor)
