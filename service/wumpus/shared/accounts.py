"""Accounts of the system, as `/etc/passwd` and `/etc/login.defs` have them."""

import pwd
import re
from pathlib import Path

from .store import Failed

DEFINITIONS = Path("/etc/login.defs")
SYSTEM_AT_MOST = 999  # where the definitions don't say


def system_account(name: str) -> int:
    """The number of a system account, under which no person works.

    Raises `Failed` for another name: what a person runs must not pass for a part of Wumpus.
    """
    try:
        number = pwd.getpwnam(name).pw_uid
    except KeyError as error:
        raise Failed(f"there is no account {name}") from error
    if not 0 < number <= system_at_most():
        raise Failed(f"{name} has the number {number}, so it is no system account")
    return number


def system_at_most(definitions: Path = DEFINITIONS) -> int:
    """The greatest number of a system account."""
    try:
        text = definitions.read_text(encoding="ascii", errors="replace")
    except OSError:
        return SYSTEM_AT_MOST
    found = re.search(r"^[ \t]*SYS_UID_MAX[ \t]+([0-9]{1,10})[ \t]*$", text, re.MULTILINE)
    return int(found[1]) if found else SYSTEM_AT_MOST
