"""Directories that have to be read, and what was read of them."""

from dataclasses import dataclass, field
from typing import NamedTuple

from .limits import RootPlace
from .reasons import Reason
from .seen import SeenDirectory


Remark = tuple[Reason, int, bytes]  # why something is shut, whose, and its name; none: itself


class Visit(NamedTuple):
    """A directory that has to be read: its name in the one above, and how often it was tried.

    `device` is that of the root above it; `place` is set on the way to roots.
    """

    above: SeenDirectory | None
    name: bytes
    depth: int
    device: int | None
    place: RootPlace | None
    attempts: int = 0


@dataclass(slots=True)
class Listing:
    """A directory that was read in a window that isn't over: what is to be said of it."""

    directory: SeenDirectory
    visit: Visit
    is_known: bool
    remarks: list[Remark] = field(default_factory=list)
