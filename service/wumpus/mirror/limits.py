"""What is walked: the roots, and what is left out below them."""

import fnmatch
import os
import re
from collections.abc import Callable
from dataclasses import dataclass, field

from .access import Access
from .nodes import Identity


class BadRoot(Exception):
    """A root that can't be walked; the text says why."""


class NotNarrow(Exception):
    """A walk of some paths alone isn't enough: all has to be walked."""


@dataclass(frozen=True)
class Limits:
    """What a walk leaves out: patterns, other file systems, and directories by identity."""

    excludes: tuple[bytes, ...] = ()
    one_file_system: bool = False
    omitted: frozenset[Identity] = frozenset()
    access: Access = Access()


@dataclass(slots=True)
class RootPlace:
    """A directory on the way to roots, with the names that lead on, or a root itself.

    Where some paths alone are walked, it is on the way to them, or has some of them: `only` are
    their names in it, and `is_inner` tells whether it is a root or below one.
    """

    below: "dict[bytes, RootPlace]" = field(default_factory=dict)
    is_root: bool = False
    only: set[bytes] | None = None
    is_inner: bool = False


def names_of(path: bytes) -> tuple[bytes, ...]:
    """The names of an absolute path. Raises `BadRoot` where it isn't one, or has `.` or `..`."""
    names = tuple(name for name in path.split(b"/") if name)
    if not path.startswith(b"/") or b"." in names or b".." in names:
        raise BadRoot(f"{os.fsdecode(path)}: a root is an absolute path without . and ..")
    return names


def places_of_roots(roots: tuple[bytes, ...]) -> RootPlace:
    """The ways to the roots, from `/` on. Raises `BadRoot` where one isn't an absolute path."""
    top = RootPlace()
    for root in roots:
        place = top
        for name in names_of(root):
            place = place.below.setdefault(name, RootPlace())
        place.is_root = True
    return top


def pattern_of(patterns: tuple[bytes, ...]) -> Callable[[bytes, bytes], bool]:
    """Tells of a name and its path whether a pattern fits: one with `/` the path, else the name."""

    def compiled(chosen: list[bytes]) -> re.Pattern[bytes] | None:
        texts = [fnmatch.translate(one.decode("latin-1")).encode("latin-1") for one in chosen]
        return re.compile(b"|".join(b"(?:%s)" % text for text in texts)) if texts else None

    of_names = compiled([one for one in patterns if b"/" not in one])
    of_paths = compiled([one for one in patterns if b"/" in one])

    def fits(name: bytes, path: bytes) -> bool:
        if of_names is not None and of_names.match(name):
            return True
        return of_paths is not None and of_paths.match(path) is not None

    return fits
