"""Mounts that come and go at, above or below a root: no event tells of them."""

import os

from ..mirror.mounts import Mount, Mounts
from ..mirror.nodes import ROOT, Tree


class Mounting:
    """The list of mounts, for as long as what changes is to be known."""

    def __init__(self, roots: tuple[bytes, ...]) -> None:
        self.roots = [os.path.normpath(root) for root in roots]
        self.mounts = Mounts()

    @property
    def descriptor(self) -> int:
        """The list, to be waited for."""
        return self.mounts.descriptor

    def close(self) -> None:
        """Closes the list."""
        self.mounts.close()

    def changes(self) -> list[Mount]:
        """The mounts that came or went since this was asked last, and concern a root."""
        return [one for one in self.mounts.changes() if self._is_above(one) or self._is_below(one)]

    def needs_walk(self, mount: Mount) -> bool:
        """Whether something is to be found there, or was: of what users mount nothing is."""
        return mount.is_good or self._is_above(mount)

    def _is_above(self, mount: Mount) -> bool:
        """Whether it is at a root or above one."""
        return any(_is_inside(root, mount.place) for root in self.roots)

    def _is_below(self, mount: Mount) -> bool:
        return any(_is_inside(mount.place, root) for root in self.roots)


def _is_inside(path: bytes, directory: bytes) -> bool:
    """Whether a path is that of a directory, or below it."""
    return path == directory or path.startswith(directory.rstrip(b"/") + b"/")


def node_at(tree: Tree, path: bytes) -> int | None:
    """The node that a tree has at a path, if any."""
    number: int | None = ROOT
    for name in path.split(b"/"):
        if name and number is not None:
            number = tree.entries.get(number, {}).get(name)
    return number
