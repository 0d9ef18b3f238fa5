"""What is seen of nodes of which an event told: by handles, since a name is but a hint.

A file may be changed by a descriptor while another one has its name. So a file's event is followed
by its handle. Where a name went, or leads to something else, the node that was there is told as
one that nobody may use, or, where it leads to another file, only by what both give, then and later.
"""

import errno
import os
import stat

from ..mirror.access import Access, BadList
from ..mirror.nodes import ROOT, Identity, Node, Rights, Tree, device_of, identity_of
from .calls import open_here
from .directories import Beside, Directories
from .waiting import Item

NOBODY = Rights(0, 0, 0)  # of what is gone, or can't be looked at
Seen = list[tuple[int, Rights]]  # nodes, and what they give at most


class Seeing:
    """Looks at what events told of a tree, which is that of the program."""

    def __init__(
        self, directories: Directories, tree: Tree, access: Access, beside: Beside
    ) -> None:
        self.directories = directories
        self.tree = tree
        self.access = access
        self.beside = beside

    def look(self, item: Item) -> Seen:
        """The nodes that an item is of, with the rights that they have."""
        if item.file:
            return self._file(item.file)
        if item.name:
            return self._name(item.directory, item.name)
        return self._itself(item.directory)

    def _file(self, key: bytes) -> Seen:
        """A file, or a directory, by its own handle: none where it is gone, or not mirrored."""
        try:
            descriptor = self.beside.open(key)
        except OSError:
            return []
        if descriptor is None:
            return []
        try:
            status = os.fstat(descriptor)
            numbers = self.directories.nodes_of(identity_of(status), self.tree)
            nodes = [self.tree.nodes[number] for number in numbers if number in self.tree.nodes]
            return [(node.number, self._rights(node, descriptor, status)) for node in nodes]
        finally:
            os.close(descriptor)

    def _itself(self, number: int) -> Seen:
        """A directory, which has to be where it was known to be."""
        node = self.tree.nodes.get(number)
        if node is None:
            return []
        try:
            descriptor = self.directories.open(number, self.beside)
        except OSError:
            return [(number, NOBODY)]
        if descriptor is None:
            return self._unopened(node)
        try:
            status = os.fstat(descriptor)
            if identity_of(status) != node.identity or not self._is_there(node):
                return [(number, NOBODY)]
            return [(number, self._rights(node, descriptor, status))]
        finally:
            os.close(descriptor)

    def _unopened(self, node: Node) -> Seen:
        """A directory that couldn't be taken in: nothing would tell of it until the next turn.

        On a file system that isn't marked nothing ever does.
        """
        is_told = device_of(node.identity) in self.directories.systems
        return [(node.number, NOBODY)] if is_told else []

    def _is_there(self, node: Node) -> bool:
        """Whether a directory has its name. What is mounted somewhere can't be renamed, but may be
        unmounted, or have something else mounted over it."""
        if node.number == ROOT:
            return True
        parent, name = self.directories.places.get(node.number, (0, b""))
        above = self.tree.nodes.get(parent)
        if above is None:
            return False
        if self._is_mount(node, parent):
            return self._is_mounted(node)
        try:
            descriptor = self.directories.open(parent, self.beside)
            if descriptor is None:
                return True  # its own file system isn't told of
            try:
                place = open_here(descriptor, name)
            finally:
                os.close(descriptor)
        except OSError as error:
            return error.errno == errno.EXDEV and self._is_mounted(node)
        try:
            return identity_of(os.fstat(place)) == node.identity
        finally:
            os.close(place)

    def _is_mounted(self, node: Node) -> bool:
        """Whether a directory is found by its path, on which others are mounted."""
        try:
            descriptor = self.directories.open_path(self.directories.path_of(node.number))
        except OSError:
            return False
        try:
            return identity_of(os.fstat(descriptor)) == node.identity
        finally:
            os.close(descriptor)

    def _is_mount(self, node: Node, parent: int) -> bool:
        """Whether a node is the root of another file system than the directory in which it is."""
        return device_of(self.tree.nodes[parent].identity) != device_of(node.identity)

    def _name(self, directory: int, name: bytes) -> Seen:
        """The node that was known by a name, which may lead to something else now."""
        number = self.tree.entries.get(directory, {}).get(name)
        node = self.tree.nodes.get(number) if number is not None else None
        if node is None:
            return []
        try:
            above = self.directories.open(directory, self.beside)
        except OSError:
            return [(node.number, NOBODY), *self._itself(directory)]
        if above is None:
            return [(node.number, NOBODY)] if self.beside.is_known(directory) else []
        try:
            descriptor = open_here(above, name)
        except OSError as error:
            is_mount = error.errno == errno.EXDEV and node.is_directory
            return [] if is_mount and self._is_mounted(node) else self._gone(node)
        finally:
            os.close(above)
        try:
            identity = identity_of(os.fstat(descriptor))
            if node.is_directory and self._is_other(node, identity, descriptor):
                return self._gone(node)
            if identity != node.identity:
                # What becomes less of the other one concerns this node from now on, too.
                self.directories.replaced.put((directory, name), identity)
            return [(node.number, self._rights(node, descriptor, os.fstat(descriptor)))]
        finally:
            os.close(descriptor)

    def _is_other(self, node: Node, identity: Identity, place: int) -> bool:
        """Whether another directory is open there than the one that is known."""
        known = self.directories
        if identity != node.identity:
            return True
        return node.number in known.keys and not known.is_at(node.number, place)

    def _gone(self, node: Node) -> Seen:
        """A node that isn't where it was. A directory may be made there again, with its inode: it
        has another handle then, by which it is known from the next walk on."""
        if node.is_directory:
            self.directories.doubted.add(node.number)
        return [(node.number, NOBODY)]

    def _rights(self, node: Node, descriptor: int, status: os.stat_result) -> Rights:
        """The rights of what is open there as a place, where it is of the node's kind."""
        kind = stat.S_ISDIR if node.is_directory else stat.S_ISREG
        if not kind(status.st_mode):
            return NOBODY
        place = f"/proc/self/fd/{descriptor}"
        try:
            if node.is_directory:
                return self.access.of_directory(place, status)
            return self.access.of_file(place, status)
        except (BadList, OSError):
            return NOBODY
