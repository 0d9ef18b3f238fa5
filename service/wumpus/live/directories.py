"""The directories that the program has, by their handles, and the file systems that are marked.

A directory is taken in here before it is looked at, and the kernel changes first and tells then. So
an event of one that isn't here yet tells of a change that the look sees.
"""

import errno
import os
import threading
from dataclasses import dataclass, field
from typing import Protocol

from ..mirror.mounts import GOOD, Mounts
from ..mirror.nodes import ROOT, Identity, Tree, device_of, identity_of
from ..mirror.state import Addition
from .calls import handle_of, open_handle, open_here
from .events import handle_in, key_of, system_in
from .replaced import Replaced
from .watcher import NoWatch

PLACE = os.O_PATH | os.O_NOFOLLOW | os.O_CLOEXEC  # O_DIRECTORY would mount what is automatic
ON_WAY = GOOD | {"devtmpfs"}  # what is passed through: a root may be below /dev/shm
READ = os.O_RDONLY | os.O_DIRECTORY | os.O_NOFOLLOW | os.O_CLOEXEC


@dataclass(frozen=True, slots=True)
class System:
    """A file system that is marked: its device and number, and the path of a directory of it."""

    device: int
    number: bytes
    path: bytes


class Marks(Protocol):
    """Has the kernel tell of changes. Each raises `OSError`, and `NoWatch`."""

    def system(self, directory: int) -> None:
        """Of all that is on the file system of an open directory."""

    def one(self, directory: int) -> None:
        """Of an open directory, and of the names in it."""


@dataclass
class Directories:
    """What is known of them.

    `bad` has the devices of file systems that can't be marked, each with a path and the reason.
    """

    marks: Marks
    roots: tuple[bytes, ...]
    by_key: dict[bytes, int] = field(default_factory=dict)
    keys: dict[int, tuple[bytes, Identity]] = field(default_factory=dict)
    places: dict[int, tuple[int, bytes]] = field(default_factory=dict)  # of directories alone
    by_identity: dict[Identity, int] = field(default_factory=dict)
    replaced: Replaced = field(default_factory=Replaced)  # is used by who has the batches' lock
    systems: dict[int, System] = field(default_factory=dict)  # by device
    whole: set[int] = field(default_factory=set)  # devices of which not only ways are wanted
    marks_made: int = 0  # of file systems that weren't marked before
    mounts: Mounts = field(default_factory=Mounts)
    lock: threading.Lock = field(default_factory=threading.Lock)  # for the list of mounts
    bad: dict[int, tuple[bytes, str]] = field(default_factory=dict)
    is_unreached: bool = False  # an event told of what is on a system that can't be opened
    doubted: set[int] = field(default_factory=set)  # directories that may have another handle now

    def close(self) -> None:
        """Closes what is open."""
        self.mounts.close()

    # ---- what is asked

    def number_of(self, key: bytes) -> int | None:
        """The directory with this handle."""
        return self.by_key.get(key)

    def nodes_of(self, identity: Identity, tree: Tree) -> set[int]:
        """The nodes whose rights are to be no more than those of a file, or a directory."""
        found = self.replaced.nodes_of(identity, tree)
        number = self.by_identity.get(identity)
        return found if number is None else found | {number}

    def is_at(self, number: int, place: int) -> bool:
        """Whether what is open there is a directory that is known here: by its handle, too."""
        key, identity = self.keys.get(number, (b"", 0))
        try:
            is_same = bool(key) and identity_of(os.fstat(place)) == identity
            return is_same and handle_of(place) == handle_in(key)
        except OSError:
            return False

    def open(self, number: int, beside: "Beside") -> int | None:
        """Opens a directory by its handle, as a place; None where it isn't known here.

        Raises `OSError`, where it is gone.
        """
        key, _ = self.keys.get(number, (b"", 0))
        return beside.open(key) if key else None

    # ---- what a walk found

    def renew(self, tree: Tree) -> list[int]:
        """Takes over a tree's names: the directories that may not be as it says.

        One that has another place is among them: it may have left that before the tree was fed.
        """
        places: dict[int, tuple[int, bytes]] = {}
        for parent, name, child in tree.links():
            if child in tree.entries:
                places[child] = (parent, name)
        before, self.places = self.places, places
        self.by_identity = {node.identity: number for number, node in tree.nodes.items()}
        ways = self.ways(tree)
        devices = {device_of(tree.nodes[one].identity) for one in tree.entries.keys() - ways}
        self.bad.clear()
        self._look_at_systems(devices)
        for number in self.keys.keys() - tree.entries.keys():
            self._forget(number)
        taking = _Taking(self, tree)
        taking.run()
        moved = [one for one, place in places.items() if before.get(one, place) != place]
        return [*taking.differing, *moved]

    def path_of(self, number: int) -> bytes:
        """The path of a directory, by the names that it and those above it have."""
        names: list[bytes] = []
        while number != ROOT and number in self.places:
            number, name = self.places[number]
            names.append(name)
        return b"/" + b"/".join(reversed(names))

    # ---- what a look changed

    def takes_away(self, tree: Tree, addition: Addition) -> None:
        """What is about to be changed in a tree goes."""
        after = {node.number: node.identity for node in addition.nodes}
        for number in {*addition.gone, *after}:
            node = tree.nodes.get(number)
            if node is not None and node.identity != after.get(number):
                if self.by_identity.get(node.identity) == number:
                    del self.by_identity[node.identity]
        for number in addition.gone:
            self.places.pop(number, None)
            if number in self.keys:
                self._forget(number)

    def adds(self, tree: Tree, addition: Addition) -> None:
        """What was changed in a tree comes."""
        for node in addition.nodes:
            self.by_identity[node.identity] = node.number
        for directory, name, number in addition.names:
            if number in tree.entries:
                self.places[number] = (directory, name)

    def take_in(self, tree: Tree, numbers: set[int]) -> list[int]:
        """Takes in directories, also those with another handle now: which may be otherwise."""
        if not numbers:
            return []
        taking = _Taking(self, tree, numbers)
        taking.run()
        return taking.differing

    def ways(self, tree: Tree) -> set[int]:
        """The directories above the roots."""
        ways = {ROOT}
        for root in self.roots:
            number = ROOT
            for name in root.strip(b"/").split(b"/")[:-1]:
                number = tree.entries.get(number, {}).get(name, ROOT)
                ways.add(number)
        return ways if all(root.strip(b"/") for root in self.roots) else set()

    def _look_at_systems(self, devices: set[int]) -> None:
        """Forgets the file systems that are gone, or of which another part is wanted now.

        The others are marked again, as what was marked may have been mounted anew.
        """
        for system in list(self.systems.values()):
            is_whole = system.device in self.whole
            try:
                descriptor = self.open_path(system.path)
            except OSError:
                self._forget_system(system)
                continue
            try:
                is_same = _system_at(descriptor) == (system.device, system.number)
                if not is_same or is_whole != (system.device in devices):
                    self._forget_system(system)
                elif is_whole:
                    self.marks.system(descriptor)
            except (NoWatch, OSError):
                pass  # what was marked stays so
            finally:
                os.close(descriptor)
        self.whole = devices

    def open_path(self, path: bytes) -> int:
        """Opens a directory for reading. Nothing is on its way for which a server has to answer.

        Raises `OSError`.
        """
        with self.lock:
            self.mounts.refresh()
        place = os.open(b"/", PLACE)
        try:
            for name in path.split(b"/"):
                if name:
                    above, place = place, os.open(name, PLACE, dir_fd=place)
                    os.close(above)
                    self.check_mount(place)
            return os.open(b".", READ, dir_fd=place)
        finally:
            os.close(place)

    def check_mount(self, place: int) -> None:
        """Raises `OSError` where a place is on a file system that isn't this machine's own."""
        mount = self.mounts.of(place)
        if mount is None or mount.kind not in ON_WAY:
            kind = "unknown" if mount is None else mount.kind
            raise OSError(f"a file system that isn't this machine's own ({kind})")

    def _forget_system(self, system: System) -> None:
        del self.systems[system.device]
        gone = [one for one, (key, _) in self.keys.items() if system_in(key) == system.number]
        for number in gone:
            self._forget(number)

    def _forget(self, number: int) -> None:
        key, _ = self.keys.pop(number)
        if self.by_key.get(key) == number:
            del self.by_key[key]

    def take_doubted(self, tree: Tree) -> set[int]:
        """The directories of a tree that may have another handle now than is known."""
        doubted = list(self.doubted)  # another thread may add one
        self.doubted.difference_update(doubted)
        return set(doubted) & tree.entries.keys()

    def take(self, number: int, identity: Identity, place: int, path: bytes) -> bool:
        """Takes in a directory that is open as a place: whether the kernel tells of it."""
        device = device_of(identity)
        if device in self.bad:
            return False
        try:
            descriptor = os.open(b".", READ, dir_fd=place)
            try:
                self._mark(device, descriptor, path)
                key = self.systems[device].number + handle_of(descriptor)
            finally:
                os.close(descriptor)
        except (NoWatch, OSError) as error:
            why = error.strerror if isinstance(error, OSError) else None
            self.bad[device] = (path, why or str(error))
            return False
        if number in self.keys:
            self._forget(number)
        self.keys[number] = (key, identity)
        self.by_key[key] = number
        return True

    def _mark(self, device: int, descriptor: int, path: bytes) -> None:
        """Has the kernel tell of a directory. Raises `OSError`, and `NoWatch`."""
        if device in self.systems and device in self.whole:
            return
        found, number = _system_at(descriptor)
        others = {one.number for one in self.systems.values() if one.device != device}
        if found != device or number in others:
            raise OSError("another file system has its number")
        if device in self.whole:
            self.marks.system(descriptor)
        else:
            self.marks.one(descriptor)
        os.close(open_handle(descriptor, handle_of(descriptor)))
        if device not in self.systems:
            self.systems[device] = System(device, number, path)
            self.marks_made += 1


def _system_at(descriptor: int) -> tuple[int, bytes]:
    """The device of what is open there, and its file system's number. Raises `OSError`."""
    number = os.fstatvfs(descriptor).f_fsid
    return os.fstat(descriptor).st_dev, key_of(number, b"")


class _Taking:
    """Goes down from `/` to each directory of a tree that isn't known yet, and takes it in; or to
    those that are wanted."""

    def __init__(
        self, directories: Directories, tree: Tree, wanted: set[int] | None = None
    ) -> None:
        self.directories = directories
        self.tree = tree
        self.differing: list[int] = []
        keys, nodes = directories.keys, tree.nodes
        self.wanted = wanted or {
            number
            for number in tree.entries
            if number not in keys or keys[number][1] != nodes[number].identity
        } | directories.take_doubted(tree)
        self.below: dict[int, list[tuple[bytes, int]]] = {}

    def run(self) -> None:
        """Takes in each. Raises `OSError` where `/` can't be opened."""
        ways: set[int] = set()
        for one in self.wanted:
            number = one
            while number != ROOT and number not in ways and number in self.directories.places:
                ways.add(number)
                parent, name = self.directories.places[number]
                self.below.setdefault(parent, []).append((name, number))
                number = parent
        if not self.wanted:
            return
        descriptor = os.open(b"/", PLACE)
        try:
            self._go(ROOT, descriptor, b"/")
        finally:
            os.close(descriptor)

    def _go(self, number: int, descriptor: int, path: bytes) -> None:
        """Takes a directory in, where it is the known one, and goes on below it."""
        if number in self.wanted:
            status, node = os.fstat(descriptor), self.tree.nodes[number]
            if identity_of(status) != node.identity:
                self.differing.append(number)
                return
            is_marked = self.directories.take(number, node.identity, descriptor, path)
            if is_marked and status.st_ctime_ns != node.changed:
                self.differing.append(number)
        device = device_of(self.tree.nodes[number].identity)
        for name, child in self.below.get(number, ()):
            below = path.rstrip(b"/") + b"/" + name
            try:
                inner = self._open(device, descriptor, name, child)
            except OSError as error:
                self.differing.append(child)
                self._tell(child, below, error)
                continue
            try:
                self._go(child, inner, below)
            finally:
                os.close(inner)

    def _tell(self, number: int, path: bytes, error: OSError) -> None:
        """Tells of a file system of which nothing is known, and why it can't be reached."""
        device = device_of(self.tree.nodes[number].identity)
        if device not in self.directories.systems:
            self.directories.bad[device] = (path, error.strerror or str(error))

    def _open(self, device: int, above: int, name: bytes, number: int) -> int:
        """Opens one as a place. Raises `OSError`."""
        if device_of(self.tree.nodes[number].identity) == device:
            try:
                return open_here(above, name)
            except OSError as error:
                # A part of a file system may be mounted in itself, as systemd does for a unit.
                if error.errno != errno.EXDEV:
                    raise
        descriptor = os.open(name, PLACE, dir_fd=above)
        try:
            self.directories.check_mount(descriptor)
        except OSError:
            os.close(descriptor)
            raise
        return descriptor


class Beside:
    """A place on each file system, by which handles are opened: for a moment, as it hinders that
    it is unmounted."""

    def __init__(self, directories: Directories) -> None:
        self.directories = directories
        systems = list(directories.systems.values())  # another thread may add one
        self.numbers = {one.number: one for one in systems}
        self.places: dict[bytes, int] = {}

    def open(self, key: bytes) -> int | None:
        """Opens what has this key, as a place; None where its file system can't be reached.

        Raises `OSError`, where it is gone.
        """
        place = self._place(system_in(key))
        return None if place is None else open_handle(place, handle_in(key))

    def _place(self, number: bytes) -> int | None:
        if number in self.places:
            return self.places[number]
        system = self.numbers.get(number)
        if system is None:
            return None
        try:
            descriptor = self.directories.open_path(system.path)  # a place alone won't do
        except OSError as error:
            self._tell(system, error.strerror or str(error))
            return None
        if _system_at(descriptor) != (system.device, number):
            os.close(descriptor)
            self._tell(system, "another file system is there")
            return None
        self.places[number] = descriptor
        return descriptor

    def _tell(self, system: System, why: str) -> None:
        """A system that is marked can't be opened: what events tell of it isn't looked at."""
        self.directories.bad[system.device] = (system.path, why)
        self.directories.is_unreached = True

    def is_known(self, directory: int) -> bool:
        """Whether a directory is on a file system that is marked."""
        key, _ = self.directories.keys.get(directory, (b"", 0))
        return system_in(key) in self.numbers

    def close(self) -> None:
        """Closes the places."""
        for descriptor in self.places.values():
            os.close(descriptor)
        self.places = {}
