"""Reading the names of a directory. An error at one name is that name's alone."""

import fcntl
import os
import stat
import sys
import time
from collections.abc import Callable, Container, Iterable, Iterator, Set
from contextlib import contextmanager
from typing import Protocol

from ..shared.script import NAME_MAX
from .budget import Account, Accounts
from .limits import Limits, RootPlace, pattern_of
from .mounts import Mounts
from .nodes import Identity, Node, device_of, identity_of
from .reasons import Reason
from .seen import FreshFile, Kept, SeenDirectory
from .visit import Listing
from .way import Step

DECLINES = b".nowumpus"
FEW = 64  # names that are asked for one by one, rather than that a directory is listed for them
CHUNK = 1000  # names after which the time of a listing is counted
PLACE_FLAGS = os.O_PATH | os.O_NOFOLLOW | os.O_CLOEXEC
# File systems whose names are bytes, but for directories that have a flag against that.
BY_BYTES = frozenset("btrfs ext2 ext3 ext4 f2fs ramfs tmpfs".split())
_GET_FLAGS, _CASE_FOLDED = 0x80086601, 0x40000000  # FS_IOC_GETFLAGS, FS_CASEFOLD_FL of linux/fs.h


class Known(Protocol):
    """Nodes by identity."""

    def get(self, identity: Identity, /) -> Node | None:
        """The node of a file or directory; None where it isn't known."""


def _is_as_known(known: Node, status: os.stat_result) -> bool:
    """Whether nothing of a file's status changed since its node was made."""
    plain = (status.st_mode & 0o7777, status.st_uid, status.st_gid)
    same = abs(known.changed) == status.st_ctime_ns and known.size == status.st_size
    return same and known.rights[:3] == plain


def is_declined(step: Step) -> bool:
    """Whether a directory says that it isn't to be searched, by a file of its owner's or of root's.

    Who may only put files there can't hide those of others so. Raises `OSError`.
    """
    try:
        status = os.stat(DECLINES, dir_fd=step.descriptor, follow_symlinks=False)
    except FileNotFoundError:
        return False
    return status.st_uid in (0, step.directory.rights.owner)


class FileSystems:
    """Which file systems are walked. `tell` is told of a boundary, and of the kind behind it."""

    def __init__(self, is_one: bool, tell: Callable[[SeenDirectory, bytes, str], None]) -> None:
        self.is_one = is_one
        self.tell = tell
        self.mounts = Mounts()
        self.good: set[int] = set()  # devices of those that are walked
        self.bounds: set[bytes] = set()  # last names of directories in which one is left out
        self._keep_bounds()

    def _keep_bounds(self) -> None:
        self.bounds = {path.rpartition(b"/")[2] for path in self.mounts.left_out}

    def refresh(self) -> None:
        """Looks for what was mounted or unmounted meanwhile."""
        self.mounts.refresh()
        self._keep_bounds()

    def close(self) -> None:
        """Closes what is open."""
        self.mounts.close()

    def left_out_in(self, directory: SeenDirectory) -> dict[bytes, str]:
        """The names in a directory at which one is mounted that isn't walked, and its kind."""
        if directory.above is not None and directory.name not in self.bounds:
            return {}
        return self.mounts.left_out_in(directory.path())

    def tells_names(self, directory: int) -> bool:
        """Whether a name that is asked for in a directory is there as it is written.

        Where names have no case another one is found by it, which a listing tells apart.
        """
        mount = self.mounts.of(directory)
        if mount is None or mount.kind not in BY_BYTES:
            return False
        try:
            flags = fcntl.ioctl(directory, _GET_FLAGS, bytes(8))
        except OSError:
            return True  # it has no flags, so none that says that names have no case
        return not int.from_bytes(flags, sys.byteorder) & _CASE_FOLDED

    def is_walked(self, step: Step, name: bytes, device: int) -> bool:
        """Whether the one of this device is, on which the name in a directory is.

        Raises `OSError`.
        """
        if not self.is_one and device in self.good:
            return True
        descriptor = os.open(name, PLACE_FLAGS, dir_fd=step.descriptor)
        try:
            mount = self.mounts.of(descriptor)
        finally:
            os.close(descriptor)
        if not self.is_one and mount is not None and mount.is_good:
            self.good.add(device)
            return True
        self.tell(step.directory, name, mount.kind if mount is not None else "unknown")
        return False


class Reading:
    """What is read of one directory, and the time that it takes."""

    def __init__(
        self, listing: Listing, names: dict[bytes, int], accounts: Accounts, account: Account
    ) -> None:
        self.listing = listing
        self.names = names  # those that the program has there
        self.accounts = accounts
        self.account = account
        self.owner = listing.directory.rights.owner
        self.of_others: dict[int, int] = {}  # names since the time was counted, by owner
        self.count = 1
        self.began = time.monotonic()

    def add(self, name: bytes, file: Node | FreshFile, status: os.stat_result) -> None:
        """Takes a file; one with too many names gets no new one."""
        is_known = file.number != 0 and self.names.get(name) == file.number
        owner = status.st_uid
        self.count += 1
        if owner not in (0, self.owner):
            self.of_others[owner] = self.of_others.get(owner, 0) + 1
        if owner and status.st_nlink > self.accounts.budget.links and not is_known:
            self.remark(Reason.LINKS, owner, name)
        else:
            self.listing.directory.entries[name] = file

    def keep(self, name: bytes, why: Reason) -> None:
        """Keeps what is known behind a name that can't be seen."""
        number = self.names.get(name)
        if number is not None:
            self.listing.directory.entries[name] = Kept(number, why)
        self.remark(why, self.owner, name)

    def remark(self, why: Reason, owner: int, name: bytes) -> None:
        """Remembers what is to be told, if the directory stood still."""
        self.listing.remarks.append((why, owner, name))

    def cut(self, why: Reason, seen: set[bytes]) -> None:
        """Keeps all names that weren't read: neither among the entries, nor otherwise seen."""
        for name in self.names.keys() - self.listing.directory.entries.keys() - seen:
            self.keep(name, why)

    def count_time(self) -> bool:
        """Counts the time since the last count to whoever owns what was read in it.

        What the directory's owner let others put there counts to her, once they have no time left.
        Tells whether she has time for more.
        """
        now = time.monotonic()
        each = (now - self.began) / self.count
        rest = self.count
        for owner, count in self.of_others.items():
            account = self.accounts.of_owner(owner)
            if account.seconds > 0:
                account.seconds -= count * each
                rest -= count
        self.account.seconds -= rest * each
        self.of_others.clear()
        self.count, self.began = 1, now
        return self.account.seconds > 0


class Single:
    """A name that is asked for by itself, as a listing has it."""

    def __init__(self, directory: int, name: bytes) -> None:
        self.directory = directory
        self.name = os.fsdecode(name)
        self.status: os.stat_result | None = None

    def stat(self, *, follow_symlinks: bool) -> os.stat_result:
        """Its status, which is asked for once. Raises `OSError`."""
        if self.status is None:
            self.status = os.stat(
                self.name, dir_fd=self.directory, follow_symlinks=follow_symlinks
            )
        return self.status

    def is_dir(self, *, follow_symlinks: bool) -> bool:
        """Whether it is a directory. Raises `OSError`."""
        return stat.S_ISDIR(self.stat(follow_symlinks=follow_symlinks).st_mode)

    def is_file(self, *, follow_symlinks: bool) -> bool:
        """Whether it is a file. Raises `OSError`."""
        return stat.S_ISREG(self.stat(follow_symlinks=follow_symlinks).st_mode)


def _singles(directory: int, names: Set[bytes], unasked: Container[bytes]) -> Iterator[Single]:
    """Those of some names that are there; at some of them nothing is asked, as a mount's."""
    for name in names:
        one = Single(directory, name)
        try:
            if name not in unasked:
                one.stat(follow_symlinks=False)
        except FileNotFoundError:
            continue
        except OSError:
            pass  # who takes it meets the same error, and tells it
        yield one


@contextmanager
def entries_in(
    directory: int, only: Set[bytes] | None, unasked: Container[bytes], systems: FileSystems
) -> Iterator[Iterable[os.DirEntry[str] | Single]]:
    """The names in a directory, or of those that are wanted alone. Raises `OSError`."""
    if only is not None and len(only) <= FEW and systems.tells_names(directory):
        yield _singles(directory, only, unasked)
    else:
        with os.scandir(directory) as entries:
            yield entries


class Names:
    """Reads names: files as entries of their directory, directories as names to be visited.

    `known` has the nodes that the program has, by identity. Those of the `unsorted` numbers may be
    of another kind than is known.
    """

    def __init__(
        self,
        limits: Limits,
        known: Known,
        systems: FileSystems,
        force: bool,
        unsorted: Container[int] = (),
    ) -> None:
        self.known = known
        self.unsorted = unsorted
        self.systems = systems
        self.force = force
        self.fits = pattern_of(limits.excludes) if limits.excludes else None

    def read(
        self,
        reading: Reading,
        step: Step,
        places: dict[bytes, RootPlace],
        only: Set[bytes] | None = None,
    ) -> Iterator[bytes]:
        """Takes the files of a directory, and gives the names of its directories.

        Those in `places` are left to the caller, and all but those in `only`, where that is set.
        """
        directory = step.directory
        kept = {name: name for name in reading.names}  # a name that was known isn't kept twice
        path = directory.path() + b"/" if self.fits is not None else b""
        left_out = self.systems.left_out_in(directory)
        seen: set[bytes] = set(places)
        try:
            with entries_in(step.descriptor, only, left_out, self.systems) as entries:
                for count, entry in enumerate(entries, 1):
                    name = os.fsencode(entry.name)
                    name = kept.get(name, name)
                    if name in places or (only is not None and name not in only):
                        pass
                    elif self.fits is not None and self.fits(name, path + name):
                        seen.add(name)
                    elif name in left_out:
                        self._leave_out(reading, step, name, left_out[name])
                    elif len(name) > NAME_MAX:
                        reading.remark(Reason.LONG, directory.rights.owner, name)
                    elif self._take(reading, step, entry, name):
                        seen.add(name)
                        yield name
                    if count % CHUNK == 0 and not reading.count_time():
                        reading.cut(Reason.SECONDS, seen)
                        return
        except OSError:
            reading.cut(Reason.UNREADABLE, seen)
        reading.count_time()

    def _leave_out(self, reading: Reading, step: Step, name: bytes, kind: str) -> None:
        """Leaves a mount out; what it hides is kept and shut."""
        self.systems.tell(step.directory, name, kind)
        if not self.force and name in reading.names:
            reading.keep(name, Reason.COVERED)

    def _take(
        self, reading: Reading, step: Step, entry: "os.DirEntry[str] | Single", name: bytes
    ) -> bool:
        """Takes one name: whether it is a directory's."""
        try:
            if entry.is_dir(follow_symlinks=False):
                return True
            if not entry.is_file(follow_symlinks=False):
                return False
            status = entry.stat(follow_symlinks=False)
            if not stat.S_ISREG(status.st_mode):
                return False
            is_here = status.st_dev == device_of(step.directory.identity)
            if is_here or self.systems.is_walked(step, name, status.st_dev):
                reading.add(name, self._file(status), status)
        except FileNotFoundError:
            reading.keep(name, Reason.UNSEEN)
        except OSError:
            reading.keep(name, Reason.UNREADABLE)
        return False

    def _file(self, status: os.stat_result) -> Node | FreshFile:
        """What is seen of a file: its node, where its status is the known one."""
        identity = identity_of(status)
        known = self.known.get(identity)
        if known is not None and known.is_directory:
            known = None
        is_same = known is not None and _is_as_known(known, status)
        is_old = known is not None and is_same and known.changed > 0
        if known is not None and is_old and known.number not in self.unsorted:
            return known
        number = known.number if known is not None else 0
        owner, group = status.st_uid, status.st_gid
        changed, size = status.st_ctime_ns, status.st_size
        fresh = FreshFile(identity, owner, group, changed, size, number, is_same and not is_old)
        fresh.known = known if is_old else None
        return fresh
