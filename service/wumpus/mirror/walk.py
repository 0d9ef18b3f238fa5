"""The walk: what is below the roots, by descriptors, without following links.

What the walk says of a file was true of it at some moment of the walk, together with what it says
of each directory on the file's path: all is read in windows, as `way.py` tells. What changed in a
window is read again, and it alone; what doesn't stand still, and what can't be seen, is kept as it
was known and is shut. An error at one name is that name's alone.
"""

import os
import time
from collections.abc import Callable, Container

from .access import BadList
from .budget import Accounts
from .keep import DEEPEST
from .limits import BadRoot, Limits, NotNarrow, RootPlace, places_of_roots
from .names import DECLINES, FileSystems, Known, Names, Reading, is_declined
from .nodes import ROOT, Identity, Node, Rights, Tree, device_of, identity_of, inode_of
from .reasons import Reason
from .remarks import Remarks, path_of
from .seen import Entry, FreshFile, Kept, SeenDirectory
from .visit import Listing, Remark, Visit
from .way import DIRECTORY_FLAGS, Restless, Step, Torn, Unsettled, Ways

ATTEMPTS = 5
WINDOW = 256  # directories that are read in a window, where nothing changes
NAMES_OF_WINDOW = 20_000
SECONDS_OF_WINDOW = 0.2


class Walk:
    """One walk. `top` is `/` afterwards, and `found` all that was seen, by identity.

    `old` is the tree that the program has. Where `force` isn't set, what a file system that went
    had is `held`: kept and shut. The files of the `unsorted` numbers are looked at for their kind.
    `known` has the tree's nodes by identity, where somebody has that already.
    """

    def __init__(
        self,
        old: Tree,
        limits: Limits,
        accounts: Accounts,
        remarks: Remarks,
        tick: Callable[[int], None],
        force: bool = False,
        unsorted: Container[int] = (),
        known: Known | None = None,
    ) -> None:
        self.old = old
        self.known: Known = known or {node.identity: node for node in old.nodes.values()}
        self.limits = limits
        self.accounts = accounts
        self.remarks = remarks
        self.tick = tick
        self.force = force
        self.systems = FileSystems(limits.one_file_system, self._tell_of_system)
        self.names = Names(limits, self.known, self.systems, force, unsorted)
        self.found: dict[Identity, Entry] = {}
        self.ways = Ways(accounts, limits.access)
        self.top: SeenDirectory | None = None
        self.missing: dict[bytes, str] = {}  # roots that aren't there, and why
        self.held: dict[bytes, str] = {}  # places whose file system went
        self.seen = 0
        self.waiting: list[Visit] = []
        self.visits: dict[SeenDirectory, Visit] = {}
        self.room = WINDOW  # directories in a window: fewer, where something changes all the while
        self.began = 0.0  # of the window
        self.waited = 0.0  # before the window

    def walk(self, roots: tuple[bytes, ...]) -> SeenDirectory:
        """Walks what is below the roots: `/`, with no more names than lead there.

        Raises `BadRoot` where a root is no absolute path, and where `/` doesn't stand still.
        """
        return self.walk_to(places_of_roots(roots))

    def walk_to(self, place: RootPlace) -> SeenDirectory:
        """The same, by the ways from `/` on. Raises `BadRoot`, and `NotNarrow`."""
        self.waiting = [Visit(None, b"/", 1, None, place)]
        try:
            while self.waiting:
                self._window()
        finally:
            self.ways.close()
            self.systems.close()
        if self.top is None:
            raise BadRoot("/: it doesn't stand still")
        return self.top

    # ---- windows

    def _window(self) -> None:
        """Reads as many directories as go into a window, and takes those that stood still."""
        self.began, self.waited = time.monotonic(), self.accounts.waited
        self.systems.refresh()
        listings: list[Listing] = []
        names = 0
        while self.waiting and len(listings) < self.room and names < NAMES_OF_WINDOW:
            if listings and self._spent() > SECONDS_OF_WINDOW:
                break
            listing = self._visit(self.waiting.pop())
            if listing is not None:
                listings.append(listing)
                names += len(listing.directory.entries)
        self.ways.look()
        is_still = not any(step.cause for step in self.ways.steps.values())
        self.room = min(WINDOW, 2 * self.room) if is_still else max(1, self.room // 4)
        self._end_window(listings)
        self.tick(self.seen)
        self.ways.keep(self.waiting[-1].above if self.waiting else None)

    def _spent(self) -> float:
        return time.monotonic() - self.began

    def _end_window(self, listings: list[Listing]) -> None:
        """Takes what stood still, and has the rest read again."""
        read = {listing.directory for listing in listings}
        for step in list(self.ways.steps.values()):
            if step.is_broken and step.directory not in read and not step.directory.is_forgotten:
                self._break(step.directory)
        causes: set[SeenDirectory] = set()
        for listing in listings:
            directory, above = listing.directory, listing.visit.above
            if above is not None and above.is_forgotten:
                directory.is_forgotten = True  # it is read again from there
                continue
            cause = self.ways.steps[directory].cause
            if cause is None:
                self._accept(listing)
                continue
            directory.is_forgotten = True
            self._again(listing.visit, directory, cause.directory, causes)

    def _again(
        self,
        visit: Visit,
        directory: SeenDirectory | None,
        cause: SeenDirectory,
        counted: set[SeenDirectory] | None = None,
    ) -> None:
        """Has a directory read again, as long as the owner of the cause has patience left."""
        account = self.ways.account_of(cause)
        if counted is None or cause not in counted:
            lost = self._spent() - (self.accounts.waited - self.waited)
            self.accounts.wait(account, max(0.0, lost))
        if counted is not None:
            counted.add(cause)
        if visit.attempts + 1 < ATTEMPTS and self.accounts.is_patient(account):
            self.waiting.append(visit._replace(attempts=visit.attempts + 1))
            return
        number = directory.number if directory is not None else 0
        self._keep(visit, Reason.TORN, cause.rights.owner, number)

    def _break(self, directory: SeenDirectory) -> None:
        """Forgets a directory that isn't what it was when it was read, and reads it again."""
        visit = self.visits[directory]
        self._forget(directory)
        if visit.above is not None and not visit.above.is_forgotten:
            visit.above.entries.pop(directory.name, None)
            self._again(visit, directory, directory)
        elif visit.above is None:
            self.top = None
            self._again(visit, directory, directory)

    def _forget(self, directory: SeenDirectory) -> None:
        """Forgets a directory and those below it."""
        waiting = [directory]
        while waiting:
            one = waiting.pop()
            one.is_forgotten = True
            self.visits.pop(one, None)
            if self.found.get(one.identity) is one:
                del self.found[one.identity]
                self._give_back(one)
            waiting += [child for child in one.entries.values() if isinstance(child, SeenDirectory)]

    def _give_back(self, directory: SeenDirectory) -> None:
        """Gives the room back that a directory and its files took."""
        number, above = directory.number, directory.above
        if above is not None:
            is_known = number != 0 and self._known_at(above, directory.name) == number
            self.accounts.of_owner(directory.rights.owner).give_directory(is_known)
        names = self.old.entries.get(number, {})
        for name, entry in directory.entries.items():
            if not isinstance(entry, Kept | SeenDirectory):
                is_known = entry.number != 0 and names.get(name) == entry.number
                self.accounts.of_owner(_owner_of(entry)).give_name(is_known)

    def _keep(
        self, visit: Visit, why: Reason, owner: int | None = None, number: int = 0
    ) -> None:
        """Keeps what is known of a directory that isn't seen: nothing where nothing is known."""
        above = visit.above
        if above is None:
            return
        number = number or self._known_at(above, visit.name)
        above.entries.pop(visit.name, None)
        if number:
            above.entries[visit.name] = Kept(number, why)
        if owner is None:
            owner = self.old.nodes[number].rights.owner if number else above.rights.owner
        self.remarks.shut(why, owner, above, visit.name)

    def _known_at(self, above: SeenDirectory | None, name: bytes) -> int:
        """The number of the node that the program has there, or 0."""
        if above is None:
            return 0
        return self.old.entries.get(above.number, {}).get(name, 0)

    # ---- one directory

    def _visit(self, visit: Visit) -> Listing | None:
        """Opens and reads a directory; None where it is left out, or is kept as it was."""
        above = visit.above
        if above is not None and above.is_forgotten:
            return None
        try:
            step = None if above is None else self.ways.reach(above)
        except Unsettled as unsettled:
            self._again(visit, None, unsettled.directory)
            return None
        except Torn as torn:
            self._break(torn.directory)
            return None
        if visit.depth > DEEPEST:
            self.remarks.leave_out(path_of(above, visit.name), Reason.DEEP.sentence)
            return None
        try:
            where = None if step is None else step.descriptor
            descriptor = os.open(visit.name, DIRECTORY_FLAGS, dir_fd=where)
        except OSError as error:
            self._unreadable(visit, error)
            return None
        listing = self._open(visit, step, descriptor)
        if listing is None:
            os.close(descriptor)
            return None
        directory = listing.directory
        self.visits[directory] = visit
        self._list(listing, self.ways.enter(directory, descriptor, step))
        return listing

    def _open(self, visit: Visit, step: Step | None, descriptor: int) -> Listing | None:
        """What is seen of the directory that is open there, before its names are read."""
        try:
            status = self.ways.settled(descriptor)
            identity = identity_of(status)
            if identity in self.limits.omitted or not self._is_walked(visit, step, status):
                return None
            if isinstance(self.found.get(identity), SeenDirectory):
                self.remarks.leave_out(path_of(visit.above, visit.name), Reason.TWICE.sentence)
                return None
            if self._is_held(visit, identity):
                self._keep(visit, Reason.HELD)
                return None
            return self._directory(visit, descriptor, status)
        except Restless:
            self._wait_again(visit, os.fstat(descriptor))
        except OSError as error:
            self._unreadable(visit, error)
        return None

    def _wait_again(self, visit: Visit, status: os.stat_result) -> None:
        """Has a directory visited again that doesn't rest, as long as its owner has patience."""
        account = self.accounts.of_directory(status.st_uid, status.st_mode, identity_of(status))
        if visit.attempts + 1 < ATTEMPTS and self.accounts.is_patient(account):
            self.waiting.append(visit._replace(attempts=visit.attempts + 1))
        else:
            self._keep(visit, Reason.TORN, status.st_uid)

    def _directory(
        self, visit: Visit, descriptor: int, status: os.stat_result
    ) -> Listing | None:
        """The directory with its rights, where its owner has room and time. Raises `OSError`."""
        identity, owner = identity_of(status), status.st_uid
        known = self.known.get(identity)
        number = ROOT if visit.above is None else 0
        if known is not None and known.is_directory and known.number != ROOT:
            number = known.number
        is_known = number != 0 and self._known_at(visit.above, visit.name) == number
        account = self.accounts.of_owner(owner)
        if not account.has_directory(is_known):
            self._keep(visit, Reason.DIRECTORIES, owner, number)
            return None
        if self.accounts.of_directory(owner, status.st_mode, identity).seconds <= 0:
            self._keep(visit, Reason.SECONDS, owner, number)
            return None
        rights, remarks = self._rights(known, descriptor, status)
        directory = SeenDirectory(
            visit.above, visit.name, identity, rights, status.st_ctime_ns, number
        )
        return Listing(directory, visit, is_known, remarks)

    def _rights(
        self, known: Node | None, descriptor: int, status: os.stat_result
    ) -> tuple[Rights, list[Remark]]:
        """A directory's rights: none, and a remark, where the program can't be told of them."""
        access = self.limits.access
        plain = (access.mode_of_directory(status), status.st_uid, status.st_gid)
        if known is not None and known.is_directory and known.changed == status.st_ctime_ns:
            if known.rights[:3] == plain:
                return known.rights, []
        try:
            return access.of_directory(descriptor, status), []
        except BadList:
            owner = status.st_uid
            return Rights(0, owner, status.st_gid), [(Reason.LIST, owner, b"")]

    def _unreadable(self, visit: Visit, error: OSError) -> None:
        """A directory that can't be opened, or looked at."""
        if visit.place is not None:
            path = path_of(visit.above, visit.name)
            told = f"{os.fsdecode(path)}: {error.strerror}, or a symbolic link"
            self.missing[path] = told
        self._keep(visit, Reason.UNREADABLE)

    # ---- what is left out

    def _is_walked(self, visit: Visit, step: Step | None, status: os.stat_result) -> bool:
        """Whether a directory is on a file system that is walked. Raises `OSError`.

        What is hidden by one that isn't is kept and shut; what was mirrored of that one goes.
        """
        if visit.place is not None or step is None or status.st_dev == visit.device:
            return True
        if self.systems.is_walked(step, visit.name, status.st_dev):
            return True
        number = self._known_at(step.directory, visit.name)
        hidden = number and device_of(self.old.nodes[number].identity) != status.st_dev
        if hidden and not self.force:
            self._keep(visit, Reason.COVERED)
        return False

    def _tell_of_system(self, directory: SeenDirectory, name: bytes, kind: str) -> None:
        """Tells of the boundary of a file system that is left out."""
        path = path_of(directory, name)
        self.remarks.leave_out(path, f"a file system that is left out ({kind})")

    def _is_held(self, visit: Visit, identity: Identity) -> bool:
        """Whether another file system was there before, whose files are gone with it.

        Where only the device has another number, as after a start of the machine, it is the same.
        """
        number = self._known_at(visit.above, visit.name)
        if self.force or visit.above is None or not number:
            return False
        before = self.old.nodes[number].identity
        if device_of(before) == device_of(identity) or inode_of(before) == inode_of(identity):
            return False
        above_before = self.old.nodes[visit.above.number].identity
        was_mounted = device_of(before) != device_of(above_before)
        is_mounted = device_of(identity) != device_of(visit.above.identity)
        is_root = visit.place is not None and visit.place.is_root
        if is_root or was_mounted and not is_mounted:
            path = path_of(visit.above, visit.name)
            self.held[path] = f"{os.fsdecode(path)}: another file system was there before"
            return True
        return False

    def _list(self, listing: Listing, step: Step) -> None:
        """Reads the names of a directory: its files, and visits of its directories."""
        directory, visit = listing.directory, listing.visit
        places = visit.place.below if visit.place is not None else {}
        if visit.place is not None and visit.place.is_inner:
            if not places.keys().isdisjoint(self.systems.left_out_in(directory)):
                raise NotNarrow  # a server might never answer for what is mounted there
        device = visit.device
        fresh: list[Visit] = []
        known: list[Visit] = []
        names = self.old.entries.get(directory.number, {})
        if self._is_wanted(visit, step):
            only = None
            if visit.place is not None:
                device, only = device_of(directory.identity), visit.place.only
            there = names if only is None else {one: names[one] for one in only if one in names}
            reading = Reading(listing, there, self.accounts, self.ways.account_of(directory))
            for name in self.names.read(reading, step, places, only):
                one = Visit(directory, name, visit.depth + 1, device, None)
                (known if name in names else fresh).append(one)
        ways = [
            Visit(directory, name, visit.depth + 1, device, place)
            for name, place in places.items()
        ]
        self.waiting += [*fresh[::-1], *known[::-1], *ways]

    def _is_wanted(self, visit: Visit, step: Step) -> bool:
        """Whether the names of a directory are read: not only on the way to a root, nor declined.

        Raises `NotNarrow` where one on the way to a part of a root is declined.
        """
        place = visit.place
        is_way = place is not None and not place.is_root
        is_inner = place is not None and place.is_inner
        if is_way and not is_inner:
            return False
        try:
            declined = is_declined(step)
        except OSError:
            declined = is_inner  # reading the names meets the same error, and tells it
        if declined and is_inner:
            raise NotNarrow
        if declined:
            path = path_of(visit.above, visit.name)
            self.remarks.leave_out(path, f"it has a file {os.fsdecode(DECLINES)}")
        return not declined and not is_way

    # ---- what stood still

    def _accept(self, listing: Listing) -> None:
        """Takes a directory, with the names that were read of it."""
        directory, above = listing.directory, listing.visit.above
        if isinstance(self.found.get(directory.identity), SeenDirectory):
            directory.is_forgotten = True
            self.remarks.leave_out(path_of(above, directory.name), Reason.TWICE.sentence)
            return
        self.found[directory.identity] = directory
        if above is None:
            self.top = directory
        else:
            above.entries[directory.name] = directory
            account = self.accounts.of_owner(directory.rights.owner)
            account.take_directory(listing.is_known)
        for why, owner, name in listing.remarks:
            if name:
                self.remarks.shut(why, owner, directory, name)
            else:
                self.remarks.shut(why, owner, above, directory.name)
        self._accept_files(directory)
        self.seen += len(directory.entries)

    def _accept_files(self, directory: SeenDirectory) -> None:
        """Takes the files of a directory, of each owner as many as she has room for."""
        names = self.old.entries.get(directory.number, {})
        entries = directory.entries
        last, account = 0, self.accounts.of_owner(0)
        for name, entry in list(entries.items()):
            if isinstance(entry, Kept | SeenDirectory):
                continue
            owner = _owner_of(entry)
            if owner != last:
                last, account = owner, self.accounts.of_owner(owner)
            is_known = entry.number != 0 and names.get(name) == entry.number
            if not account.take_name(is_known):
                del entries[name]
                if is_known:
                    entries[name] = Kept(entry.number, Reason.NAMES)
                self.remarks.shut(Reason.NAMES, owner, directory, name)
                continue
            seen = self.found.get(entry.identity)
            if seen is None:
                self.found[entry.identity] = entry
            elif seen is not entry:
                entries[name] = self._one_file(seen, entry)

    def _one_file(self, seen: Entry, entry: Node | FreshFile) -> Entry:
        """A file that was seen by two names: it is torn where the names showed two statuses."""
        if isinstance(seen, FreshFile):
            seen.is_torn = seen.is_torn or seen.changed != entry.changed
            return seen
        self.found[entry.identity] = entry
        if isinstance(seen, Node) and isinstance(entry, FreshFile):
            entry.is_torn = True
        return entry


def _owner_of(file: Node | FreshFile) -> int:
    """Who owns a file."""
    return file.owner if isinstance(file, FreshFile) else file.rights.owner
