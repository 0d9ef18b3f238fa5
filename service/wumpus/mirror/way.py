"""Windows: what was true of directories, from `/` down, between two looks at them.

All that is read lies in a window. At its beginning each directory on the ways to what is read is
opened by its name in the one above; at its end each is looked at by that name once more. What was
read below directories that are the same, with the same ctime, was true at one moment together with
all that was seen of them. A window may have very many directories: each is looked at once.

That a ctime tells of each change holds once the clock has gone on since: what changed in the last
50 ms is waited for.
"""

import os
from dataclasses import dataclass

from .access import Access, BadList
from .budget import Account, Accounts
from .nodes import Rights, identity_of
from .seen import SeenDirectory

WAITS = 2  # times that a change is waited for in a window, which holds for others too
DIRECTORY_FLAGS = os.O_RDONLY | os.O_DIRECTORY | os.O_NOFOLLOW | os.O_CLOEXEC


class Torn(Exception):
    """A directory isn't where, or what, it was seen to be first."""

    def __init__(self, directory: SeenDirectory) -> None:
        super().__init__()
        self.directory = directory


class Unsettled(Torn):
    """It may be what it was seen to be, but goes on changing."""


class Restless(Exception):
    """Something changed just now, and goes on changing, or its owner has no more patience left."""


@dataclass(slots=True, eq=False)
class Step:
    """A directory that is held open, and its ctime at the beginning of the window.

    After the look that ends a window, `cause` is the highest directory on the way that changed in
    it, or None. It is broken where it isn't the directory that was seen, with the same rights, and
    unsettled where that isn't known, since it goes on changing.
    """

    directory: SeenDirectory
    descriptor: int
    above: "Step | None"
    changed: int
    cause: "Step | None" = None
    is_broken: bool = False
    is_unsettled: bool = False


class Ways:
    """The directories that are held open, each after those above it."""

    def __init__(self, accounts: Accounts, access: Access) -> None:
        self.accounts = accounts
        self.access = access
        self.steps: dict[SeenDirectory, Step] = {}

    def account_of(self, directory: SeenDirectory) -> Account:
        """The account to which a directory's time counts."""
        rights = directory.rights
        return self.accounts.of_directory(rights.owner, rights.mode, directory.identity)

    def settled(self, descriptor: int) -> os.stat_result:
        """The status of what is open there, once it is old. Raises `Restless`, and `OSError`."""
        status = os.fstat(descriptor)
        for _ in range(WAITS):
            account = self.accounts.of_directory(
                status.st_uid, status.st_mode, identity_of(status)
            )
            if not self.accounts.wait_for(account, status.st_ctime_ns):
                break
            before, status = status, os.fstat(descriptor)
            if status.st_ctime_ns == before.st_ctime_ns:
                return status
        raise Restless

    def enter(self, directory: SeenDirectory, descriptor: int, above: Step | None) -> Step:
        """Holds open a directory that was seen just now, with this descriptor."""
        step = Step(directory, descriptor, above, directory.changed)
        self.steps[directory] = step
        return step

    def reach(self, directory: SeenDirectory) -> Step:
        """Opens the way to a directory; what is open of it stays so.

        Raises `Torn`, and `Unsettled` of a directory on the way that goes on changing.
        """
        found = self.steps.get(directory)
        if found is not None:
            return found
        above: Step | None = None
        for one in directory.way():
            step = self.steps.get(one)
            above = step if step is not None else self._open(one, above)
        if above is None:
            raise Torn(directory)
        return above

    def _open(self, directory: SeenDirectory, above: Step | None) -> Step:
        """Opens one directory again. Raises `Torn`, and `Unsettled`."""
        if directory.is_forgotten:
            raise Torn(directory)
        try:
            where = None if above is None else above.descriptor
            descriptor = os.open(directory.name, DIRECTORY_FLAGS, dir_fd=where)
        except OSError as error:
            raise Torn(directory) from error
        try:
            is_same = self._is_same(directory, descriptor)
        except BaseException:
            os.close(descriptor)
            raise
        if not is_same:
            os.close(descriptor)
            raise Torn(directory)
        return self.enter(directory, descriptor, above)

    def _is_same(self, directory: SeenDirectory, descriptor: int) -> bool:
        """Whether it is the directory that was seen, with the same rights; its ctime is kept.

        Raises `Unsettled` where it goes on changing.
        """
        try:
            status = os.fstat(descriptor)
            if identity_of(status) != directory.identity:
                return False
            if status.st_ctime_ns != directory.changed:
                status = self.settled(descriptor)
                if self._rights(descriptor, status) != directory.rights:
                    return False
                directory.changed = status.st_ctime_ns
        except Restless as error:
            raise Unsettled(directory) from error
        except OSError:
            return False
        return True

    def _rights(self, descriptor: int, status: os.stat_result) -> Rights:
        """A directory's rights; none where the program can't be told of them. Raises `OSError`."""
        try:
            return self.access.of_directory(descriptor, status)
        except BadList:
            return Rights(0, status.st_uid, status.st_gid)

    def look(self) -> None:
        """Ends a window and begins the next one: looks at each directory by its name once more."""
        for step in self.steps.values():
            changed, step.is_broken = self._look_at(step)
            above = step.above.cause if step.above is not None else None
            step.cause = above or (step if changed else None)

    def _look_at(self, step: Step) -> tuple[bool, bool]:
        """Whether it changed in the window, and whether it is broken."""
        try:
            if step.above is None:
                status = os.fstat(step.descriptor)
            else:
                name, where = step.directory.name, step.above.descriptor
                status = os.stat(name, dir_fd=where, follow_symlinks=False)
        except OSError:
            return True, True
        if identity_of(status) != step.directory.identity:
            return True, True
        if status.st_ctime_ns == step.changed:
            return False, False
        try:
            is_same = self._is_same(step.directory, step.descriptor)
        except Unsettled:
            step.is_unsettled = True
            return True, False
        step.changed = step.directory.changed
        return True, not is_same

    def keep(self, directory: SeenDirectory | None) -> None:
        """Closes all but the way to a directory, as far as it is settled."""
        staying = set()
        for one in [] if directory is None else directory.way():
            found = self.steps.get(one)
            if found is None or found.is_unsettled:
                break
            staying.add(one)
        for one, step in list(self.steps.items()):
            if one not in staying:
                os.close(step.descriptor)
                del self.steps[one]

    def close(self) -> None:
        """Closes all that is open."""
        self.keep(None)
