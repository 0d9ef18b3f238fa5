"""One look: a part of the tree is walked, files that changed in it are read, and that is fed.

It walks as a turn does, in windows, and what it feeds is one batch of names, rights and texts. What
isn't as it can be fed is put off, or left to the turns: then nothing is fed.
"""

import os
import time
from dataclasses import dataclass, field
from itertools import chain

from ..mirror.batch import Texts
from ..mirror.budget import Accounts
from ..mirror.look import Looked, Looker
from ..mirror.nodes import Tree, device_of
from ..mirror.pending import Pending, Place
from ..mirror.reasons import Reason
from ..mirror.remarks import Remarks
from ..mirror.room import Room
from ..mirror.seen import FreshFile, Kept, SeenDirectory, directories_of
from ..mirror.target import FEW, Target
from ..mirror.turn import Mirror, Wish
from ..mirror.walk import Walk
from .calls import open_here
from .directories import Beside, Directories
from .dirty import Spot
from .index import Index, Known
from .part import MOST, Part, TooLarge, wanted_beside

PATIENCE = 0.1  # seconds that a look waits for what is young, or changes
ROUNDS = 6  # of walks in a look, each of which may want more than the one before
WALK_SECONDS = 2.0
FILES, BYTES, SECONDS = 2_000, 2 << 20, 0.25  # of files that are read in a look
UNSTEADY = (Reason.TORN, Reason.UNSEEN, Reason.SECONDS)


class Again(Exception):
    """Something didn't stand still: it is looked at later."""


@dataclass(slots=True)
class Seen:
    """What a look saw: the tree that the program is to have of the part, and the one that it has.

    `inside` has the directories of which all names were walked.
    """

    target: Target
    before: Tree
    inside: set[int]
    found: list[Looked] = field(default_factory=list)
    later: list[Place] = field(default_factory=list)  # files that wait, shut, as after a turn
    again: list[Spot] = field(default_factory=list)  # what is to be looked at once more


class Look:
    """Looks at some spots, between two turns of a mirror, with the wish of its last walk."""

    def __init__(
        self, mirror: Mirror, wish: Wish, directories: Directories, index: Index, above: set[int]
    ) -> None:
        self.mirror = mirror
        self.wish = wish
        self.directories = directories
        self.index = index
        self.tree = mirror.state.tree
        self.part = Part(self.tree, directories.places, above)
        self.remarks = Remarks(_say_nothing)
        self.began = time.monotonic()

    def see(self, spots: list[Spot]) -> Seen | None:
        """What is there; None where there is nothing to be seen.

        Raises `Again`, `NotNarrow`, `TooLarge`, and `BadRoot`.
        """
        self._add(spots)
        if not self.part.names and not self.part.alone:
            return None
        walk, top = self._walked()
        target = Target(
            self.mirror.state, walk, top, self.remarks, self.mirror.pending.since
        )
        inside = {one.number for one in self.part.inside(top)}
        seen = Seen(target, self.part.before(top), inside)
        self._check(seen, top)
        return seen

    # ---- what is walked

    def _add(self, spots: list[Spot]) -> None:
        """Makes a part of the spots. Raises `TooLarge`."""
        beside = Beside(self.directories)
        try:
            for spot in spots:
                if spot.directory not in self.tree.entries:
                    continue
                if spot.is_whole:
                    for name in self._names_of(spot.directory, beside):
                        self._add_name(spot.directory, name, beside)
                elif spot.name:
                    self._add_name(spot.directory, spot.name, beside)
                else:
                    self.part.add_directory(spot.directory)
        finally:
            beside.close()

    def _add_name(self, directory: int, name: bytes, beside: Beside) -> None:
        """Adds a name: a known directory that is still there on its own, and not all below it."""
        child = self.tree.entries[directory].get(name)
        is_directory = child in self.tree.entries
        if child is not None and is_directory and self._is_same(directory, name, child, beside):
            self.part.add_directory(child)
        elif directory not in self.part.above:
            self.part.add(directory, name)
        elif is_directory:
            raise TooLarge  # a root, or a directory above one, is another one

    def _is_same(self, directory: int, name: bytes, child: int, beside: Beside) -> bool:
        """Whether a name leads to the directory that is known there: by its handle, too."""
        try:
            above = self.directories.open(directory, beside)
            if above is None:
                return False
            try:
                place = open_here(above, name)
            finally:
                os.close(above)
            try:
                return self.directories.is_at(child, place)
            finally:
                os.close(place)
        except OSError:
            return False

    def _names_of(self, number: int, beside: Beside) -> set[bytes]:
        """All names of a directory, those that are known and those that are there.

        None is asked for more: what is mounted there might never answer. Raises `TooLarge`.
        """
        names = set(self.tree.entries[number])
        if number in self.part.above:
            return names
        self.part.add_directory(number)
        try:
            place = self.directories.open(number, beside)
            if place is not None:
                try:
                    names |= _names_at(place)
                finally:
                    os.close(place)
        except OSError:
            pass  # it isn't there, which the walk finds
        if len(names) > MOST:
            raise TooLarge
        return names

    def _walked(self) -> tuple[Walk, SeenDirectory]:
        """Walks, until all is in the part that has to be.

        Raises `Again`, `NotNarrow`, `TooLarge`, and `BadRoot`.
        """
        limits, mirror = self.wish.limits, self.mirror
        known = Known(self.directories.by_identity, self.tree)
        for _ in range(ROUNDS):
            self.part.check_size()
            self.remarks = Remarks(_say_nothing)
            accounts = self._accounts()
            walk = Walk(self.tree, limits, accounts, self.remarks, self._tick, known=known)
            top = walk.walk_to(self.part.ways())
            reasons = set(chain.from_iterable(self.remarks.counts.values()))
            is_twice = any(why == Reason.TWICE.sentence for _, why in self.remarks.left_out)
            if is_twice or not reasons.isdisjoint(UNSTEADY):
                raise Again
            wanted = wanted_beside(self.part, top, self.index)
            if not wanted:
                if walk.held:
                    raise TooLarge
                return walk, top
            for directory, name in wanted:
                self.part.add(directory, name)
            mirror.pulse()
        raise TooLarge

    def _tick(self, count: int) -> None:
        """Ends a walk that is too long. Raises `TooLarge`, and `Again`."""
        if count > 2 * MOST:
            raise TooLarge
        if time.monotonic() - self.began > WALK_SECONDS:
            raise Again

    def _accounts(self) -> Accounts:
        accounts = Accounts(self.wish.budget, self.wish.person_of)
        accounts.patience = PATIENCE
        accounts.reserve_counted(self.index.counts)
        return accounts

    def _check(self, seen: Seen, top: SeenDirectory) -> None:
        """Raises `TooLarge`, or `Again`, where what was seen can't be fed."""
        for directory in directories_of(top):
            for entry in directory.entries.values():
                if isinstance(entry, Kept):
                    raise TooLarge
                if isinstance(entry, FreshFile) and entry.is_torn:
                    raise Again
        nodes = seen.target.tree.nodes
        gone = sum(number not in nodes for number in seen.before.nodes)
        if gone >= FEW and 2 * gone > len(self.tree.nodes):
            raise TooLarge
        whole = self.directories.whole
        if any(device_of(nodes[number].identity) not in whole for number in seen.inside):
            raise TooLarge  # on a file system that isn't marked yet

    # ---- files

    def read(self, seen: Seen, texts: Texts) -> None:
        """Reads what changed: the nodes of the tree are as they are to be then."""
        mirror, wish, tree = self.mirror, self.wish, seen.target.tree
        if mirror.room is None:
            mirror.room = Room(mirror.folder, wish.budget, self.tree, wish.person_of)
        waiting = Pending()
        waiting.renew(seen.target.places, wish.person_of)
        shut: set[int] = set()

        def stays_shut(place: Place, why: Reason) -> None:
            if why is not Reason.TORN:
                shut.add(place.file.number)

        looker = Looker(self._accounts(), wish.limits.access, wish.table, _say_nothing)
        until = time.monotonic() + SECONDS
        try:
            while len(seen.found) < FILES and texts.size < BYTES and time.monotonic() < until:
                places = waiting.take()
                if not places:
                    break
                found = mirror.look_at(looker, mirror.room, places, texts, tree, stays_shut)
                seen.found += found
        finally:
            looker.close()
        tree.nodes.update((one.node.number, one.node) for one in seen.found)
        done = shut | {one.node.number for one in seen.found}
        unread = {place.file.number for queue in waiting.queues.values() for place in queue}
        for place in seen.target.places:
            if place.file.number not in done:
                self._leave(seen, place, place.file.number in unread)

    def _leave(self, seen: Seen, place: Place, is_unread: bool) -> None:
        """A file that wasn't read: it stays as it is known, where nobody is shown more by that.

        Else it is shut.
        """
        number, tree = place.file.number, seen.target.tree
        old = self.tree.nodes.get(number)
        is_there = self.tree.entries.get(place.directory.number, {}).get(place.name) == number
        is_only = place.file.names == 1 and self.index.is_only(number, place.directory.number)
        is_narrow = place.directory not in seen.target.wider
        if old is not None and old.identity == place.file.identity:
            if is_there and is_only and is_narrow:
                tree.nodes[number] = old
                seen.again.append(Spot(place.directory.number, place.name))
                return
        if is_unread:
            seen.later.append(place)
        else:
            seen.again.append(Spot(place.directory.number, place.name))


def _names_at(place: int) -> set[bytes]:
    """The names in a directory that is open as a place. Raises `OSError`."""
    descriptor = os.open(b".", os.O_RDONLY | os.O_DIRECTORY | os.O_CLOEXEC, dir_fd=place)
    try:
        return set(map(os.fsencode, os.listdir(descriptor)))
    finally:
        os.close(descriptor)


def _say_nothing(_sentence: str, _path: bytes) -> None:
    """The next turn tells what is to be told."""
