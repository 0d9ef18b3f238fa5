"""Looks at what the kernel told of, between the mirror's turns: what changed is answered at once.

What was told is understood between two looks alone, when all that was read is taken in. What a look
can't do, or what there is no room for, is left to the turns.
"""

import os
import time
from dataclasses import dataclass

from ..mirror.batch import Texts
from ..mirror.limits import BadRoot, NotNarrow, names_of
from ..mirror.nodes import Tree, identity_of
from ..mirror.reach import NoMemory
from ..mirror.state import Addition
from ..mirror.turn import Mirror
from .directories import Beside, Directories
from .dirty import Dirty, Spot
from .index import Index
from .kept import ALL, Times
from .look import Again, Look, Seen
from .narrowing import ITSELF, OUTSIDE, Narrowing
from .part import TooLarge
from .waiting import Item

NOT_OURS = 20_000  # handles of files that aren't mirrored, that are remembered
BY_ROOT = -(1 << 33)  # and less: a line for each directory of root's in which others make names
GATHER = 0.02  # seconds in which more is waited for, once something came


@dataclass
class Counts:
    """What was done since the mirror began."""

    looks: int = 0
    failed: int = 0
    longest: float = 0.0  # seconds of a look


class Looks:
    """Looks, in the thread of the turns: `go_on` does them, or waits for something to do."""

    def __init__(self, mirror: Mirror, narrowing: Narrowing) -> None:
        self.mirror = mirror
        self.narrowing = narrowing
        self.kept = narrowing.kept
        self.dirty = Dirty()
        self.index = Index()
        self.above: set[int] = set()  # the directories above the roots
        self.is_nested = False  # a root is below another one
        self.not_ours: set[bytes] = set()
        self.counts = Counts()
        self.directories: Directories | None = None

    # ---- what the mirror calls

    def walk_is_fed(self) -> None:
        """The program has what a walk found. Raises `Failed`."""
        self.narrowing.walk_is_fed()
        self.directories = self.narrowing.directories
        tree = self.mirror.state.tree
        self.index.renew(tree)
        self.not_ours.clear()
        if self.directories is not None:
            self.above = self.directories.ways(tree)
        ways = sorted(names_of(root) for root in self.narrowing.settings.roots)
        self.is_nested = any(one == other[: len(one)] for one, other in zip(ways, ways[1:]))

    def go_on(self, seconds: float, waits: bool = True) -> None:
        """Looks at what is dirty, for so long; where that is wanted it waits for something to do.

        It ends before, where a look left something to the mirror, or a walk has to come. Raises
        `Failed`.
        """
        until = time.monotonic() + seconds
        while (left := until - time.monotonic()) > 0:
            self._understand()
            taken = self.dirty.take() if self._may_look() else None
            if taken is not None:
                self._look(*taken)
            elif not waits:
                return
            else:
                due = self.dirty.seconds()
                if self.kept.came.wait(left if due is None else min(left, due)):
                    time.sleep(min(left, GATHER))
            if self.mirror.pending.turns or self.narrowing.wants_walk():
                return
        self.dirty.tidy()

    def _may_look(self) -> bool:
        """Whether all was walked, and all that was there at first was looked at once."""
        return self.mirror.whole is not None and self.mirror.state.complete

    def told(self) -> dict[str, object]:
        """What the status file has of it."""
        counts = self.counts
        return {
            "looks": counts.looks,
            "failed": counts.failed,
            "longest": counts.longest,
            "left": self.dirty.left,
        }

    # ---- what was told

    def _understand(self) -> None:
        """Makes spots of what the kernel told."""
        batch = self.kept.take()
        directories = self.directories
        if directories is None:
            return
        self.dirty.left += batch.is_short
        for number, times in batch.whole.items():
            self._put(Spot(number, is_whole=True), times)
        for number, times in batch.nodes.items():
            self._put_node(number, times)
        beside = Beside(directories)
        try:
            for key, names in batch.names.items():
                directory = directories.number_of(key)
                for (name, file), times in names.items():
                    if directory is not None:
                        self._put(_spot(directory, name), times)
                    if file:
                        self._put_file(directory, name, file, times, beside)
        finally:
            beside.close()

    def _put_file(
        self, directory: int | None, name: bytes, file: bytes, times: Times, beside: Beside
    ) -> None:
        """Has a file looked at where it is known: the name is but a hint."""
        if directory is None and file in self.not_ours:
            return
        number = self._number_at(file, beside)
        if number is not None:
            names = self.mirror.state.tree.entries.get(directory or 0, {})
            is_there = directory is not None and names.get(name) == number
            if not is_there or not self.index.is_only(number, directory or 0):
                self._put_node(number, times)
        elif directory is None and len(self.not_ours) < NOT_OURS:
            self.not_ours.add(file)

    def _number_at(self, file: bytes, beside: Beside) -> int | None:
        """The node that is the file with this handle; None where it is none, or is gone."""
        try:
            descriptor = beside.open(file)
        except OSError:
            return None
        if descriptor is None or self.directories is None:
            return None
        try:
            return self.directories.by_identity.get(identity_of(os.fstat(descriptor)))
        finally:
            os.close(descriptor)

    def _put_node(self, number: int, times: Times) -> None:
        """Has a node looked at, at all its places."""
        tree = self.mirror.state.tree
        if number in tree.entries:
            self._put(Spot(number), times)
            return
        for directory, name in self.index.places_of(number):
            self._put(Spot(directory, name), times)

    def _put(self, spot: Spot, times: Times) -> None:
        if spot.directory in self.mirror.state.tree.entries:
            self.dirty.put(self.person_of(spot), spot, times)

    def person_of(self, spot: Spot) -> int:
        """The person whose a spot is. Where others make names, too, it is a line of its own: of
        each owner of such directories, and of each directory of root's."""
        names = self.mirror.state.tree.entries.get(spot.directory, {})
        known = names.get(spot.name) if spot.name else spot.directory
        person = self.narrowing.whose(spot.directory, known)
        if person != OUTSIDE:
            return person
        owner = self.mirror.state.tree.nodes[spot.directory].rights.owner
        return OUTSIDE - 1 - owner if owner else BY_ROOT - spot.directory

    # ---- a look

    def _look(self, person: int, spots: list[Spot]) -> None:
        """Looks at some spots, and counts what that took. Raises `Failed`."""
        began = time.monotonic()
        self.counts.looks += 1
        again: list[Spot] = []
        try:
            again = self._looked(spots)
        except (Again, NotNarrow, TooLarge, BadRoot, NoMemory) as error:
            self.mirror.room = None
            self.counts.failed += 1
            is_final = isinstance(error, NotNarrow | TooLarge | NoMemory)
            self.dirty.failed(person, time.monotonic() - began, is_final)
            return
        spent = time.monotonic() - began
        self.counts.longest = max(self.counts.longest, spent)
        self.dirty.is_done(person, spent)
        for spot in again:
            self.dirty.again(person, spot)
        self.mirror.pulse()

    def _looked(self, spots: list[Spot]) -> list[Spot]:
        """Looks at some spots, and feeds what was seen: what is to be looked at again.

        Raises `Again`, `NotNarrow`, `TooLarge`, `BadRoot`, `NoMemory`, and `Failed`.
        """
        mirror, wish, directories = self.mirror, self.mirror.whole, self.directories
        if wish is None or directories is None:
            return []
        if self.is_nested:
            raise TooLarge
        mirror.feeder.ledger.begin()
        look = Look(mirror, wish, directories, self.index, self.above)
        seen = look.see(spots)
        if seen is None:
            return []
        texts = Texts(mirror.folder)
        try:
            look.read(seen, texts)
            self._feed(seen, texts)
        finally:
            texts.close()
        for found in seen.found:
            spot = Spot(found.place.directory.number, found.place.name)
            self.dirty.looked_at(spot, found.node.size)
        return seen.again

    def _feed(self, seen: Seen, texts: Texts) -> None:
        """Feeds what was seen, and takes in what is new. Raises `NoMemory`, and `Failed`."""
        mirror, before, after = self.mirror, seen.before, seen.target.tree
        follower = Follower(self)
        with self.narrowing.comparing():
            is_fed = mirror.feeder.feed_part(
                before, after, seen.target.following, texts, self.narrowing.reach, follower
            )
            if is_fed:
                self.narrowing.fed_beside(texts.size)
            self._take_in(seen, follower)
        wish = mirror.whole
        if wish is not None and (seen.later or mirror.pending.files):
            tree, found = mirror.state.tree, seen.target.places
            waiting = mirror.pending.staying(tree, found, seen.inside)
            mirror.pending.renew([*seen.later, *waiting], wish.person_of)
        if wish is not None:
            for one in seen.found:
                mirror.note_documents([one], wish.person_of(one.node.rights.owner))

    def _take_in(self, seen: Seen, follower: "Follower") -> None:
        """Has all that is new, or elsewhere, compared once more: it may be otherwise by now."""
        directories, tree = self.directories, self.mirror.state.tree
        if directories is None:
            return
        differing = directories.take_in(tree, seen.inside)
        items = [Item(number) for number in {*differing, *follower.moved}]
        items += [Item(*place) for place in follower.names]
        if items:
            self.not_ours.clear()
            self.narrowing.compare(items)
        for number in differing:
            self.kept.tell_of(number, is_whole=True)


class Follower:
    """Keeps what is known of the tree as it is, and remembers what came to be where it wasn't.

    `names` has each name that leads to another file now, and `moved` each directory elsewhere.
    """

    def __init__(self, looks: Looks) -> None:
        self.looks = looks
        self.moved: list[int] = []
        self.names: list[tuple[int, bytes]] = []
        self.other: set[int] = set()  # numbers of nodes that are other files now

    def failed(self) -> None:
        """The batch isn't in the program: what the kernel told until now has to be found by a walk,
        or nobody would be answered."""
        self.looks.narrowing.hearing.miss()

    def is_less(self, number: int) -> None:
        """A node is given less than was seen: it is looked at again."""
        self.looks.kept.tell_of(number)

    def takes_away(self, tree: Tree, addition: Addition) -> None:
        """The tree is about to be changed."""
        looks = self.looks
        looks.index.takes_away(tree, addition)
        if looks.directories is not None:
            looks.directories.takes_away(tree, addition)
        for node in addition.nodes:
            before = tree.nodes.get(node.number)
            if before is not None and before.identity != node.identity:
                self.other.add(node.number)

    def adds(self, tree: Tree, addition: Addition) -> None:
        """It was changed."""
        looks = self.looks
        looks.index.adds(tree, addition)
        if looks.directories is not None:
            looks.directories.adds(tree, addition)
        for directory, name, number in addition.names:
            if number in tree.entries:
                self.moved.append(number)
            elif number:
                self.names.append((directory, name))
        for number in self.other:
            self.names += looks.index.places_of(number)


def _spot(directory: int, name: bytes) -> Spot:
    """What is to be looked at where something happened to a name."""
    if name == ITSELF:
        return Spot(directory)
    return Spot(directory, is_whole=True) if name == ALL else Spot(directory, name)
