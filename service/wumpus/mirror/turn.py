"""The mirror: makes the program's tree what the real one is, turn by turn.

A turn is a walk; one batch of names and rights, in which all that has to be looked at is shut; and
then looks at files, in slices between which the next walk may come. So what is taken away waits
for no text. Where no file is left to be looked at, texts of documents are fed as they are made, and
else for a while after each slice.
"""

import math
import shutil
import sys
import time
from collections import Counter
from collections.abc import Callable, Container
from dataclasses import dataclass, field, replace
from pathlib import Path
from typing import BinaryIO

from ..extract.kinds import Table
from ..shared import clock
from ..shared.progress import Progress
from ..shared.script import NUMBER_MAX
from .batch import Texts
from .budget import Accounts, Budget
from .changes import Groups
from .documents import Documents
from .due import Due
from .feed import Feeder
from .limits import BadRoot, Limits, NotNarrow
from .look import Looked, Looker
from .making import Making
from .narrow import NarrowTarget, part_of
from .nodes import Node, Tree
from .pending import FIRST, Pending, Place
from .planner import Planner
from .reach import NoMemory, Reach
from .reasons import Reason
from .remarks import Remarks
from .room import Room
from .state import State
from .target import Target
from .walk import Walk
from .way import Ways

SLICE_SECONDS = 20.0
DOCUMENT_SECONDS = 5.0  # after which texts of documents are fed
BETWEEN_SHARE = 0.1  # of a slice's time, for them after it, where more files wait to be looked at
BETWEEN_LEAST = 0.1  # seconds of that
PULSE_SECONDS = 1.0  # that one of them is waited for at once
FEED_SECONDS = 2.0  # that a batch of texts is to take, for which queries wait, and the next walk
SLICE_BYTES = 16 << 20  # of texts in a batch at most
SLICE_BYTES_FIRST = 4 << 20  # as long as it isn't known how fast the program is
SLICE_BYTES_LEAST = 1 << 20
FIRST_BYTES = 64 << 20  # of texts in a batch, as long as nobody is answered


@dataclass(frozen=True)
class Wish:
    """What is to be mirrored: the roots, what is left out of them, the users, and the bounds.

    With `force` what is held is taken as it was found. What is at or below the paths of `first` is
    looked at before all else. The table tells which files are documents.
    """

    roots: tuple[bytes, ...]
    limits: Limits
    users: Groups
    budget: Budget = Budget()
    person_of: Callable[[int], int] = int
    force: bool = False
    first: tuple[bytes, ...] = ()
    table: Table = Table(())


@dataclass(slots=True)
class Report:
    """What a turn did."""

    files: int = 0
    looked: int = 0
    texts: int = 0
    size: int = 0
    batches: int = 0
    shut: int = 0
    documents: int = 0  # whose text was made
    failed: Counter[str] = field(default_factory=Counter)  # documents, by why they have no text
    missing: list[str] = field(default_factory=list)  # roots that aren't there, and why
    held: list[str] = field(default_factory=list)  # what waits for --force, and why


@dataclass(slots=True)
class Walked:
    """The last walk that was fed whole: moments in seconds of the epoch."""

    began: float | None = None
    seconds: float = 0.0
    names: int = 0
    fed: float | None = None


class Mirror:
    """Walks, feeds and looks. `pending` has what waits, and `remarks` what is shut, and why.

    `pulse` is called as often as something got on, and `walk_is_fed` after each walk. `planner` orders
    each batch.
    """

    def __init__(
        self,
        reach: Reach,
        folder: Path,
        progress: Progress,
        pulse: Callable[[], None] = lambda: None,
        planner: Planner | None = None,
        documents: Documents | None = None,
    ) -> None:
        self.feeder = Feeder(reach, folder, progress, planner or Planner())
        self.reach = reach
        self.folder = folder
        self.progress = progress
        self.pulse = pulse
        self.walk_is_fed: Callable[[], None] = lambda: None
        self.pending = Pending()
        self.documents = Documents(None) if documents is None else documents
        self.remarks = Remarks(progress.warn_of)
        self.report = Report()
        self.walked = Walked()
        self.accounts = Accounts(Budget(), int)  # of the looks since the last walk
        self.whole: Wish | None = None  # what was walked whole by the last walk
        self.room: Room | None = None
        self.is_done = False  # the program was told that all was fed once
        self.slice_bytes = SLICE_BYTES_FIRST  # as many as are fed in the time of a batch
        self.most = sys.maxsize  # files in a batch: less, where the program has no memory for more

    @property
    def state(self) -> State:
        """What the program has."""
        return self.feeder.state

    def begin(self, anew: bool, dry: bool = False) -> None:
        """Finds out where the program stands. Raises `Failed`, and `BadState`."""
        self.feeder.begin(anew, dry)

    def turn(self, wish: Wish) -> Report:
        """A walk, and looks at all that it found to look at."""
        self.walk(wish)
        while self.look(wish, SLICE_SECONDS):
            pass
        return self.report

    def rest(self) -> None:
        """What is there to be done at the end of a turn."""
        if self.state.complete:
            self.reach.done()

    def _be_complete(self) -> None:
        """Tells when all that was there at first was looked at once."""
        if not self.state.complete and not self.pending.waits_since(FIRST):
            self.state.complete = True
            self.feeder.save()
        if self.state.complete and not self.is_done:
            self.is_done = True
            self.reach.done()

    def _count(self) -> None:
        self.report.batches = self.feeder.batches
        self.report.shut = self.remarks.count

    # ---- names and rights

    def walk(self, wish: Wish) -> None:
        """Walks, and feeds names and rights: what has to be looked at is shut, and waits.

        Raises `BadRoot`, and `Failed`.
        """
        self.feeder.ledger.begin()
        began, moment = time.time(), clock.moment()
        unlisted = wish.limits.access.unlisted
        if self.state.unlisted != unlisted:
            self.state.forget_directories()
        target = self._target(wish)
        seconds = (clock.moment() - moment) / 1000
        self.feeder.feed_tree(target.tree, wish.users, target.following, unlisted)
        self.walk_is_fed()
        self.reach.fed(moment)
        self.walked = Walked(began, seconds, target.names, time.time())
        self.whole = replace(wish, force=False, first=())
        self.pulse()
        self.pending.renew(target.places, wish.person_of)
        self.pending.prefer(wish.first)
        self.documents.queue.renew(target.due, self.state.tree.nodes, wish.person_of)
        self._end_sorting(self.state.unsorted - self.state.tree.nodes.keys())
        self.accounts = Accounts(wish.budget, wish.person_of)
        self.room = None
        self._count()
        self._be_complete()

    def narrow(self, wish: Wish) -> bool:
        """Walks what is at or below the paths of `first` alone, and feeds that, as `walk` does.

        All else stays as it is known, and waits where it waited; of a walk nothing is told. False
        where all has to be walked: then nothing was done. Raises `Failed`.
        """
        if self.whole != replace(wish, first=()):
            return False
        self.feeder.ledger.begin()
        remarks = Remarks(self.progress.warn_of)
        accounts = Accounts(wish.budget, wish.person_of)
        accounts.reserve(self.state.tree)
        try:
            part = part_of(wish.first, wish.roots, self.state.tree)
            walk = Walk(self.state.tree, wish.limits, accounts, remarks, self._seen)
            top = walk.walk_to(part.place)
            target = NarrowTarget(self.state, walk, top, remarks, self.pending.since, part)
        except (NotNarrow, BadRoot):
            return False
        if target.hold():
            return False
        unlisted = wish.limits.access.unlisted
        self.feeder.feed_tree(target.tree, wish.users, target.following, unlisted)
        self.walk_is_fed()
        self.pulse()
        waiting = list(self.pending.staying(target.tree, target.places, part.inside))
        self.pending.renew([*target.places, *waiting], wish.person_of)
        self.pending.prefer(wish.first)
        self._count()
        self._be_complete()
        return True

    def _target(self, wish: Wish) -> Target:
        """What a walk finds."""
        self.progress.next_turn()
        self.remarks = Remarks(self.progress.warn_of)
        self.report = Report()
        self.feeder.batches = 0
        accounts = Accounts(wish.budget, wish.person_of)
        accounts.reserve(self.state.tree)
        state = self.state
        state.sort_by(wish.table.known)
        self.documents.ask(wish.table)
        walk = Walk(
            state.tree, wish.limits, accounts, self.remarks, self._seen, wish.force, state.unsorted
        )
        top = walk.walk(wish.roots)
        self.documents.settle()
        is_due = self.documents.is_due
        target = Target(state, walk, top, self.remarks, self._waiting(wish), is_due=is_due)
        self.report.missing = list(walk.missing.values())
        self.report.held = list(walk.held.values())
        if not wish.force and (count := target.hold()):
            self.report.held.append(f"{count} of {len(self.state.tree.nodes)} nodes are gone")
        self.report.files = target.files
        return target

    def _waiting(self, wish: Wish) -> Container[int]:
        """The files that waited before this walk; all, where groups give other rights."""
        return self.pending.since if wish.users == self.state.users else range(NUMBER_MAX + 1)

    def _seen(self, count: int) -> None:
        self.progress.tell(f"{count} names seen")
        self.pulse()

    # ---- files

    def look(self, wish: Wish, seconds: float) -> bool:
        """Looks at files for so long, and feeds what was seen: whether more is to be looked at."""
        if self.pending.turns:
            began = time.monotonic()
            texts = Texts(self.folder)
            self.feeder.ledger.begin()
            try:
                limit = self.slice_bytes if self.state.complete else FIRST_BYTES
                taken = self._take(wish, time.monotonic() + seconds, texts, limit)
                if taken:
                    self._feed(wish, taken, texts)
            finally:
                texts.close()
                self.progress.clear()
            self._count()
            self._be_complete()
            # Who changes files without end would else keep all documents waiting as long.
            if self.pending.turns and self.state.complete:
                spent = time.monotonic() - began
                self._make_some(wish, max(BETWEEN_LEAST, BETWEEN_SHARE * spent))
        else:
            self._make_some(wish, min(seconds, DOCUMENT_SECONDS))
        return bool(self.pending.turns) or self.documents.has_work(wish.budget.documents)

    def _take(self, wish: Wish, until: float, texts: Texts, limit: float) -> list[Looked]:
        """Looks at files, of each person some in turn, until time is over or a batch is full."""
        if self.room is None:
            self.room = Room(self.folder, wish.budget, self.state.tree, wish.person_of)
        looker = Looker(self.accounts, wish.limits.access, wish.table, self.progress.warn_of)
        taken: list[Looked] = []
        try:
            while time.monotonic() < until and texts.size < limit and len(taken) < self.most:
                places = self.pending.take(self.most - len(taken))
                if not places:
                    break
                owner = places[0].file.owner
                found = self.look_at(looker, self.room, places, texts, self.state.tree, self.shut)
                self.note_documents(found, wish.person_of(owner))
                taken += found
                if self.state.complete and self.accounts.of_owner(owner).seconds <= 0:
                    self.pending.set_aside(wish.person_of(owner))
                done, left = self.report.looked, self.pending.files
                sent = self.report.size + texts.text_bytes
                self.progress.tell(f"{done} files looked at, {left} left, {sent >> 20} MiB")
                self.pulse()
        finally:
            looker.close()
        return taken

    def look_at(
        self,
        looker: Looker,
        room: Room,
        places: list[Place],
        texts: Texts,
        tree: Tree,
        shut: Callable[[Place, Reason], None],
    ) -> list[Looked]:
        """Looks at some files of one person: those that are to be fed. Their texts are gathered.

        The tree has them as they are known, and `shut` is called with those that stay shut.
        """
        nodes = tree.nodes
        waiting = []
        for place in places:
            self.report.looked += 1
            self.pending.is_done(place.file.number)
            before = nodes[place.file.number]
            is_new = place.file.known is None
            if is_new and room.is_exceeded(before, place.file.owner, place.text_bytes):
                shut(place, Reason.BYTES)
            else:
                waiting.append(place)
        taken = []
        for found in looker.look(waiting):
            place, before = found.place, nodes[found.place.file.number]
            if not isinstance(found, Looked):
                if place.file.known is None:
                    shut(place, found.why)
                elif found.why is not Reason.TORN:
                    self._end_sorting({before.number})
                continue
            node = self._listed(place, found.node, shut)
            if node.origin is not None and node.origin.is_same(before.origin):
                node.digest, node.origin = before.digest, before.origin
            if node.digest != before.digest:
                if node.digest and room.is_exceeded(before, node.rights.owner, node.size):
                    shut(place, Reason.BYTES)
                    continue
                if room.is_short(len(found.text) + texts.size):
                    shut(place, Reason.DISK)
                    continue
                texts.add(node.number, found.text)
                room.count(before, node)
            taken.append(Looked(place, node, b""))
        return taken

    def _listed(self, place: Place, node: Node, shut: Callable[[Place, Reason], None]) -> Node:
        """The same, or shut and to be looked at again where the program knows no lists."""
        if node.rights.entries and not self.state.lists:
            shut(place, Reason.LIST)
            node.rights, node.changed = node.rights.shut(), 0
        return node

    def shut(self, place: Place, why: Reason) -> None:
        """Tells that a file stays shut."""
        self.remarks.shut(why, place.file.owner, place.directory, place.name)

    # ---- documents

    def note_documents(self, taken: list[Looked], person: int) -> None:
        """Has text made of those documents among a person's files that were looked at."""
        for found in taken:
            if self.documents.is_due(found.node):
                place = found.place
                due = Due(place.directory, place.name, found.node.number)
                self.documents.queue.add(due, person)

    def _end_sorting(self, numbers: set[int]) -> None:
        """Of which kind these are is known by now, and was fed."""
        unsorted = self.state.unsorted
        if unsorted:
            unsorted -= numbers
            if not unsorted:
                self.feeder.save()

    def _make_some(self, wish: Wish, seconds: float) -> None:
        """Has text of documents made for so long, if any is due, and feeds what was made."""
        if not self.documents.has_work(wish.budget.documents):
            return
        self.feeder.ledger.begin()
        texts = Texts(self.folder)
        try:
            made = self._made(wish, time.monotonic() + seconds, texts)
            if made:
                self._feed_made(made, texts)
        finally:
            self.documents.unfed.clear()
            texts.close()
            self.progress.clear()
        self._count()

    def _made(self, wish: Wish, until: float, texts: Texts) -> list[Node]:
        """The documents whose text was made, until time is over, a batch is full or none is due."""
        if self.room is None:
            self.room = Room(self.folder, wish.budget, self.state.tree, wish.person_of)
        making = Making(self.documents, self.state.tree.nodes, self.room, texts, self.progress)
        ways = Ways(self.accounts, wish.limits.access)
        try:
            while time.monotonic() < until and texts.size < self.slice_bytes:
                seconds = min(until - time.monotonic(), PULSE_SECONDS)
                if not making.go_on(ways, wish.budget.documents, seconds):
                    break
                self.pulse()
        finally:
            ways.close()
        self.report.documents += making.count
        self.report.failed += making.failed
        return making.made

    def _feed_made(self, made: list[Node], texts: Texts) -> None:
        """Feeds what was made; where the program has no memory for that, it comes again later."""
        try:
            self.feeder.feed_texts(made, texts)
        except NoMemory:
            self.room = None
            for node in made:
                self.documents.queue.put_off(node.number)
            return
        self._count_fed(texts)

    def _count_fed(self, texts: Texts) -> None:
        self.pulse()
        self.report.texts += texts.count
        self.report.size += texts.text_bytes

    # ---- what was seen

    def _feed(self, wish: Wish, taken: list[Looked], texts: Texts) -> None:
        """Feeds what was seen; where the program has no memory for that, less comes next."""
        began = time.monotonic()
        try:
            self.feeder.feed_texts([found.node for found in taken], texts)
        except NoMemory:
            self.room = None
            if len(taken) == 1:
                self.shut(taken[0].place, Reason.MEMORY)
                return
            self.most = len(taken) // 2
            self.pending.put_back([found.place for found in taken], wish.person_of)
            return
        self._count_fed(texts)
        self._end_sorting({found.node.number for found in taken})
        self.most = min(sys.maxsize, 2 * self.most)
        if texts.count:
            rate = texts.size / max(1e-3, time.monotonic() - began)
            self.slice_bytes = int(min(SLICE_BYTES, max(SLICE_BYTES_LEAST, FEED_SECONDS * rate)))

    # ---- a dry run

    def dry_run(self, wish: Wish, out: BinaryIO) -> None:
        """Writes the lines and texts that a turn would feed, and feeds nothing."""
        old, target = self.state.tree, self._target(wish)
        nodes = target.tree.nodes
        self.feeder.state = replace(self.state, tree=target.tree, complete=False, unsorted=set())
        self.pending.renew(target.places, wish.person_of)
        self.documents.queue.renew(target.due, nodes, wish.person_of)
        texts = Texts(self.folder)
        try:
            found = self._take(wish, math.inf, texts, math.inf)
            nodes.update((one.node.number, one.node) for one in found)
            while self.documents.has_work(wish.budget.documents):
                made = self._made(wish, math.inf, texts)
                nodes.update((node.number, node) for node in made)
            planner = self.feeder.planner
            plan = planner.plan(old, target.tree, self.state.users, wish.users)
            out.writelines(plan.head)
            texts.file.seek(0)
            shutil.copyfileobj(texts.file, out, 1 << 20)
            out.writelines(plan.tail)
            out.flush()
        finally:
            texts.close()
            self.progress.clear()
