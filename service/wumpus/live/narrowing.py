"""Takes rights away as soon as the kernel tells that they were: beside the mirror's turns.

A process reads events, and a thread looks at what they told of, and feeds what became less. All
else waits for the next walk, so nothing is shown that the walks wouldn't show. Where the kernel
can't tell, the turns are all there is.
"""

import contextlib
import sys
import threading
import time
import traceback
from collections.abc import Callable, Iterator

from ..mirror.ledger import narrowed
from ..mirror.nodes import Node, Rights, Tree
from ..mirror.planner import Planner
from ..mirror.reach import Served
from ..mirror.turn import Mirror
from ..shared.store import Failed
from . import calls
from .directories import Beside, Directories
from .emptier import WHOLE
from .events import Unreadable, told_in
from .hearing import Hearing
from .kept import ALL, Kept
from .mounting import Mounting, node_at
from .reader import Event, Gone, Reader
from .seeing import Seeing
from .settings import Counts, GroupMarks, Settings
from .waiting import Item, Waiting
from .watcher import NoWatch, Watcher

ROUND_SECONDS = 0.03  # in which is looked before what became less is fed
BETWEEN = 0.05  # seconds from one batch to the next
SAVED_AFTER = 10.0  # seconds in which what was fed is saved
UNSAVED_MOST = 200  # batches that may be unsaved; the service keeps a few more
UNSAVED_BYTES = 32 << 20  # of texts in them
OUTSIDE = -1  # the person of what is told of no known name, where others may have made it
ALONE = -2  # of what is told of a file alone, as when it has another count of names
OTHERS = 0o022  # the modes of a directory by which not its owner alone makes names in it
END_SECONDS = 5.0
WALKS_APART = 10.0  # seconds from one walk for what was lost to the next
SWITCH_SECONDS = 0.001  # that a thread waits for another one, as for a walk's, at most
ITSELF = b"."  # the name by which an event tells of a directory itself
OF_NAMES = calls.FAN_DELETE | calls.FAN_MOVED_FROM | calls.FAN_MOVED_TO


class Narrowing:
    """Begins when the mirror knows where the program stands, and goes on until `end`.

    `reach` is a connection of its own to the service. `person_of` gives whose a user's number is.
    """

    def __init__(
        self, mirror: Mirror, reach: Served, settings: Settings, person_of: Callable[[int], int]
    ) -> None:
        self.mirror = mirror
        self.feeder = mirror.feeder
        self.ledger = mirror.feeder.ledger
        self.reach = reach
        self.planner = Planner(settings.planner)  # of its own: each is asked by one thread
        self.settings = settings
        self.person_of = person_of
        self.counts = Counts()
        self.kept = Kept()  # for looks
        self.why: str | None = "it has not begun"  # why it isn't at work; None where it is
        self.failure: Exception | None = None
        self.is_lost = False  # events were: a walk has to come
        self.is_gone = False  # the process that reads events
        self.begun = threading.Event()
        self.ending = False
        self.walk_at = 0.0  # the moment before which no walk comes for what was lost
        self.reader: Reader | None = None
        self.directories: Directories | None = None
        self.mounting: Mounting | None = None
        self.waiting = Waiting()
        self.hearing = Hearing(reach)
        self.compared: Tree | None = None  # the tree whose directories are known
        self.unsaved = self.unsaved_bytes = 0
        self.unsaved_since = 0.0
        self.thread = threading.Thread(target=self._run, name="narrowing", daemon=True)

    # ---- what the mirror calls

    def begin(self) -> None:
        """Begins, with what the program has already."""
        sys.setswitchinterval(SWITCH_SECONDS)
        self._begin_reader()
        self.walk_is_fed()
        if self.reader is None:
            self.hearing.end()
        self.thread.start()

    def walk_is_fed(self) -> None:
        """The program has what a walk found. Raises `Failed`."""
        self.check()
        if self.is_gone:
            self._end_reader()
        if self.reader is None:
            self._begin_reader()
        if self.directories is None:
            return
        tree, marks = self.mirror.state.tree, self.directories.marks_made
        differing = self.directories.renew(tree)
        if self.directories.marks_made != marks:
            with self.ledger:
                self.hearing.miss()  # of what is there nothing was told until now
        self.compare([Item(number) for number in differing])
        if self.settings.is_full:
            for number in differing:
                self.kept.tell_of(number, is_whole=True)

    def compare(self, items: list[Item]) -> None:
        """Has what may be otherwise than a tree says that was fed just now looked at."""
        tree = self.mirror.state.tree
        with self.ledger:
            if self.directories is not None:
                self.directories.replaced.renew(tree)
            for item in items:
                names = tree.entries.get(item.directory, {})
                known = names.get(item.name, 0) if item.name else item.directory
                self._put(self._person_of(known), item)
            self.compared = tree
        self._wake()

    @contextlib.contextmanager
    def comparing(self) -> Iterator[None]:
        """Tells nothing of how far it is, while what is fed has yet to be compared once more."""
        with self.ledger:
            was_compared = self.compared is self.mirror.state.tree
            self.compared = None
        try:
            yield
        finally:
            with self.ledger:
                self.compared = self.mirror.state.tree if was_compared else None

    def fed_beside(self, size: int) -> None:
        """A look fed a batch that isn't saved, with so many bytes of texts. Raises `Failed`."""
        with self.ledger:
            self._count_unsaved()
            self.unsaved_bytes += size
            if self.unsaved_bytes > UNSAVED_BYTES and not self.ending:
                self._save()
        self._wake()

    def check(self) -> None:
        """Raises `Failed` where a batch did."""
        if self.failure is not None:
            raise Failed(f"what was taken away isn't fed: {self.failure}")

    def wants_walk(self) -> bool:
        """Whether a walk has to come at once, since events were lost. Raises `Failed`.

        Of one after the other the next waits a while, so that nobody has the mirror walk on and on.
        """
        self.check()
        return self.is_lost and time.monotonic() >= self.walk_at

    def takes_walk(self) -> bool:
        """The same; the walk comes now."""
        if not self.wants_walk():
            return False
        self.is_lost, self.walk_at = False, time.monotonic() + WALKS_APART
        return True

    def end(self) -> None:
        """Ends the threads, and the connection."""
        self.ending = True
        self.reach.abort()
        self._wake()
        if self.thread.is_alive():
            self.thread.join(END_SECONDS)
        self._end_reader()
        if self.mounting is not None:
            self.mounting.close()
        self.planner.close()
        self.reach.close()

    def told(self) -> dict[str, object]:
        """What the status file has of it."""
        bad = {} if self.directories is None else self.directories.bad
        unmarked = [
            {"path": path.decode("utf-8", "surrogateescape"), "why": why}
            for path, why in list(bad.values())
        ]
        return {
            "why": self.why,
            "unmarked": unmarked,
            "narrowed": self.counts.narrowed,
            "batches": self.counts.batches,
            "lost": self.counts.lost,
        }

    # ---- beginning and end of the events

    def _begin_reader(self) -> None:
        """Asks for a group; where none can be had the turns are all there is."""
        watcher = Watcher(self.settings.watch)
        try:
            calls.check_open_here()
            group = watcher.group()
        except (NoWatch, OSError) as error:
            self.why = f"the kernel doesn't tell of changes: {error}"
            return
        marks = GroupMarks(watcher, group, self.settings.is_full)
        self.directories = Directories(marks, self.settings.roots)
        self.compared = None
        self.mounting = self.mounting or Mounting(self.settings.roots)
        self.reader = Reader(group, self.mounting.descriptor)
        self.reader.is_mounted = True
        self.why, self.is_gone = None, False
        self.begun.set()

    def _end_reader(self) -> None:
        with self.ledger:
            reader, self.reader = self.reader, None
            directories, self.directories = self.directories, None
        if reader is not None:
            reader.end()
        if directories is not None:
            directories.close()

    # ---- the thread

    def _wake(self) -> None:
        """Has the thread look whether there is something to do."""
        self.begun.set()
        if self.reader is not None:
            self.reader.wake()

    def _run(self) -> None:
        try:
            while not self.ending:
                self._step(*self._wait())
        except Exception as error:
            if not isinstance(error, Failed) and not self.ending:
                traceback.print_exc()
            self.failure = error

    def _wait(self) -> tuple[list[Event], int, int]:
        """Waits for events, or until something is due: what came, what was lost, until when.

        Raises `Failed`.
        """
        self.begun.clear()
        reader = self.reader
        if reader is None or self.is_gone:
            self.begun.wait(SAVED_AFTER)
            return [], 0, 0
        due = self.waiting.seconds()
        if self.unsaved:
            save = max(0.0, self.unsaved_since + SAVED_AFTER - time.monotonic())
            due = save if due is None else min(due, save)
        try:
            return reader.take(due)
        except Gone as error:
            self.is_gone, self.is_lost, self.why = True, True, str(error)
            with self.ledger:  # a look may be feeding by the same connection
                self.hearing.end()
            return [], 0, 0

    def _step(self, events: list[Event], flags: int, until: int) -> None:
        """Sorts what came, and looks at some of it. Raises `Failed`."""
        fed = False
        with self.ledger:
            directories = self.directories
            if directories is None or not self.mirror.state.serial or self.ending:
                self.waiting = Waiting()
            else:
                self._count_lost(flags)
                self._look_at_mounts()
                self._sort(events, directories)
                self.hearing.until = until or self.hearing.until
                fed = self._round(directories)
                if self.compared is self.mirror.state.tree:
                    self.hearing.tell(self.waiting.since())
            late = time.monotonic() - self.unsaved_since >= SAVED_AFTER
            if self.unsaved and (late or self.unsaved >= UNSAVED_MOST) and not self.ending:
                self._save()
        if fed:
            time.sleep(BETWEEN)
        self.waiting.tidy()

    def _save(self) -> None:
        """Saves what was fed. Under the lock. Raises `Failed`."""
        self.feeder.save_taken(self.reach)
        self.unsaved = self.unsaved_bytes = 0

    def _count_lost(self, flags: int) -> None:
        if flags:
            self._lose()
            self.counts.lost += 1

    def _look_at_mounts(self) -> None:
        """Where something was mounted or unmounted, what was there is looked at, and a walk comes.

        No user can have walks come by mounts of her own. Under the lock.
        """
        reader, mounting = self.reader, self.mounting
        if reader is None or mounting is None or not reader.is_mounted:
            return
        reader.is_mounted = False
        for mount in mounting.changes():
            number = node_at(self.mirror.state.tree, mount.place)
            if number is not None:
                self._put(self._person_of(number), Item(number))
            if mounting.needs_walk(mount):
                self._lose()

    def _lose(self) -> None:
        """Of something nothing is known: a walk has to come."""
        self.is_lost = True
        self.hearing.miss()

    def _sort(self, events: list[Event], directories: Directories) -> None:
        """Has all that came wait, each for the person whose it is. Under the lock."""
        tree = self.mirror.state.tree
        for what, bytes_ in events:
            try:
                key, name, file = told_in(bytes_)
            except Unreadable:
                continue
            if self.settings.is_full:
                self.kept.tell(key, name, file)
                if what & WHOLE:
                    self.kept.tell(key, ALL, b"")
            if not what & calls.LESS:
                continue
            directory = directories.number_of(key)
            names = tree.entries.get(directory, {}) if directory is not None else {}
            known = directory if name == ITSELF else names.get(name)
            person = self.whose(directory, known) if key else ALONE
            if directory is not None and name == ITSELF:
                self._put(person, Item(directory))
            elif what & OF_NAMES and name in names:
                self._put(person, Item(directory or 0, name))
            if what & calls.FAN_ATTRIB and file:
                self._put(person, Item(file=file))

    def _put(self, person: int, item: Item) -> None:
        """Has something wait. Where there is no room for it, a walk has to come.

        What is told of a file alone is told of its count of names, by which nobody has less.
        """
        if not self.waiting.put(person, item, self.hearing.until) and person != ALONE:
            self.counts.lost += not self.is_lost
            self._lose()

    def whose(self, directory: int | None, known: int | None) -> int:
        """The person to whom an event counts: the owner of the known node, or of the directory.

        Where others may make names in a directory its owner mustn't wait for them.
        """
        if known is not None:
            return self._person_of(known)
        node = None if directory is None else self.mirror.state.tree.nodes.get(directory)
        if node is None or not node.changed or node.rights.mode & OTHERS:
            return OUTSIDE
        return self.person_of(node.rights.owner)

    def _person_of(self, number: int) -> int:
        node = self.mirror.state.tree.nodes.get(number)
        return OUTSIDE if node is None else self.person_of(node.rights.owner)

    def _round(self, directories: Directories) -> bool:
        """Looks at some of what waits, and feeds what became less: whether something did.

        Under the lock. Raises `Failed`.
        """
        tree = self.mirror.state.tree
        until = time.monotonic() + ROUND_SECONDS
        beside = Beside(directories)
        seeing = Seeing(directories, tree, self.settings.access, beside)
        found: dict[int, Node] = {}
        persons: set[int] = set()
        try:
            while time.monotonic() < until and (taken := self.waiting.take()) is not None:
                person, item = taken
                for number, rights in seeing.look(item):
                    if self._see(number, rights, found):
                        persons.add(person)
        finally:
            beside.close()
        if directories.is_unreached:
            directories.is_unreached = False
            self._lose()
        if not found:
            return False
        self.feeder.take_away(list(found.values()), self.reach, self.planner)
        for person in persons:
            self.waiting.charge(person)
        self._count(len(found))
        return True

    def _see(self, number: int, rights: Rights, found: dict[int, Node]) -> bool:
        """Remembers what was seen of a node, and what it may still give: whether that is less."""
        self.ledger.see(number, rights)
        before = found.get(number) or self.mirror.state.tree.nodes[number]
        after = narrowed(before, rights)
        if after is not before:
            found[number] = after
            if self.settings.is_full:
                self.kept.tell_of(number)
        return after is not before

    def _count(self, nodes: int) -> None:
        self.counts.narrowed += nodes
        self.counts.batches += 1
        self._count_unsaved()

    def _count_unsaved(self) -> None:
        if not self.unsaved:
            self.unsaved_since = time.monotonic()
        self.unsaved += 1
