"""The command line of `wumpus-mirror`."""

import argparse
import contextlib
import gc
import math
import os
import resource
import signal
import sys
import time
import traceback
from collections.abc import Callable, Iterator
from dataclasses import replace
from pathlib import Path
from types import FrameType

from .. import VERSION
from ..extract.client import Extractor
from ..extract.kinds import TABLE, BadTable, Table, table_here
from ..extract.packets import SOCKET
from ..live.looks import Looks
from ..live.narrowing import Narrowing
from ..live.setup import add_live, beside
from ..shared.notify import notify
from ..shared.numbers import count, seconds
from ..shared.persons import Persons
from ..shared.privileges import become_owner_of
from ..shared.progress import Progress, plain
from ..shared.store import CONTROL, FOLDER, SOCKETS, Busy, Failed, check_own, only_one
from .access import Access
from .budget import Budget
from .changes import Groups
from .documents import Documents
from .nodes import Identity, identity_of, unmade
from .planner import PROGRAM, Planner
from .reach import Direct, Served, Unanswered
from .state import BadState
from .status import StatusFile
from .turn import SLICE_SECONDS, Mirror, Report, Wish
from .users import BadUsers, SystemUsers, of_file
from .limits import BadRoot, Limits
from .wanted import Wanted, take_wanted, want

SOON = 2.0  # seconds after which what failed is tried again
TOLD_AGAIN = 60.0  # seconds after which the same failure is told again
SLICE_AT_LEAST = 1.0  # seconds
LOOKS_BETWEEN = 0.5  # seconds of looks at what the kernel told of, between two slices
LOOKED_FOR_WANTED = 1.0  # seconds between two looks for what an administrator asks
DESCRIPTORS = 4096
STARTING = "starting"  # what the mirror does before its first walk


class Unfinished(Exception):
    """A turn was fed, but something that was asked for is missing, or is held."""


FAILURES = (Failed, BadRoot, BadState, BadUsers, Unfinished, OSError)


def parser() -> argparse.ArgumentParser:
    """The options."""
    options = argparse.ArgumentParser(
        prog="wumpus-mirror",
        description="Feeds real directory trees to Wumpus: what changed since the last time.",
        allow_abbrev=False,
    )
    add = options.add_argument
    add("roots", nargs="*", metavar="ROOT", help="a directory to mirror with all below it")
    add("--folder", default=FOLDER, metavar="DIR", help=f"the folder of the store ({FOLDER})")
    add("--program", default="wumpus", metavar="PATH", help="the program (wumpus)")
    add("--planner", default=PROGRAM, metavar="PATH", help=f"it orders batches ({PROGRAM})")
    add("--sockets", default=SOCKETS, metavar="DIR", help=f"of the service ({SOCKETS})")
    add("--exclude", action="append", default=[], metavar="PATTERN",
        help="leave out names that fit, or with a / paths; may be given again")  # fmt: skip
    add("--exclude-from", metavar="FILE", help="patterns of a file, one a line, # begins a comment")
    add("--one-file-system", action="store_true", help="stay on the file system of each root")
    add("--unlisted", action="store_true", help="show also what only who knows its name may open")
    add("--documents", default=str(TABLE), metavar="FILE",
        help=f"the table of kinds of documents ({TABLE})")  # fmt: skip
    add("--extract", default=SOCKET, metavar="PATH",
        help=f"where text of documents is made ({SOCKET})")  # fmt: skip
    add("--users", metavar="FILE", help="a user and her groups a line, in place of the system's")
    add("--served", action="store_true", help="only by a service: never run the program itself")
    add("--every", type=seconds, metavar="SECONDS", help="go on for ever, a turn so often")
    add("--now", action="append", type=absolute, default=[], metavar="PATH",
        help="look at this path at once, also where another mirror runs; may be given again")  # fmt: skip
    add("--force", action="store_true", help="take away what is held, as it was found")
    add("--anew", action="store_true", help="move the store aside, and feed all anew")
    add("--dry-run", action="store_true", help="write what would be fed, and feed nothing")
    add_budget(options)
    add_live(options)
    add("--quiet", action="store_true", help="no warnings, no progress, no report")
    add("--version", action="version", version=f"wumpus-mirror {VERSION}")
    return options


def add_budget(options: argparse.ArgumentParser) -> None:
    """The options that bound what one owner may cost."""
    add, budget = options.add_argument, Budget()
    add("--budget-names", type=count, default=budget.names, metavar="N",
        help=f"names of what one user owns ({budget.names})")  # fmt: skip
    add("--budget-directories", type=count, default=budget.directories, metavar="N",
        help=f"directories of one user ({budget.directories})")  # fmt: skip
    add("--budget-links", type=count, default=budget.links, metavar="N",
        help=f"names of one file of a user ({budget.links})")  # fmt: skip
    add("--budget-bytes", type=count, default=budget.text_bytes, metavar="N",
        help=f"of the texts of one user ({budget.text_bytes})")  # fmt: skip
    add("--budget-seconds", type=seconds, default=budget.seconds, metavar="SECONDS",
        help=f"of a walk, and of the looks after it, for one user ({budget.seconds:.0f})")  # fmt: skip
    add("--budget-documents", type=seconds, default=budget.documents, metavar="SECONDS",
        help=f"of a minute, for documents of one user ({budget.documents:.0f})")  # fmt: skip


def absolute(path: str) -> str:
    """The path from `/` on, for a mirror that works in another directory."""
    return os.path.abspath(path)


def budget_of(given: argparse.Namespace) -> Budget:
    """The bounds that the options set."""
    return Budget(
        names=given.budget_names,
        directories=given.budget_directories,
        links=given.budget_links,
        text_bytes=given.budget_bytes,
        seconds=given.budget_seconds,
        # After a single turn there is no other one for what is left.
        documents=math.inf if given.every is None else given.budget_documents,
    )


def users_of(
    given: argparse.Namespace, reach: Direct | Served, warn: Callable[[str], None]
) -> Callable[[], Groups]:
    """Gives the users for each turn. Raises `BadUsers`, and `OSError`, then and later.

    A service tells the program the groups of each asker itself, so none are needed.
    """
    if given.users:
        return lambda: of_file(Path(given.users))
    return (lambda: {}) if isinstance(reach, Served) else SystemUsers(warn).latest


def patterns_in(path: Path) -> list[bytes]:
    """The patterns of a file, one a line; blank lines and comments are none. Raises `OSError`."""
    lines = [line.strip() for line in path.read_bytes().splitlines()]
    return [line for line in lines if line and not line.startswith(b"#")]


def wish_of(
    given: argparse.Namespace, folder: Path, users: Groups, person_of: Callable[[int], int]
) -> Wish:
    """What the options ask for. Raises `OSError`."""
    omitted: frozenset[Identity] = frozenset([identity_of(folder.stat())])
    excludes = [os.fsencode(pattern) for pattern in given.exclude]
    if given.exclude_from:
        excludes += patterns_in(Path(given.exclude_from))
    limits = Limits(tuple(excludes), given.one_file_system, omitted, Access(given.unlisted))
    roots = tuple(os.fsencode(root) for root in given.roots)
    return Wish(roots, limits, users, budget_of(given), person_of)


def reach_of(given: argparse.Namespace, folder: Path) -> Direct | Served:
    """The program by its service, where one answers, or else as a child.

    Raises `Failed` where no service answers and one has to.
    """
    try:
        return Served(Path(given.sockets) / CONTROL)
    except (FileNotFoundError, ConnectionRefusedError) as error:
        if given.served:
            raise Unanswered(f"no service answers at {given.sockets}/{CONTROL}") from error
        return Direct(given.program, folder)


class Watch:
    """Tells systemd that the mirror gets on, and keeps the status file, as often as is due."""

    def __init__(self, folder: Path) -> None:
        self.status = StatusFile(folder)
        self.mirror: Mirror | None = None
        self.doing = STARTING
        self.trouble: str | None = None
        self.last = 0.0

    def pulse(self) -> None:
        """Something got on."""
        if time.monotonic() - self.last > 1.0:
            self.last = time.monotonic()
            notify(b"WATCHDOG=1")
            self.tell(self.doing, self.trouble)

    def tell(self, doing: str, trouble: str | None = None, is_due: bool = False) -> None:
        """What the mirror does, or that it starts. The folder is this process's alone."""
        self.doing, self.trouble = doing, trouble
        self.status.write(self.mirror, doing, trouble, is_due)


class Session:
    """Turns over one reach of the program, as many as are wanted or until something fails."""

    def __init__(self, given: argparse.Namespace, folder: Path, progress: Progress) -> None:
        self.given = given
        self.folder = folder
        self.progress = progress
        self.watch = Watch(folder)
        self.users: Callable[[], Groups] = dict
        self.persons = Persons(progress.warn)
        self.table: Table | None = None  # of kinds of documents, as it was good last
        self.told = ""  # what was missing or held at the last turn
        self.narrowing: Narrowing | None = None
        self.looks: Looks | None = None

    def run(self) -> None:
        """Raises the `FAILURES`: `Unfinished` after a single turn."""
        if self.watch.doing == STARTING:
            self.watch.tell(STARTING, is_due=True)
        try:
            self._run()
        except FAILURES as error:
            self.watch.tell("failed", plain(str(error)), is_due=True)
            raise

    def _run(self) -> None:
        """Does it. Raises the `FAILURES`."""
        reach = reach_of(self.given, self.folder)
        planner = Planner(self.given.planner)
        documents = Documents(Extractor(Table(()), Path(self.given.extract)))
        is_whole = False
        try:
            self.users = users_of(self.given, reach, self.progress.warn)
            pulse = self.watch.pulse
            mirror = Mirror(reach, self.folder, self.progress, pulse, planner, documents)
            self.watch.mirror = mirror
            mirror.begin(self.given.anew, self.given.dry_run)
            self.given.anew = False
            if self.given.dry_run:
                mirror.dry_run(self._wish(), sys.stdout.buffer)
            else:
                live = beside(self.given, mirror, reach, self.persons.of)
                with live as (self.narrowing, self.looks):
                    self.watch.status.narrowing = self.narrowing
                    self.watch.status.looks = self.looks
                    self._turns(mirror)
            is_whole = True
        except Unfinished:
            is_whole = True
            raise
        finally:
            planner.close()
            documents.close()
            if is_whole:
                reach.close()
            else:
                reach.abandon()

    def _turns(self, mirror: Mirror) -> None:
        """Turn after turn, or one. Raises `Unfinished`."""
        wanted = Wanted(tuple(map(os.fsencode, self.given.now)), self.given.force)
        is_first = True
        while True:
            began = time.monotonic()
            due = math.inf if self.given.every is None else began + self.given.every
            wanted = self._turn(mirror, wanted, due)
            mirror.rest()
            self._warn_of_documents(mirror)
            self.progress.end_turn()
            is_told = is_first or mirror.report.batches > 0
            if is_told and not self.given.quiet:
                tell(mirror, time.monotonic() - began)
            is_first = False
            self._tell_unfinished(mirror.report)
            if mirror.report.texts:
                self.watch.status.count(mirror.state.tree)
            self.watch.tell("waiting", self.told or None, is_due=True)
            if self.given.every is None:
                return
            wanted = wanted or self._wait(mirror, due)

    def _wish(self) -> Wish:
        """What is to be mirrored now, and whose each number of a user is."""
        self.persons.look()
        wish = wish_of(self.given, self.folder, self.users(), self.persons.of)
        return replace(wish, table=self._table())

    def _table(self) -> Table:
        """The table of kinds of documents, or that of before where it isn't good any more.

        Rights go on being fed then. Raises `Failed` where there was none.
        """
        try:
            self.table = table_here(Path(self.given.documents))
        except (BadTable, OSError) as error:
            if self.table is None:
                raise Failed(str(error)) from error
            self.progress.warn(f"the table of before is kept: {error}")
        return self.table

    def _turn(self, mirror: Mirror, wanted: Wanted, due: float) -> Wanted:
        """One turn: what is asked for meanwhile ends it, where all has to be walked for it."""
        wish = replace(self._wish(), force=wanted.force, first=wanted.paths)
        self.watch.tell("walking")
        with without_cycles():
            mirror.walk(wish)
        self.watch.status.count(mirror.state.tree)
        self.watch.tell("feeding", is_due=True)
        return self._look(mirror, wish, due)

    def _look(self, mirror: Mirror, wish: Wish, due: float) -> Wanted:
        """Looks at what waits, until a turn is due, or asked for."""
        while True:
            left = due - time.monotonic()
            most = SLICE_SECONDS if left <= 0 else max(SLICE_AT_LEAST, left)
            usual = SLICE_SECONDS
            if self.looks is not None:
                usual = SLICE_AT_LEAST if mirror.state.complete else SLICE_SECONDS
                self.looks.go_on(LOOKS_BETWEEN, waits=False)
            more = mirror.look(wish, min(usual, most))
            asked = take_wanted(self.folder)
            if asked and not self._narrow(mirror, asked):
                return asked
            if not (more or asked) or time.monotonic() >= due or self._wants_walk():
                return Wanted()

    def _narrow(self, mirror: Mirror, wanted: Wanted) -> bool:
        """Walks the paths that are asked for alone: whether that is enough."""
        with without_cycles():
            is_enough = mirror.narrow(
                replace(self._wish(), force=wanted.force, first=wanted.paths)
            )
        if is_enough:
            self.watch.status.count(mirror.state.tree)
            self.watch.tell("feeding", self.told or None, is_due=True)
        return is_enough

    def _wait(self, mirror: Mirror, due: float) -> Wanted:
        """Waits until the next turn is due, or asked for."""
        while (left := due - time.monotonic()) > 0:
            self._pause(min(left, LOOKED_FOR_WANTED))
            self.watch.pulse()
            asked = take_wanted(self.folder)
            if asked and self._narrow(mirror, asked) or self._has_work(mirror):
                asked = self._look(mirror, self._wish(), due)
                mirror.rest()
                self.watch.status.count(mirror.state.tree)
                self.watch.tell("waiting", self.told or None, is_due=True)
            if asked or (self.narrowing is not None and self.narrowing.takes_walk()):
                return asked
        return Wanted()

    def _pause(self, seconds: float) -> None:
        """Waits, or looks at what the kernel told of, for so long."""
        if self.looks is None:
            time.sleep(seconds)
        else:
            self.looks.go_on(seconds)

    def _has_work(self, mirror: Mirror) -> bool:
        """Whether looks left files, or documents, to the mirror."""
        wish = mirror.whole
        if self.looks is None or wish is None:
            return False
        return bool(mirror.pending.turns) or mirror.documents.has_work(wish.budget.documents)

    def _warn_of_documents(self, mirror: Mirror) -> None:
        """Tells why documents have no text, where that is so of all."""
        trouble = mirror.documents.trouble
        if trouble is not None and unmade(mirror.state.tree):
            self.progress.warn(f"no text of documents is made: {trouble}")

    def _wants_walk(self) -> bool:
        """Whether a walk has to come at once, since the kernel's word was lost. Raises `Failed`."""
        return self.narrowing is not None and self.narrowing.wants_walk()

    def _tell_unfinished(self, report: Report) -> None:
        """Tells what is missing or held: once, or by `Unfinished` where there is one turn."""
        held = [f"{one}: it waits for --force" for one in report.held]
        told = "; ".join([*report.missing, *held])
        if told and self.given.every is None:
            raise Unfinished(told)
        if told and told != self.told:
            print(f"wumpus-mirror: {plain(told)}", file=sys.stderr)
        self.told = told


@contextlib.contextmanager
def without_cycles() -> Iterator[None]:
    """Nobody looks for cycles meanwhile: the many small objects of a walk are in none."""
    gc.disable()
    try:
        yield
    finally:
        gc.enable()


def tell(mirror: Mirror, seconds: float) -> None:
    """Tells what a turn did, on standard error."""
    report, waiting = mirror.report, mirror.pending.files
    shut = f", {report.shut} shut" if report.shut else ""
    left = f", {waiting} left" if waiting else ""
    print(
        f"wumpus-mirror: {report.files} files, {report.looked} looked at{shut}{left}, "
        f"{report.texts} texts of {report.size} bytes sent in {report.batches} batches"
        f"{told_of_documents(mirror)}, {seconds:.1f} s",
        file=sys.stderr,
    )


def told_of_documents(mirror: Mirror) -> str:
    """What a turn did of documents: how many were made, are to be made yet, or failed, and why."""
    report, due = mirror.report, unmade(mirror.state.tree)
    made = f", {report.documents} documents made" if report.documents or due else ""
    left = f", {due} due" if due else ""
    whys = ", ".join(f"{count} {why}" for why, count in sorted(report.failed.items()))
    return made + left + (f" ({whys})" if whys else "")


def end(_number: int, _frame: FrameType | None) -> None:
    """Ends by an exception, so that what is under way is undone."""
    raise SystemExit(0)


def main() -> int:
    """Runs the command line: 0, or 2 where something failed."""
    options = parser()
    given = options.parse_args()
    if not given.roots and not given.now and not given.force:
        options.error("a root is needed")
    signal.signal(signal.SIGTERM, end)
    hard = resource.getrlimit(resource.RLIMIT_NOFILE)[1]
    resource.setrlimit(resource.RLIMIT_NOFILE, (min(DESCRIPTORS, hard), hard))
    try:
        return run(given)
    except (Failed, OSError) as error:
        print(f"wumpus-mirror: {plain(str(error))}", file=sys.stderr)
        return 2
    except KeyboardInterrupt:
        return 2
    except Exception:
        traceback.print_exc()
        return 2


def run(given: argparse.Namespace) -> int:
    """What `main` does: tries again after a failure, where turns are to go on."""
    folder = Path(given.folder)
    progress = Progress("wumpus-mirror", given.quiet)
    become_owner_of(folder)
    session = Session(given, folder, progress)
    wanted = Wanted(tuple(map(os.fsencode, given.now)), given.force)
    told, when = "", -math.inf
    notify(b"READY=1")
    while True:
        try:
            check_own(folder)
            if given.roots:
                with only_one(folder / "mirror.lock", "another mirror"):
                    session.run()
                return 0
            ask_running(folder, wanted)
            return 0
        except Busy as error:
            if wanted and given.every is None:
                want(folder, wanted)
                return 0
            why = plain(str(error))
        except FAILURES as error:
            why = plain(str(error))
        progress.clear()
        if why != told or time.monotonic() - when > TOLD_AGAIN:
            print(f"wumpus-mirror: {why}", file=sys.stderr)
            told, when = why, time.monotonic()
        if given.every is None:
            return 2
        time.sleep(SOON)


def ask_running(folder: Path, wanted: Wanted) -> None:
    """Asks the mirror that runs. Raises `Failed` where none does."""
    try:
        with only_one(folder / "mirror.lock", "another mirror"):
            raise Failed("no mirror is at work there: its options and roots are needed")
    except Busy:
        want(folder, wanted)
