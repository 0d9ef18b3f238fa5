"""A tree below a folder of its own, a mirror over it in this process, and what users are told."""

import contextlib
import os
import sys
import time
from collections import Counter
from collections.abc import Callable, Iterator, Sequence
from pathlib import Path
from typing import Any
from unittest import mock

from harness import Score, folder_of_own, needs_program, needs_root, options, quick_folder

from wumpus.mirror import look  # isort: skip
from wumpus.mirror.batch import Batch  # isort: skip
from wumpus.mirror.budget import Budget  # isort: skip
from wumpus.mirror.limits import Limits  # isort: skip
from wumpus.mirror.reach import Direct, NoMemory  # isort: skip
from wumpus.mirror.reasons import Reason  # isort: skip
from wumpus.mirror.turn import Mirror, Report, Wish  # isort: skip
from wumpus.shared.progress import Progress  # isort: skip

ANN, BOB, EVE, ZOE = 1000, 1001, 1002, 1003
SUBORDINATE = 200_000  # numbers of eve's own range, from here on
CLOSED = b"count\t0\t0"


def person_of(user: int) -> int:
    """Eve has a range of numbers."""
    return EVE if user >= SUBORDINATE else user


class Short(Direct):
    """The program, which has no memory for a batch of more than so many lines, or bytes."""

    lines = sys.maxsize
    size = sys.maxsize
    fed_at: list[tuple[str, int]]

    def feed(self, batch: Batch) -> None:
        """Feeds a batch that isn't too large."""
        if batch.due > self.lines or batch.size > self.size:
            raise NoMemory("the program ended with status 4")
        super().feed(batch)
        self.fed_at.append(("batch", batch.due))

    def fed(self, moment: int) -> None:
        """Remembers when it was told."""
        self.fed_at.append(("fed", moment))


class Noted(Progress):
    """Keeps the warnings."""

    def __init__(self, program: str, quiet: bool) -> None:
        super().__init__(program, quiet)
        self.noted: list[str] = []

    def warn(self, text: str) -> None:
        """Keeps one."""
        self.noted.append(text)


class Trial:
    """A tree, and a mirror over it."""

    def __init__(self, folder: Path, store: Path, program: str, score: Score, name: str) -> None:
        self.score = score
        self.name = name
        self.top = folder / name
        self.tree = self.top / "tree"
        self.store = store / name
        self.tree.mkdir(parents=True)
        self.tree.chmod(0o777)
        self.store.mkdir(mode=0o700)
        self.reach = Short(program, self.store)
        self.reach.fed_at = []
        self.progress = Noted("test", False)
        self.mirror = Mirror(self.reach, self.store, self.progress)
        self.mirror.begin(False)
        self.budget = Budget()
        self.force = False
        self.roots: tuple[Path, ...] = (self.tree,)

    def check(self, holds: bool, what: str) -> None:
        """Checks one thing."""
        self.score.check(holds, f"{self.name}: {what}")

    def write(self, name: str, owner: int, text: str = "apple\n", mode: int = 0o644) -> Path:
        """A file of an owner's, and the directories on the way to it, which are hers too."""
        path = self.tree / name
        for folder in reversed(path.relative_to(self.tree).parents[:-1]):
            if not (self.tree / folder).exists():
                (self.tree / folder).mkdir()
                os.chown(self.tree / folder, owner, owner)
        path.write_text(text)
        path.chmod(mode)
        os.chown(path, owner, owner)
        return path

    def wish(self) -> Wish:
        """What is mirrored."""
        roots = tuple(map(os.fsencode, self.roots))
        return Wish(roots, Limits(), {}, self.budget, person_of, self.force)

    def walk(self) -> None:
        """Names and rights alone."""
        self.mirror.walk(self.wish())

    def turn(self) -> Report:
        """A whole turn."""
        return self.mirror.turn(self.wish())

    def old(self) -> None:
        """A whole turn, as if all files were old."""
        with mock.patch.object(look, "SETTLED", 0):
            self.turn()

    def count(self, user: int, word: str = "apple") -> bytes:
        """What a user is told of a word."""
        return self.reach.ask(b'count\t%d\t"%s"\n' % (user, word.encode()))

    def paths(self, user: int) -> list[str]:
        """The paths that a user is told, below the tree."""
        lines = self.reach.talk.ask_whole(b"paths\t%d\n" % user)[1:]
        return [os.fsdecode(line).removeprefix(f"{self.tree}/") for line in lines]

    def shut(self, owner: int, why: Reason) -> int:
        """How much of an owner's is shut for a reason."""
        return self.mirror.remarks.counts.get(owner, Counter())[why]

    def end(self) -> None:
        """Ends the program."""
        self.reach.abandon()


@contextlib.contextmanager
def failing(path: Path, number: int) -> Iterator[None]:
    """Has the kernel fail at the status of one name, as where a FUSE mount lies over it."""
    real = os.scandir

    class Entry:
        def __init__(self, entry: os.DirEntry[str]) -> None:
            self.entry = entry
            self.name = entry.name

        def is_dir(self, **named: Any) -> bool:
            return self.entry.is_dir(**named)

        def is_file(self, **named: Any) -> bool:
            return self.entry.is_file(**named)

        def stat(self, **named: Any) -> os.stat_result:
            if self.name == path.name:
                raise OSError(number, os.strerror(number))
            return self.entry.stat(**named)

    @contextlib.contextmanager
    def listing(descriptor: int) -> Iterator[Iterator[Entry]]:
        with real(descriptor) as entries:
            yield map(Entry, entries)

    with mock.patch.object(os, "scandir", listing):
        yield


@contextlib.contextmanager
def beside(touch: Callable[[], None]) -> Iterator[None]:
    """A process that does something again and again, meanwhile."""
    child = os.fork()
    if child == 0:
        while True:
            touch()
            time.sleep(0.002)
    try:
        time.sleep(0.1)
        yield
    finally:
        os.kill(child, 9)
        os.waitpid(child, 0)


def run_parts(name: str, about: str, parts: Sequence[Callable[[Trial], None]]) -> int:
    """Runs the parts of a test, or one, each with a tree and a mirror of its own."""
    parser = options(about)
    parser.add_argument("--only", metavar="PART", help="one part alone")
    given = parser.parse_args()
    needs_root(name)
    needs_program(name, given.program)
    score = Score(name)
    with folder_of_own() as folder, quick_folder() as store:
        for part in parts:
            if given.only in (None, part.__name__):
                trial = Trial(Path(folder), Path(store), given.program, score, part.__name__)
                try:
                    part(trial)
                finally:
                    trial.end()
    return score.end()
