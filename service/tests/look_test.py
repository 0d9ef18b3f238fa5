"""What changes between two looks of the mirror: nothing is shown of a moment that wasn't there.

Each part makes its changes at the very system calls of the mirror between which they matter, so
each fails where the look after them is left out: the walk's second look at the way to a directory,
the second look at the way to a file that is read, and the file's status after the reading. At each
moment nobody but the owner may read the secret.
"""

import os
import sys
from collections.abc import Callable, Iterator
from contextlib import ExitStack, contextmanager
from pathlib import Path
from typing import Any
from unittest import mock

from harness import Score, folder_of_own, needs_program, options

from wumpus.mirror import look  # isort: skip
from wumpus.mirror.turn import Mirror, Wish  # isort: skip
from wumpus.shared.progress import Progress  # isort: skip
from wumpus.mirror.reach import Direct  # isort: skip
from wumpus.mirror.limits import Limits  # isort: skip

ASKER = 4321
SECRET = b"secret secret\n"
PUBLIC = b"apple and pie\n"  # as long as the secret


@contextmanager
def around(
    call: str, wanted: Callable[..., bool], before: Callable[[], None], after: Callable[[], None]
) -> Iterator[None]:
    """Makes changes before and after the first call of that function of `os` that is wanted."""
    real = getattr(os, call)
    waiting = [True]

    def changed(*words: Any, **named: Any) -> Any:
        if not waiting or not wanted(*words, **named):
            return real(*words, **named)
        waiting.clear()
        before()
        try:
            return real(*words, **named)
        finally:
            after()

    with mock.patch.object(os, call, changed):
        yield


@contextmanager
def in_order() -> Iterator[None]:
    """Has directories read in the order of their names, and not of the file system's own."""
    real = os.scandir

    @contextmanager
    def listing(descriptor: int) -> Iterator[list[os.DirEntry[str]]]:
        with real(descriptor) as entries:
            yield sorted(entries, key=lambda entry: entry.name)

    with mock.patch.object(os, "scandir", listing):
        yield


def named(name: bytes) -> Callable[..., bool]:
    """Tells of a call whether its first argument is this name."""
    return lambda path, *_, **__: path == name


def opens(path: Path) -> Callable[..., bool]:
    """Tells of a call whether its first argument is a descriptor of what is there now."""
    identity = os.stat(path).st_dev, os.stat(path).st_ino

    def is_there(descriptor: Any = None, *_: Any, **__: Any) -> bool:
        if not isinstance(descriptor, int):
            return False
        status = os.fstat(descriptor)
        return (status.st_dev, status.st_ino) == identity

    return is_there


def nothing() -> None:
    """Changes nothing."""


class Trial:
    """A tree with an open and a closed directory, and a mirror over it."""

    def __init__(self, folder: Path, program: str, score: Score) -> None:
        self.score = score
        self.tree = folder / "tree"
        self.open = self.tree / "a-open"
        self.closed = self.tree / "b-closed"
        self.open.mkdir(parents=True)
        self.closed.mkdir(mode=0o700)
        self.moved = self.closed / "moved"
        self.moved.mkdir()
        self.write(self.moved / "secret", SECRET)
        self.file = self.open / "file"
        self.write(self.file, PUBLIC)
        store = folder / "store"
        store.mkdir(mode=0o700)
        self.reach = Direct(program, store)
        self.mirror = Mirror(self.reach, store, Progress("test", True))
        self.mirror.begin(False)
        self.shuts = 0
        self.wish = Wish((os.fsencode(self.tree),), Limits(), {})

    @staticmethod
    def write(path: Path, text: bytes) -> None:
        """Gives a file these bytes; a new one may be read by everybody."""
        with open(path, "r+b" if path.exists() else "wb") as out:
            out.write(text)
        path.chmod(0o644)

    def count(self, word: bytes) -> bytes:
        """What a user who may read open files is told of a word."""
        return self.reach.ask(b'count\t%d\t"%s"\n' % (ASKER, word))

    def turns(self, part: str, changes: ExitStack) -> None:
        """A turn beside the changes, of which nothing secret is told, and one after them."""
        self.shuts = 0
        with changes:
            self.mirror.turn(self.wish)
        told = self.count(b"secret")
        self.score.check(told == b"count\t0\t0", f"{part}: {told!r}")
        self.score.check(self.shuts > 0, f"{part}: nothing changed")
        self.settle()
        self.mirror.turn(self.wish)
        both = self.count(b"secret"), self.count(b"apple")
        self.score.check(both == (b"count\t0\t0", b"count\t1\t1"), f"{part}, afterwards: {both}")

    def settle(self) -> None:
        """The tree as it was at first, but for ctimes."""
        self.leave()
        self.write(self.file, PUBLIC)

    def shut(self) -> None:
        """Shuts the open directory."""
        self.shuts += 1
        self.open.chmod(0o700)

    def enter(self) -> None:
        """Shuts the open directory, and then has the secret in it."""
        self.shut()
        (self.closed / "moved").rename(self.open / "moved")

    def leave(self) -> None:
        """Takes the secret away, and then opens the directory."""
        if (self.open / "moved").exists():
            (self.open / "moved").rename(self.closed / "moved")
        self.open.chmod(0o755)

    def hide(self) -> None:
        """Shuts the file, and then has the secret in it."""
        self.shuts += 1
        self.file.chmod(0o600)
        with open(self.file, "r+b") as out:
            out.write(SECRET)

    def show(self) -> None:
        """Takes the secret out of the file, and then opens it."""
        self.write(self.file, PUBLIC)

    def hide_below(self) -> None:
        """Shuts the directory, and then has the secret in its file, whose mode stays."""
        self.shut()
        self.write(self.file, SECRET)

    def show_below(self) -> None:
        """Takes the secret out of the file, and then opens the directory."""
        self.write(self.file, PUBLIC)
        self.open.chmod(0o755)


def names_of_a_moment(trial: Trial) -> None:
    """A known directory with the secret is in the open one, each time while that is shut.

    It comes before the open one's names are read, goes when the walk has opened it, and is there
    again when it is looked at by its name. Nothing of the secret's file changes, so it isn't read.
    """
    changes = ExitStack()
    is_open, is_moved = opens(trial.open), named(b"moved")
    changes.enter_context(in_order())
    changes.enter_context(around("scandir", is_open, trial.enter, nothing))
    once = ExitStack()

    def gone() -> None:
        trial.leave()
        once.enter_context(around("stat", is_moved, trial.enter, nothing))

    def in_open(name: Any, *_: Any, dir_fd: int | None = None, **__: Any) -> bool:
        return name == b"moved" and dir_fd is not None and is_open(dir_fd)

    changes.enter_context(around("open", in_open, nothing, gone))
    changes.push(once)
    trial.turns("names of a moment", changes)


def way_of_a_moment(trial: Trial) -> None:
    """The file has the secret while its directory is shut, from its opening until it is closed."""
    changes = ExitStack()
    is_file = opens(trial.file)
    changes.enter_context(around("open", named(b"file"), trial.hide_below, nothing))
    changes.enter_context(around("close", is_file, nothing, trial.show_below))
    trial.write(trial.file, PUBLIC)
    trial.turns("a way of a moment", changes)


def text_of_a_moment(trial: Trial) -> None:
    """The file has the secret while it is read, and is shut as long."""
    changes = ExitStack()
    changes.enter_context(around("read", opens(trial.file), trial.hide, trial.show))
    trial.write(trial.file, PUBLIC)
    trial.turns("a text of a moment", changes)


def main() -> int:
    """Runs the test."""
    given = options(__doc__ or "").parse_args()
    needs_program("look", given.program)
    score = Score("look")
    with folder_of_own() as name:
        trial = Trial(Path(name), given.program, score)
        with mock.patch.object(look, "SETTLED", 0):  # as if all files were old
            trial.mirror.turn(trial.wish)
        told = trial.count(b"apple"), trial.count(b"secret")
        score.check(told == (b"count\t1\t1", b"count\t0\t0"), f"before the changes: {told}")
        for part in (names_of_a_moment, way_of_a_moment, text_of_a_moment):
            part(trial)
        trial.reach.abandon()
    return score.end()


if __name__ == "__main__":
    sys.exit(main())
