"""Looks at chosen moments: only some of what changed is looked at, and a secret is shown to nobody.

No right is taken away beside the looks here, and nothing is told that isn't chosen: so each look
has to be right by itself. Texts are changed through mappings, too, of which the kernel tells
nothing.
"""

import mmap
import os
import signal
import sys
import time
from collections.abc import Iterator
from contextlib import contextmanager, suppress
from pathlib import Path
from unittest import mock

from at_once_test import mount, unmount
from harness import Score, needs_program, needs_root, options
from looks_test import ASKER, CLOSED, Field, field
from race_test import OWNER

from wumpus.live.directories import Beside  # isort: skip
from wumpus.live.dirty import Spot  # isort: skip
from wumpus.live.look import Look, Seen  # isort: skip
from wumpus.live.narrowing import Narrowing  # isort: skip
from wumpus.live.part import TooLarge  # isort: skip
from wumpus.live.seeing import NOBODY, Seeing  # isort: skip
from wumpus.live.waiting import Item  # isort: skip
from wumpus.mirror.access import Access  # isort: skip
from wumpus.mirror.batch import Texts  # isort: skip
from wumpus.mirror.look import Failed, Looker  # isort: skip
from wumpus.mirror.limits import NotNarrow  # isort: skip
from wumpus.mirror.nodes import ROOT, Rights  # isort: skip
from wumpus.mirror.pending import Place as Waiting  # isort: skip
from wumpus.mirror.reasons import Reason  # isort: skip

SECRET, PUBLIC = b"secret one\n", b"public one\n"
OLD = 0.06  # seconds after which a ctime can be trusted


class Hangs(BaseException):
    """It took too long; nobody catches this as an error of a file."""


class Place:
    """A folder of one user's in a root, and looks at chosen names in it."""

    def __init__(self, made: Field, name: str, score: Score) -> None:
        self.made = made
        self.score = score
        self.name = name
        self.top = made.roots[0] / name
        for folder in (self.top, self.top / "open", self.top / "closed"):
            folder.mkdir()
            os.chown(folder, OWNER.number, OWNER.number)
        (self.top / "closed").chmod(0o700)

    def write(self, name: str, text: bytes) -> Path:
        """A file that all may read, by its mode."""
        path = self.top / name
        path.write_bytes(text)
        os.chown(path, OWNER.number, OWNER.number)
        path.chmod(0o644)
        return path

    def begin(self) -> None:
        """The program has all as it is now."""
        time.sleep(OLD)
        self.made.mirror.turn(self.made.wish)
        self.made.looks.kept.take()

    def number(self, path: Path) -> int:
        """The number of a directory that is known."""
        entries, number = self.made.mirror.state.tree.entries, ROOT
        for name in path.parts[1:]:
            number = entries[number][os.fsencode(name)]
        return number

    def look(self, *paths: Path) -> None:
        """Looks at these alone: names, or known directories themselves."""
        time.sleep(OLD)
        spots = [
            Spot(self.number(path.parent), os.fsencode(path.name)) for path in paths
        ]
        self.made.looks._looked(spots)
        self.made.looks.kept.take()

    def look_at(self, directory: Path) -> None:
        """Looks at a directory itself."""
        time.sleep(OLD)
        self.made.looks._looked([Spot(self.number(directory))])
        self.made.looks.kept.take()

    def hides(self, what: str) -> None:
        """Checks that the secret is shown to nobody."""
        told = self.made.count(ASKER, b"secret")
        self.score.check(told == CLOSED, f"{self.name}: {what}: {told!r}")

    def shows(self, what: str, count: int = 1) -> None:
        """Checks that so many public texts are."""
        told = self.made.count(ASKER, b"public")
        due = b"count\t%d\t%d" % (count, count)
        self.score.check(told == due, f"{self.name}: {what}: {told!r}")


@contextmanager
def mapped(path: Path, text: bytes) -> Iterator[None]:
    """Writes a text through a mapping, which stays for a while: the kernel tells nothing of it."""
    with open(path, "r+b") as file, mmap.mmap(file.fileno(), len(text)) as there:
        there[:] = text
        there.flush()
        yield


@contextmanager
def failing() -> Iterator[None]:
    """Has no file stand still, whenever it is read."""

    def look(_: Looker, places: list[Waiting]) -> list[Failed]:
        return [Failed(one, Reason.TORN) for one in places]

    with mock.patch.object(Looker, "look", look):
        yield


def opened(place: Place) -> None:
    """A directory that opens: what is below it is read before it is given."""
    file = place.write("open/file", SECRET)
    (place.top / "open").chmod(0o700)
    place.begin()
    place.hides("before")
    with mapped(file, PUBLIC):
        (place.top / "open").chmod(0o755)
        place.look_at(place.top / "open")
        place.hides("its old text")
        place.shows("its new text")


def opened_and_torn(place: Place) -> None:
    """The same, where a file below it can't be read: it is shut."""
    file = place.write("open/file", SECRET)
    place.write("open/other", PUBLIC)
    (place.top / "open").chmod(0o700)
    place.begin()
    with mapped(file, PUBLIC), failing():
        (place.top / "open").chmod(0o755)
        place.look_at(place.top / "open")
        place.hides("a file that couldn't be read")


def opened_on_the_way(place: Place) -> None:
    """A directory that opens, and a look at another file in it alone."""
    file = place.write("open/file", SECRET)
    place.write("open/other", PUBLIC)
    (place.top / "open").chmod(0o700)
    place.begin()
    with mapped(file, PUBLIC):
        (place.top / "open").chmod(0o755)
        place.write("open/other", PUBLIC + PUBLIC)
        place.look(place.top / "open" / "other")
        place.hides("the text of the file beside it")


def closed_above(place: Place) -> None:
    """A secret that is written once the directory above is closed, of which nothing was told."""
    file = place.write("open/file", PUBLIC)
    place.begin()
    place.shows("before")
    (place.top / "open").chmod(0o700)
    file.write_bytes(SECRET)
    place.look(file)
    place.hides("a file in a directory that is closed by now")


def other_name(place: Place) -> None:
    """A secret is written once only a closed directory has the file."""
    file = place.write("open/file", PUBLIC)
    os.link(file, place.top / "closed" / "file")
    place.begin()
    place.shows("before")
    file.unlink()
    (place.top / "closed" / "file").write_bytes(SECRET)
    place.look(place.top / "closed" / "file")
    place.hides("a file whose open name is gone")


def moved(place: Place) -> None:
    """A secret is written once the file is in a closed directory; that name alone is looked at."""
    file = place.write("open/file", PUBLIC)
    place.begin()
    file.rename(place.top / "closed" / "file")
    (place.top / "closed" / "file").write_bytes(SECRET)
    place.look(place.top / "closed" / "file")
    place.hides("a file that moved")


def comes_and_is_torn(place: Place) -> None:
    """A file that had a secret in a closed directory comes to an open one, and can't be read."""
    file = place.write("closed/file", SECRET)
    place.begin()
    with mapped(file, PUBLIC), failing():
        file.rename(place.top / "open" / "file")
        place.look(place.top / "open" / "file")
        place.hides("a file that couldn't be read")
    place.look(place.top / "open" / "file")
    place.shows("afterwards")


def directory_comes(place: Place) -> None:
    """A directory whose file had a secret comes to an open one."""
    (place.top / "closed" / "inner").mkdir()
    os.chown(place.top / "closed" / "inner", OWNER.number, OWNER.number)
    file = place.write("closed/inner/file", SECRET)
    place.begin()
    with mapped(file, PUBLIC):
        (place.top / "closed" / "inner").rename(place.top / "open" / "inner")
        place.look(place.top / "open" / "inner")
        place.hides("its old text")
        place.shows("its new text")


def goes_below(place: Place) -> None:
    """A directory goes into a closed one, and a file that was in it comes to hold a secret."""
    (place.top / "open" / "inner").mkdir()
    file = place.write("open/inner/file", PUBLIC)
    os.link(file, place.top / "closed" / "file")
    place.begin()
    (place.top / "open" / "inner").rename(place.top / "closed" / "inner")
    (place.top / "closed" / "file").write_bytes(SECRET)
    place.look(place.top / "closed" / "file")
    place.hides("a file in a directory that went")


def replaced(place: Place) -> None:
    """An open file's place is taken by another one, and the old one is a secret elsewhere."""
    file = place.write("open/file", PUBLIC)
    place.write("closed/new", PUBLIC)
    place.begin()
    file.rename(place.top / "closed" / "file")
    (place.top / "closed" / "new").rename(file)
    (place.top / "closed" / "file").write_bytes(SECRET)
    place.look(file)
    place.hides("the file that took the place")
    place.look(place.top / "closed" / "file")
    place.hides("the one that was there")
    place.shows("the one that took the place")


def taken_meanwhile(place: Place) -> None:
    """A right that is taken away in the midst of a look isn't given by it, nor later."""
    file = place.write("open/file", PUBLIC)
    place.begin()
    number = place.made.mirror.state.tree.entries[place.number(file.parent)][b"file"]
    real = Look.read

    def read(self: Look, seen: Seen, texts: Texts) -> None:
        real(self, seen, texts)
        with place.made.mirror.feeder.ledger:
            place.made.mirror.feeder.ledger.see(number, Rights(0, 0, 0))

    file.write_bytes(SECRET)
    with mock.patch.object(Look, "read", read):
        time.sleep(OLD)
        place.made.looks._looked([Spot(place.number(file.parent), b"file")])
    place.hides("what was taken away meanwhile")
    told = place.made.looks.kept.take()
    place.score.check(number in told.nodes, f"{place.name}: it isn't looked at again: {told}")


def made_again(place: Place) -> Path:
    """A directory that is made again, mostly with the same inode, once it is known."""
    inner = place.top / "open" / "inner"
    inner.mkdir()
    os.chown(inner, OWNER.number, OWNER.number)
    place.write("open/inner/file", PUBLIC)
    place.begin()
    before = inner.stat().st_ino
    (inner / "file").rename(place.top / "closed" / "file")
    for _ in range(100):
        inner.rmdir()
        inner.mkdir()
        if inner.stat().st_ino == before:
            break
    os.chown(inner, OWNER.number, OWNER.number)
    return inner


def again(place: Place) -> None:
    """A directory that was made again is another one by its handle, and its names are read."""
    inner = made_again(place)
    known = place.made.looks.directories
    assert known is not None
    key = known.keys[place.number(inner)]
    place.write("open/inner/other", PUBLIC)
    place.look(inner)
    entries = place.made.mirror.state.tree.entries[place.number(inner)]
    place.score.check(set(entries) == {b"other"}, f"{place.name}: its names: {entries}")
    place.score.check(known.keys[place.number(inner)] != key, f"{place.name}: its handle")


def again_by_turn(place: Place) -> None:
    """One that was made again is known by its new handle after a walk, too."""
    inner = made_again(place)
    known, tree = place.made.looks.directories, place.made.mirror.state.tree
    assert known is not None
    key, above = known.keys[place.number(inner)], place.number(inner.parent)
    beside = Beside(known)
    seen = Seeing(known, tree, Access(), beside).look(Item(above, b"inner"))
    beside.close()
    place.score.check([one for _, one in seen] == [NOBODY], f"{place.name}: {seen}")
    place.begin()
    place.score.check(known.keys[place.number(inner)] != key, f"{place.name}: its handle")


def covered(place: Place) -> None:
    """What never answers lies over a directory, or over a file: it isn't opened, nor asked for."""
    inner = place.top / "open" / "inner"
    inner.mkdir()
    file = place.write("open/file", PUBLIC)
    place.begin()

    def late(*_: object) -> None:
        raise Hangs

    signal.signal(signal.SIGALRM, late)
    for over, mode in ((inner, 0o40000), (file, 0o100000)):
        descriptor = os.open("/dev/fuse", os.O_RDWR)
        words = f"fd={descriptor},rootmode={mode:o},user_id=0,group_id=0,allow_other"
        mount(b"fuse", over, words.encode())
        signal.alarm(20)
        try:
            for look in (place.look_at, place.look)[mode == 0o100000 :]:
                with suppress(NotNarrow, TooLarge):
                    look(over)
            place.score.check(True, "")
        except Hangs:
            place.score.check(False, f"{place.name}: it hangs at {over.name}")
        finally:
            signal.alarm(0)
            unmount(over)
            os.close(descriptor)


PARTS = (
    opened, opened_and_torn, opened_on_the_way, closed_above, other_name, moved, comes_and_is_torn,
    directory_comes, goes_below, replaced, taken_meanwhile, again, again_by_turn,
    covered,
)  # fmt: skip


def main() -> int:
    """Runs the test."""
    parser = options(__doc__ or "")
    parser.add_argument("--only", metavar="PART", help="one part alone")
    given = parser.parse_args()
    needs_root("chosen")
    needs_program("chosen", given.program)
    score = Score("chosen")
    with mock.patch.object(Narrowing, "_round", lambda *_: False), field(given.program) as made:
        for part in PARTS:
            if given.only in (None, part.__name__):
                part(Place(made, part.__name__, score))
                for path in made.roots[0].iterdir():
                    os.rename(path, made.beside / path.name)
    return score.end()


if __name__ == "__main__":
    sys.exit(main())
