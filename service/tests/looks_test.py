"""Looks at what the kernel told of: what changed is fed at once, and nothing that a walk wouldn't.

Processes make random calls in two roots, and in a folder beside them from which files have names in
the roots, too. At quiet moments a whole walk, which is fed nothing, finds nothing to be fed.
"""

import io
import os
import random
import shutil
import signal
import subprocess
import sys
import time
from collections.abc import Callable, Iterator
from contextlib import contextmanager, suppress
from dataclasses import replace
from pathlib import Path
from typing import cast

from harness import (  # fmt: skip
    SERVICE, Pace, Score, folder_of_own, needs_program, needs_root, options, quick_folder
)
from kernel import become
from race_test import OWNER, PUBLIC, SECRET, Attack, child_of, write
from service_test import wait_for
from tree import NAMES, Changes

from wumpus.live.looks import Looks  # isort: skip
from wumpus.live.narrowing import Narrowing  # isort: skip
from wumpus.live.settings import Settings  # isort: skip
from wumpus.mirror.access import Access  # isort: skip
from wumpus.mirror.batch import Batch  # isort: skip
from wumpus.mirror.budget import Budget  # isort: skip
from wumpus.mirror.limits import Limits  # isort: skip
from wumpus.mirror.nodes import Tree  # isort: skip
from wumpus.mirror.pending import Pending  # isort: skip
from wumpus.mirror.planner import PROGRAM  # isort: skip
from wumpus.mirror.reach import Direct, Served  # isort: skip
from wumpus.mirror.turn import Mirror, Wish  # isort: skip
from wumpus.shared.program import die_with_parent  # isort: skip
from wumpus.shared.progress import Progress  # isort: skip

USERS = [1000, 1001, 1002]
ASKER = 1001
CLEARED = 8  # rounds after which all is removed
CLOSED = b"count\t0\t0"
LATER = 60.0  # seconds after which all that came is looked at, on a busy machine


class Held(Direct):
    """The program as a child, to which batches come as a service takes them."""

    after: Callable[[], None] | None = None  # is called after each

    def feed(self, batch: Batch, word: bytes = b"batch") -> None:
        """Feeds one."""
        super().feed(batch)
        if self.after is not None:
            self.after()

    def heard(self, since: int, until: int) -> None:
        """Nobody asks how far it is."""

    def unheard(self) -> None:
        """Nor whether it is told at all."""

    def abort(self) -> None:
        """There is no connection."""

    def close(self) -> None:
        """It is ended once, by who began it."""


class Field:
    """Two roots, a folder beside them, a program, and a mirror that looks at what changes."""

    def __init__(self, folder: Path, store: Path, program: str) -> None:
        self.marks = 0
        self.roots = (folder / "one", folder / "two")
        self.beside = folder / "beside"
        for path in (*self.roots, self.beside):
            path.mkdir()
            path.chmod(0o777)
        self.watch = folder / "watch"
        self.helper = subprocess.Popen(
            [str(SERVICE / "wumpus-watch"), "--socket", str(self.watch)], stderr=subprocess.DEVNULL
        )
        wait_for(self.watch.exists)
        self.reach = Held(program, store)
        self.mirror = Mirror(self.reach, store, Progress("test", True))
        self.mirror.begin(False)
        roots = tuple(map(os.fsencode, self.roots))
        self.wish = Wish(roots, Limits(), {}, Budget())
        settings = Settings(self.watch, PROGRAM, roots, Access(), True)
        reach = cast(Served, self.reach)
        self.narrowing = Narrowing(self.mirror, reach, settings, int)
        self.looks = Looks(self.mirror, self.narrowing)
        self.narrowing.begin()
        self.mirror.walk_is_fed = self.looks.walk_is_fed
        self.mirror.turn(self.wish)

    def end(self) -> None:
        """Ends all."""
        self.narrowing.end()
        self.reach.abandon()
        self.helper.kill()
        self.helper.wait()

    def clear(self) -> None:
        """Removes all below the roots, and beside them: calls look through all of it each time."""
        for path in (*self.roots, self.beside):
            for below in path.iterdir():
                if below.is_dir() and not below.is_symlink():
                    shutil.rmtree(below, ignore_errors=True)
                else:
                    below.unlink(missing_ok=True)

    def go_on(self, seconds: float) -> None:
        """Looks for so long, and walks where the kernel lost events, as the mirror does."""
        self.looks.go_on(seconds)
        if self.narrowing.takes_walk():
            self.mirror.walk(self.wish)

    def settle(self) -> bool:
        """Looks at all that came: whether there is an end of that."""
        self.marks += 1
        mark = b"mark%d" % self.marks
        (self.roots[0] / os.fsdecode(mark)).touch()  # what came before it is told before it
        calm, until = 0, time.monotonic() + LATER
        while time.monotonic() < until and calm < 3:
            self.go_on(0.05)
            while self.mirror.look(self.wish, 1.0):
                pass
            tree = self.mirror.state.tree
            is_told = any(mark in names for names in tree.entries.values())
            is_calm = self.looks.dirty.is_empty() and not self.looks.kept.came.is_set()
            is_calm = is_calm and is_told and not self.narrowing.waiting.turns
            calm = calm + 1 if is_calm else 0
        return calm == 3

    def missing(self) -> list[bytes]:
        """What a whole walk finds to be fed, by now."""
        mirror, feeder = self.mirror, self.mirror.feeder
        state, pending = feeder.state, mirror.pending
        out = io.BytesIO()
        queue = mirror.documents.queue
        try:
            mirror.pending = Pending()
            nodes = dict(state.tree.nodes)
            feeder.state = replace(state, tree=Tree(nodes, state.tree.entries))
            mirror.dry_run(self.wish, out)
        finally:
            feeder.state, mirror.pending, mirror.documents.queue = state, pending, queue
            mirror.room = None
        return [line for line in out.getvalue().split(b"\n") if line]

    def explain(self, lines: list[bytes]) -> None:
        """Tells what is known of the nodes of some lines."""
        tree = self.mirror.state.tree
        for line in lines[:8]:
            words = line.split(b"\t")
            number = int(words[1]) if len(words) > 1 and words[1].isdigit() else 0
            node = tree.nodes.get(number)
            places = [(one, name) for one, name, child in tree.links() if child == number]
            print(f"  {line!r}: {node} at {places}", flush=True)

    def paths(self, user: int) -> set[bytes]:
        """What a user is told."""
        return set(self.reach.talk.ask_whole(b"paths\t%d\n" % user)[1:])

    def count(self, user: int, word: bytes) -> bytes:
        """What a user is told of a word."""
        return self.reach.ask(b'count\t%d\t"%s"\n' % (user, word))


@contextmanager
def field(program: str) -> Iterator[Field]:
    """Such a field."""
    with folder_of_own() as folder, quick_folder() as store:
        Path(store).chmod(0o700)
        made = Field(Path(folder), Path(store), program)
        try:
            yield made
        finally:
            made.end()


class Anywhere(Changes):
    """Random changes below the roots and below the folder beside them, from one to the other."""

    def __init__(self, folders: tuple[Path, ...], draw: random.Random) -> None:
        super().__init__(os.fsencode(folders[0]), draw, USERS, [*USERS, 50], True)
        self.folders = [os.fsencode(folder) for folder in folders]

    def _all(self, files: bool, directories: bool) -> list[bytes]:
        found = []
        for self.top in self.folders:
            found += super()._all(files, directories)
        return [path for path in found if path not in self.folders]

    def _place(self) -> bytes:
        name = self.draw.choice(NAMES)
        if self.draw.random() < 0.5:
            name += b"%d" % self.draw.randrange(20)
        return os.path.join(self.draw.choice([*self._all(False, True), *self.folders]), name)


def calls(field: Field, seed: int, threads: int, count: int) -> None:
    """Processes that make random calls, until all are made."""
    children = []
    for one in range(threads):
        child = os.fork()
        if child == 0:
            die_with_parent()
            with suppress(Exception):
                folders = (*field.roots, field.beside)
                Anywhere(folders, random.Random(seed * 10 + one)).some(count)
            os._exit(0)
        children.append(child)
    while children:
        done, _ = os.waitpid(children[-1], os.WNOHANG)
        if done:
            children.pop()
        field.go_on(0.02)


def rounds(score: Score, program: str, seed: int, count: int) -> None:
    """Random calls, and quiet moments."""
    with field(program) as made:
        left = before = 0
        pace = Pace("looks", count, "rounds")
        for number in range(count):
            pace.tell(number)
            if number % CLEARED == CLEARED - 1:
                made.clear()
            calls(made, seed * 100_000 + number, 2, 40)
            if not score.check(made.settle(), f"round {number}: there is no end of it"):
                break
            missing, was_left = made.missing(), made.looks.dirty.left
            if missing and was_left > before:
                left += 1
            elif not score.check(not missing, f"round {number}: not fed: {missing[:8]}"):
                made.explain(missing)
            before = was_left
            if missing:
                made.mirror.turn(made.wish)
        told, lost = made.looks.told(), made.narrowing.counts.lost
        print(f"looks: {count} rounds, {left} left to a turn, {lost} lost, {told}", flush=True)


class Slow(Attack):
    """Swaps of a public text for a secret, with pauses that are longer than a look waits."""

    def pause(self) -> None:
        """Waits a moment."""
        time.sleep(self.draw.choice((0.0, 0.001, 0.02, 0.06, 0.09, 0.15, 0.25)))

    def go_on(self) -> None:
        """Swaps without a rest."""
        self.ways += [self.by_move, self.by_two_names, self.by_folder]
        while True:
            self.draw.choice(self.ways)()
            self.pause()

    def by_move(self) -> None:
        """The file itself goes into the closed directory, has the secret there, and comes back."""
        os.rename(self.file, f"{self.top}/closed/file")
        self.pause()
        write(f"{self.top}/closed/file", SECRET)
        self.pause()
        write(f"{self.top}/closed/file", PUBLIC)
        self.pause()
        os.rename(f"{self.top}/closed/file", self.file)

    def by_two_names(self) -> None:
        """The secret is written while the open directory has the file no more."""
        os.rename(f"{self.top}/open/pair", f"{self.top}/closed/aside")
        self.pause()
        write(f"{self.top}/b/pair", SECRET)
        self.pause()
        write(f"{self.top}/z/pair", PUBLIC)
        self.pause()
        os.rename(f"{self.top}/closed/aside", f"{self.top}/open/pair")

    def by_folder(self) -> None:
        """A directory is shut, its file has the secret, goes elsewhere, and the directory opens."""
        os.chmod(f"{self.top}/open", 0o700)
        self.pause()
        write(self.file, SECRET)
        self.pause()
        os.rename(self.file, f"{self.top}/closed/kept")
        self.pause()
        os.chmod(f"{self.top}/open", 0o755)
        self.pause()
        write(f"{self.top}/closed/kept", PUBLIC)
        self.pause()
        os.rename(f"{self.top}/closed/kept", self.file)


def secret(score: Score, program: str, seed: int, seconds: float) -> None:
    """A secret that moves between open and closed directories is shown after no batch."""
    with field(program) as made:
        top = made.roots[0] / "swaps"
        top.mkdir()
        os.chown(top, OWNER.number, OWNER.number)
        rights = {"shown": 0, "batches": 0, "public": 0}

        def look() -> None:
            rights["batches"] += 1
            rights["shown"] += made.count(ASKER, b"secret") != CLOSED
            rights["public"] += made.count(ASKER, b"apple") != CLOSED

        def attack() -> None:
            become(OWNER)
            die_with_parent()
            os.umask(0o022)
            one = Slow(str(top), random.Random(seed))
            one.prepare()
            one.go_on()

        child = child_of(attack)
        made.reach.after = look
        until = time.monotonic() + seconds
        while time.monotonic() < until:
            made.go_on(0.05)
            if made.mirror.pending.turns:
                made.mirror.look(made.wish, 0.2)
        os.kill(child, signal.SIGKILL)
        os.waitpid(child, 0)
        score.check(rights["shown"] == 0, f"the secret is shown after {rights['shown']} batches")
        score.check(rights["public"] > 0, "nothing public is shown")
        print(f"looks: {rights}, {made.looks.told()}", flush=True)


def main() -> int:
    """Runs the test."""
    parser = options(__doc__ or "")
    parser.add_argument("--rounds", type=int, default=25)
    parser.add_argument("--seconds", type=float, default=8.0)
    parser.add_argument("--only", choices=("rounds", "secret"))
    given = parser.parse_args()
    needs_root("looks")
    needs_program("looks", given.program)
    score = Score("looks")
    if given.only in (None, "rounds"):
        rounds(score, given.program, given.seed, given.rounds)
    if given.only in (None, "secret"):
        secret(score, given.program, given.seed, given.seconds)
    return score.end()


if __name__ == "__main__":
    sys.exit(main())
