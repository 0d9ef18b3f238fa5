"""The mirror and the program beside the kernel.

A random tree is changed by real system calls, batch by batch, through restarts and kills of the
mirror. After each batch thirteen users ask for their paths, and count and find words; each reply
is compared, byte for byte, with what the kernel lets a child with that user's ids find by its names
and open; and in a second half, with --unlisted, with what it lets her open by any path.
"""

import os
import random
import signal
import subprocess
import sys
import time
from pathlib import Path

from harness import SERVICE, Pace, Score, folder_of_own, needs_program, needs_root, options
from kernel import Due, User, found_by, opened_by, paths_below
from tree import Changes

from wumpus.mirror.access import Access  # isort: skip
from wumpus.mirror.turn import Mirror, Wish  # isort: skip
from wumpus.shared.progress import Progress  # isort: skip
from wumpus.mirror.reach import Direct  # isort: skip
from wumpus.mirror.limits import Limits  # isort: skip

NUMBERS = (0, 65534, 4294967293, 1000, 1001, 1002, 1003, 1004, 1005, 1006, 1007, 1008, 1009)
GROUPS = [2000, 2001, 2002, 2003, 65534, 0, 4294967294]
WORDS = (b"apple", b"budget")


class Trial:
    """A tree, its users, and a mirror over them."""

    def __init__(
        self, folder: Path, program: str, draw: random.Random, score: Score, unlisted: bool
    ) -> None:
        self.draw = draw
        self.unlisted = unlisted
        self.score = score
        self.program = program
        self.store = folder / "store"
        self.store.mkdir(mode=0o700)
        self.top = os.fsencode(folder / "tree")
        os.mkdir(self.top, 0o755)
        self.users: list[User] = []
        self.pairs = 0
        self.regroup()
        self.reach = Direct(program, self.store)
        self.mirror = self.begun()
        self.lists = self.mirror.state.lists
        own = list(NUMBERS)
        self.changes = Changes(self.top, draw, own, GROUPS, self.lists, unlisted)

    def regroup(self) -> None:
        """Gives all users groups."""
        self.users = [
            User(number, tuple(self.draw.sample(GROUPS, self.draw.randrange(1, 4))))
            for number in NUMBERS
        ]
        lines = [" ".join(map(str, (one.number, *one.groups))) for one in self.users]
        (self.store / "users").write_text("\n".join(lines) + "\n")

    def begun(self) -> Mirror:
        """A mirror that found out where the program stands."""
        mirror = Mirror(self.reach, self.store, Progress("test", True))
        mirror.begin(False)
        return mirror

    def wish(self) -> Wish:
        """The tree with all below it."""
        users = {one.number: tuple(sorted(one.groups)) for one in self.users if one.number}
        return Wish((self.top,), Limits(access=Access(self.unlisted)), users)

    def mirror_once(self) -> None:
        """A turn, after which nothing may be shut; one more where something still changed."""
        self.mirror.turn(self.wish())

    def restart(self) -> None:
        """Ends the program as it should end, or at once, and begins anew."""
        if self.draw.random() < 0.5:
            self.reach.close()
        else:
            self.reach.abandon()
        self.reach = Direct(self.program, self.store)
        self.mirror = self.begun()

    def kill(self) -> None:
        """Runs the mirror as a program, and kills it at some moment."""
        self.reach.close()
        command = [
            str(SERVICE / "wumpus-mirror"), "--quiet", "--folder", str(self.store), "--program",
            self.program, "--sockets", "/nonexistent", "--users", str(self.store / "users"),
            os.fsdecode(self.top), *(["--unlisted"] if self.unlisted else []),
        ]  # fmt: skip
        child = subprocess.Popen(command)
        time.sleep(self.draw.random() * 0.5)
        child.send_signal(signal.SIGKILL)
        child.wait()
        time.sleep(0.1)
        self.reach = Direct(self.program, self.store)
        self.mirror = self.begun()

    def one_batch(self, batch: int, calls: int) -> None:
        """Changes the tree and maybe the groups, sometimes begins anew, mirrors and compares."""
        self.changes.some(self.draw.randrange(2 * calls))
        if self.draw.random() < 0.15:
            self.regroup()
        if batch % 10 == 4:
            self.restart()
        elif batch % 10 == 8:
            self.kill()
        self.mirror_once()
        self.compare()

    def end(self, batches: int) -> None:
        """Ends the program, and tells what was compared."""
        if not self.lists:
            self.unknown_lists()
        self.reach.abandon()
        kind = "with" if self.lists else "without"
        told = " and --unlisted" if self.unlisted else ""
        print(
            f"kernel: {self.changes.calls} system calls in {batches} batches, "
            f"{self.pairs} pairs of path and user, {kind} access lists{told}"
        )

    def compare(self) -> None:
        """Each user's replies beside what the kernel lets her open."""
        paths = paths_below(self.top)
        for user in self.users:
            seen = opened_by(user, paths) if self.unlisted else found_by(user, self.top)
            due = Due(seen)
            self.pairs += len(paths)
            self.ask(user, b"paths\t%d\n" % user.number, due.paths())
            for word in WORDS:
                self.ask(user, b'count\t%d\t"%s"\n' % (user.number, word), due.count(word))
                self.ask(user, b'find\t%d\t10000\t"%s"\n' % (user.number, word), due.find(word))

    def unknown_lists(self) -> None:
        """Gives nodes lists that the program doesn't know: nothing is shown too much."""
        self.changes.kinds = [self.changes.access_list]
        self.changes.some(60)
        self.mirror_once()
        paths = paths_below(self.top)
        for user in self.users:
            due = Due(opened_by(user, paths)).paths()
            reply = self.reach.talk.ask_whole(b"paths\t%d\n" % user.number)
            more = set(reply[1:]) - set(due[1:])
            self.score.check(not more, f"user {user.number}, without lists: {more}")

    def ask(self, user: User, line: bytes, due: list[bytes]) -> None:
        """Compares one reply."""
        reply = self.reach.talk.ask_whole(line)
        if not self.score.check(reply == due, f"user {user.number}: {line!r}"):
            if self.score.failed <= 5:
                for one in set(reply) - set(due):
                    print(f"  too much: {one[:200]!r}")
                for one in set(due) - set(reply):
                    print(f"  too little: {one[:200]!r}")


def main() -> int:
    """Runs the test."""
    parser = options(__doc__ or "")
    parser.add_argument("--batches", type=int, default=120)
    parser.add_argument("--calls", type=int, default=25, help="changes between two comparisons")
    given = parser.parse_args()
    needs_root("kernel")
    needs_program("kernel", given.program)
    draw = random.Random(given.seed)
    score = Score("kernel")
    batches = -(-given.batches // 2)
    pace = Pace("kernel", 2 * batches, "batches")
    for unlisted in (False, True):
        with folder_of_own() as name:
            trial = Trial(Path(name), given.program, draw, score, unlisted)
            trial.changes.some(120)
            for batch in range(batches):
                pace.tell(batch + batches * unlisted)
                trial.one_batch(batch, given.calls)
            trial.end(batches)
    return score.end()


if __name__ == "__main__":
    sys.exit(main())
