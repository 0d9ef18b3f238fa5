"""The race of the mirror against somebody who swaps a file for a secret.

In each round a process of user 1000 swaps, writes, links and shuts a few times, so that at each
moment no other user may read the secret, while the mirror makes a turn. After the turn nobody else
is told of the secret. Three rounds of four end when the swaps do, so that the next one finds the
public text; the fourth doesn't wait. A plain reader by paths, beside it, shows that the race can
be lost.

Rounds are cheap since the store is in memory, and since the mirror waits for less time than else
before it trusts a status: that is harder for it, not easier.
"""

import os
import random
import select
import signal
import sys
import time
from collections.abc import Callable
from pathlib import Path
from unittest import mock

from harness import Pace, Score, folder_of_own, needs_program, needs_root, options, quick_folder
from kernel import User, become

from wumpus.mirror import budget  # isort: skip
from wumpus.mirror.turn import Mirror, Wish  # isort: skip
from wumpus.shared.program import die_with_parent  # isort: skip
from wumpus.shared.progress import Progress  # isort: skip
from wumpus.mirror.reach import Direct  # isort: skip
from wumpus.mirror.limits import Limits  # isort: skip

YOUNG = 0.02  # seconds in which two changes may have one ctime: two ticks of the slowest clock
OWNER = User(1000, (1000,))
ASKER = 1001
SECRET = b"secret secret\n"
PUBLIC = b"apple pie\n"
LARGE = 2_400_000  # bytes before the end of a file that is read in several pieces


def write(path: str, text: bytes) -> None:
    """Writes a file from its start; its mode stays."""
    descriptor = os.open(path, os.O_WRONLY | os.O_CREAT | os.O_TRUNC, 0o600)
    os.write(descriptor, text)
    os.close(descriptor)


class Attack:
    """Ways in which a file becomes a secret and a public one again, in a folder of one's own."""

    def __init__(self, top: str, draw: random.Random) -> None:
        self.top = top
        self.draw = draw
        self.file = f"{top}/open/file"
        self.ways: list[Callable[[], None]] = [
            self.by_mode, self.by_directory, self.by_link, self.by_rename, self.by_symlink,
            self.by_parent, self.by_other_name, self.while_read,
        ]  # fmt: skip

    def prepare(self) -> None:
        """The folder as it is before the first swap."""
        os.mkdir(f"{self.top}/open")
        os.mkdir(f"{self.top}/closed", 0o700)
        write(self.file, PUBLIC)
        os.chmod(self.file, 0o644)
        write(f"{self.top}/closed/secret", SECRET)
        os.chmod(f"{self.top}/closed/secret", 0o644)
        write(f"{self.top}/open/large", b" " * LARGE + PUBLIC)
        os.chmod(f"{self.top}/open/large", 0o644)
        write(f"{self.top}/open/pair", PUBLIC)
        os.chmod(f"{self.top}/open/pair", 0o644)
        for name in ("closed", "also", "b", "z"):
            os.makedirs(f"{self.top}/{name}", 0o700, exist_ok=True)
            os.link(f"{self.top}/open/pair", f"{self.top}/{name}/pair")

    def pause(self) -> None:
        """Waits a moment, sometimes so long that the mirror may trust what it reads."""
        time.sleep(self.draw.choice((0.0, 0.0, 0.0001, 0.001, 0.01, 1.2 * YOUNG)))

    def rounds(self, go: int, done: int) -> None:
        """A few swaps after each byte that comes, and then a byte back."""
        while os.read(go, 1):
            for _ in range(self.draw.randrange(1, 4)):
                self.pause()
                self.draw.choice(self.ways)()
            os.write(done, b".")

    def by_mode(self) -> None:
        """The file is shut, has the secret for a moment, and is opened again."""
        os.chmod(self.file, 0o600)
        write(self.file, SECRET)
        self.pause()
        write(self.file, PUBLIC)
        os.chmod(self.file, 0o644)

    def by_directory(self) -> None:
        """The directory is shut while the file has the secret."""
        os.chmod(f"{self.top}/open", 0o700)
        write(self.file, SECRET)
        self.pause()
        write(self.file, PUBLIC)
        os.chmod(f"{self.top}/open", 0o755)

    def by_link(self) -> None:
        """The name leads to a secret of mode 600, and back."""
        other = f"{self.top}/open/other"
        write(other, SECRET)
        os.rename(self.file, f"{self.top}/open/kept")
        os.link(other, self.file)
        self.pause()
        os.rename(f"{self.top}/open/kept", self.file)
        os.unlink(other)

    def by_rename(self) -> None:
        """The secret, whose mode is open, comes from the closed directory while the other is."""
        os.chmod(f"{self.top}/open", 0o700)
        os.rename(self.file, f"{self.top}/open/kept")
        os.rename(f"{self.top}/closed/secret", self.file)
        self.pause()
        os.rename(self.file, f"{self.top}/closed/secret")
        os.rename(f"{self.top}/open/kept", self.file)
        os.chmod(f"{self.top}/open", 0o755)

    def by_symlink(self) -> None:
        """The name is a symbolic link to the secret."""
        os.rename(self.file, f"{self.top}/open/kept")
        os.symlink(f"{self.top}/closed/secret", self.file)
        self.pause()
        os.rename(f"{self.top}/open/kept", self.file)

    def by_parent(self) -> None:
        """The directory goes into the closed one, where its file has the secret."""
        os.rename(f"{self.top}/open", f"{self.top}/closed/open")
        write(f"{self.top}/closed/open/file", SECRET)
        self.pause()
        write(f"{self.top}/closed/open/file", PUBLIC)
        os.rename(f"{self.top}/closed/open", f"{self.top}/open")

    def by_other_name(self) -> None:
        """A file of several names has the secret while only closed directories have it."""
        os.unlink(f"{self.top}/open/pair")
        write(f"{self.top}/closed/pair", SECRET)
        self.pause()
        write(f"{self.top}/closed/pair", PUBLIC)
        os.link(f"{self.top}/closed/pair", f"{self.top}/open/pair")

    def while_read(self) -> None:
        """A large file has the secret at its end while it is shut, and then no more."""
        large = f"{self.top}/open/large"
        os.chmod(large, 0o600)
        with open(large, "r+b") as opened:
            opened.seek(LARGE)
            opened.write(SECRET[: len(PUBLIC)])
            opened.flush()
            time.sleep(self.draw.choice((0.0005, 0.002)))
            opened.seek(LARGE)
            opened.write(PUBLIC)
        os.chmod(large, 0o644)


def child_of(what: Callable[[], None]) -> int:
    """Runs a function in a child that ends with this process: its number."""
    child = os.fork()
    if child == 0:
        try:
            die_with_parent()
            what()
        finally:
            os._exit(0)
    return child


class Attacker:
    """The process that swaps, in step with the rounds."""

    def __init__(self, top: str, seed: int) -> None:
        go, self.going = os.pipe()
        self.done, done = os.pipe()
        self.due = 0

        def attack() -> None:
            become(OWNER)
            die_with_parent()
            os.umask(0o022)
            os.close(self.going)
            one = Attack(top, random.Random(seed))
            one.prepare()
            os.write(done, b".")
            one.rounds(go, done)

        self.child = child_of(attack)
        self.due = 1
        self.wait()

    def begin(self) -> None:
        """Has it swap."""
        os.write(self.going, b".")
        self.due += 1

    def wait(self) -> None:
        """Waits until all that was begun is done."""
        while self.due:
            self.due -= len(os.read(self.done, self.due))

    def end(self) -> None:
        """Ends it."""
        os.kill(self.child, signal.SIGKILL)
        os.waitpid(self.child, 0)


class PlainReader:
    """A process that reads by paths, again and again, and counts how often it got the secret."""

    def __init__(self, top: str) -> None:
        reading, self.ending = os.pipe()
        self.count, counting = os.pipe()

        def read() -> None:
            os.close(self.ending)
            lost = 0
            while not select.select([reading], [], [], 0.0002)[0]:
                lost += plain_reader_loses(top)
            os.write(counting, b"%d" % lost)

        self.child = child_of(read)

    def end(self) -> int:
        """Ends it: how often it got the secret."""
        os.close(self.ending)
        lost = int(os.read(self.count, 20))
        os.waitpid(self.child, 0)
        return lost


def plain_reader_loses(top: str) -> bool:
    """Whether a reader by paths would show the secret: it looks first, and reads then."""
    folder, file = f"{top}/open", f"{top}/open/file"
    try:
        if not os.lstat(folder).st_mode & 0o001 or not os.lstat(file).st_mode & 0o004:
            return False
        with open(file, "rb") as opened:
            return opened.read() == SECRET
    except OSError:
        return False


class Race:
    """A tree, its attacker, and a mirror over it."""

    def __init__(self, tree: str, store: Path, program: str, score: Score, seed: int) -> None:
        self.score = score
        self.reach = Direct(program, store)
        self.mirror = Mirror(self.reach, store, Progress("test", True))
        self.mirror.begin(False)
        self.wish = Wish((os.fsencode(tree),), Limits(), {})
        self.attacker = Attacker(tree, seed)
        self.shown = 0  # rounds after which the public text was there
        self.met = 0  # rounds in which something didn't stand still

    def round(self, number: int) -> None:
        """Swaps and a turn, at the same time."""
        self.attacker.begin()
        told = self.mirror.turn(self.wish)
        self.met += told.shut > 0
        reply = self.reach.ask(b'count\t%d\t"secret"\n' % ASKER)
        self.score.check(reply == b"count\t0\t0", f"round {number}: {reply!r}")
        self.shown += self.reach.ask(b'count\t%d\t"apple"\n' % ASKER) != b"count\t0\t0"
        if number % 4:
            self.attacker.wait()
        if number % 20 == 0:
            self.reach.done()

    def rounds(self, count: int, seconds: float) -> int:
        """So many rounds, or as many as there is time for: how many there were."""
        pace = Pace("race", count, "rounds")
        for number in range(count):
            if pace.spent() > seconds:
                return number
            pace.tell(number)
            self.round(number)
        return count


def main() -> int:
    """Runs the test."""
    parser = options(__doc__ or "")
    parser.add_argument("--rounds", type=int, default=1500)
    parser.add_argument("--seconds", type=float, default=600.0, help="at most so long")
    given = parser.parse_args()
    needs_root("race")
    needs_program("race", given.program)
    score = Score("race")
    young = mock.patch.object(budget, "YOUNG", int(YOUNG * 1e9))
    with young, folder_of_own() as name, quick_folder() as store:
        os.mkdir(f"{name}/tree", 0o755)
        os.chown(f"{name}/tree", OWNER.number, OWNER.groups[0])
        race = Race(f"{name}/tree", Path(store), given.program, score, given.seed)
        reader = PlainReader(f"{name}/tree")
        began = time.monotonic()
        try:
            done = race.rounds(given.rounds, given.seconds)
        finally:
            race.attacker.end()
            lost = reader.end()
        race.reach.abandon()
    print(f"race: {done} rounds in {time.monotonic() - began:.0f} s; something didn't stand still")
    print(f"race: in {race.met} of them; the public text was there after {race.shown}")
    print(f"race: a plain reader by paths showed the secret {lost} times")
    score.check(done == given.rounds, f"{done} of {given.rounds} rounds: --seconds gives more")
    score.check(race.shown * 4 > done, "the public text was mostly shut: that shows nothing")
    score.check(lost > 0, "a plain reader lost no race: these rounds show nothing")
    return score.end()


if __name__ == "__main__":
    sys.exit(main())
