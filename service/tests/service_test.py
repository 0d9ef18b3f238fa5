"""The service: who asks, what is answered, batches whole or not at all, and hostile clients.

Two hundred connections of hostile users (endless lines, half lines, many lines that are no
queries, clients that never read, dear queries) stand beside one good client, who must get each of
her answers, and soon. The service and the mirror are killed in the midst of batches.
"""

import os
import random
import shutil
import signal
import socket
import subprocess
import sys
import threading
import time
from collections.abc import Callable
from contextlib import suppress
from pathlib import Path

from harness import SERVICE, Score, folder_of_own, needs_program, needs_root, options
from kernel import User, become

SLOWEST = 5.0  # seconds that an answer may take, on a machine with other work too
SLOWER = 20  # times as much as alone, where that is more
FILES = 40


class Served:
    """A service over a tree of its own."""

    def __init__(self, folder: Path, program: str) -> None:
        self.folder = folder
        self.program = program
        self.tree = folder / "tree"
        self.store = folder / "store"
        self.sockets = folder / "sockets"
        for one in (self.tree, self.sockets):
            one.mkdir(mode=0o755)
        self.store.mkdir(mode=0o700)
        self.process: subprocess.Popen[bytes] | None = None

    def start(self, *words: str) -> None:
        """Starts the service, with other options after the usual ones; waits until it listens."""
        for one in self.sockets.iterdir():
            one.unlink()
        self.process = subprocess.Popen(
            [
                str(SERVICE / "wumpusd"), "--folder", str(self.store), "--sockets",
                str(self.sockets), "--program", self.program, "--query-seconds", "5",
                "--idle-seconds", "3", *words,
            ],
            stderr=subprocess.DEVNULL,
        )  # fmt: skip
        wait_for((self.sockets / "control").exists)
        time.sleep(0.2)

    def mirror(self) -> subprocess.Popen[bytes]:
        """Starts a turn of the mirror."""
        return subprocess.Popen(
            [
                str(SERVICE / "wumpus-mirror"), "--quiet", "--served", "--folder", str(self.store),
                "--sockets", str(self.sockets), "--program", self.program, str(self.tree),
            ]
        )  # fmt: skip

    def other_programs(self) -> list[int]:
        """The statuses of a second service, and of a mirror that would run the program."""
        places = ["--folder", str(self.store), "--program", self.program]
        elsewhere = [*places, "--sockets", str(self.folder)]
        service = subprocess.run([str(SERVICE / "wumpusd"), *elsewhere], capture_output=True)
        words = [str(SERVICE / "wumpus-mirror"), *elsewhere, str(self.tree)]
        mirror = subprocess.run(words, capture_output=True)
        return [service.returncode, mirror.returncode]

    def end(self, number: int) -> int:
        """Sends the service a signal, and waits for its end."""
        assert self.process is not None
        self.process.send_signal(number)
        return self.process.wait(30)

    def ask(self, user: User, query: bytes) -> bytes:
        """The first line that a process of the user is answered."""
        return as_user(user, lambda: ask_here(self.sockets, query))


def wait_for(holds: Callable[[], bool], seconds: float = 10.0) -> None:
    """Waits until something holds."""
    until = time.monotonic() + seconds
    while not holds() and time.monotonic() < until:
        time.sleep(0.02)


def ask_here(sockets: Path, query: bytes) -> bytes:
    """Asks as this process."""
    with socket.socket(socket.AF_UNIX, socket.SOCK_STREAM) as connection:
        connection.settimeout(20)
        connection.connect(str(sockets / "ask"))
        with suppress(BrokenPipeError, ConnectionResetError):
            connection.sendall(query + b"\n")
        with connection.makefile("rb") as answers:
            return answers.readline().rstrip(b"\n")


def as_user(user: User, what: Callable[[], bytes]) -> bytes:
    """What a function gives in a child with the user's ids; empty where it fails."""
    reading, writing = os.pipe()
    child = os.fork()
    if child == 0:
        try:
            become(user)
            os.write(writing, what()[:4096])
        finally:
            os._exit(0)
    os.close(writing)
    with open(reading, "rb") as answer:
        told = answer.read()
    os.waitpid(child, 0)
    return told


ANN = User(1000, (1000,))
BOB = User(1001, (1001, 2000))
CAROL = User(1002, (1002,))
OVERFLOW = User(65534, (1000,))


def identity(served: Served, score: Score) -> None:
    """Who asks is told by the kernel, and nothing else."""
    text = served.tree / "text"
    text.write_text("apple\n")
    os.chown(text, 1000, 2000)
    text.chmod(0o640)
    score.check(served.ask(ANN, b'count\t"apple"') == b"refused\tnotready", "before the first turn")
    score.check(served.mirror().wait() == 0, "a first turn")
    expected = [(ANN, b"1\t1"), (BOB, b"1\t1"), (CAROL, b"0\t0"), (User(0, (0,)), b"1\t1")]
    for user, due in expected:
        reply = served.ask(user, b'count\t"apple"')
        score.check(reply == b"count\t" + due, f"user {user.number}: {reply!r}")
    score.check(served.ask(OVERFLOW, b"paths") == b"refused\tnobody", "user 65534")
    without = served.ask(User(1001, (1001,)), b'count\t"apple"')
    score.check(without == b"count\t0\t0", "the groups of another process of hers")
    again = served.ask(BOB, b'count\t"apple"')
    score.check(again == b"count\t1\t1", "and hers again")
    many = User(1003, (*range(3000, 6000), 2000))
    score.check(served.ask(many, b'count\t"apple"') == b"count\t1\t1", "three thousand groups")
    more = User(1003, (*range(100_000, 120_000), 2000))
    score.check(served.ask(more, b"paths") == b"refused\tgroups", "twenty thousand")


def other_lines(served: Served, score: Score) -> None:
    """Each line that isn't a query is refused, and nothing of it reaches the program."""
    lines = [
        b'count\t0\t"apple"', b"save", b"stat", b"flush", b"work\t1", b"user\t1002\t2000",
        b"chmod\t4\t777", b"text\t4\t5", b"paths\t0", b"", b"#", b"count", b'find\t"apple"',
        b"\0", b"rank\t1\tfile", b'COUNT\t"apple"', b"export", b"terms\t9",
    ]  # fmt: skip
    for line in lines:
        reply = served.ask(CAROL, line)
        score.check(reply == b"refused\tnotquery", f"{line!r}: {reply!r}")
    score.check(served.ask(CAROL, b'count\t"apple"') == b"count\t0\t0", "she sees what she saw")
    score.check(served.ask(CAROL, b"count\tapple") == b"refused\tnotexpr", "the language refuses")
    others = served.other_programs()
    score.check(others == [2, 2], f"other programs over the store: {others}")
    denied = as_user(CAROL, lambda: control_here(served.sockets))
    score.check(denied == b"denied", f"the control socket: {denied!r}")


def control_here(sockets: Path) -> bytes:
    """Tries to be a mirror."""
    with socket.socket(socket.AF_UNIX, socket.SOCK_STREAM) as connection:
        try:
            connection.connect(str(sockets / "control"))
        except PermissionError:
            return b"denied"
        connection.sendall(b"ask\tstat\n")
        return connection.recv(100) or b"denied"


def hostile(sockets: Path, kind: int, seconds: float) -> None:
    """One hostile connection."""
    with socket.socket(socket.AF_UNIX, socket.SOCK_STREAM) as connection:
        connection.settimeout(seconds)
        connection.connect(str(sockets / "ask"))
        until = time.monotonic() + seconds
        while time.monotonic() < until:
            if kind == 0:
                connection.sendall(b"x" * 50_000)
            elif kind == 1:
                connection.sendall(b"cou")
                time.sleep(0.5)
            elif kind == 2:
                connection.sendall(b"save\n" * 5_000)
            elif kind == 3:
                connection.sendall(b"paths\n" * 500)
            elif kind == 4:
                connection.sendall(b"find\t10000\t" + b'"w" ^ ' * 63 + b'"w"\n')
                time.sleep(0.2)
            else:
                connection.recv(1)


def hostile_user(number: int, sockets: Path, seconds: float) -> int:
    """Twenty hostile connections of one user, which come again where they are ended."""
    child = os.fork()
    if child:
        return child
    try:
        become(User(number, (number,)))

        def again(kind: int) -> None:
            until = time.monotonic() + seconds
            while time.monotonic() < until:
                try:
                    hostile(sockets, kind, until - time.monotonic())
                except OSError:
                    time.sleep(0.01)

        threads = [threading.Thread(target=again, args=(kind % 6,)) for kind in range(20)]
        for thread in threads:
            thread.start()
        for thread in threads:
            thread.join()
    finally:
        os._exit(0)


def good_client(sockets: Path, seconds: float) -> bytes:
    """Asks again and again: how many answers were wrong, how many came, and the slowest."""
    wrong = count = 0
    slowest = 0.0
    until = time.monotonic() + seconds
    while time.monotonic() < until:
        before = time.monotonic()
        try:
            wrong += ask_here(sockets, b'count\t"apple"') != b"count\t1\t1"
        except OSError:
            wrong += 1
        slowest = max(slowest, time.monotonic() - before)
        count += 1
        time.sleep(0.02)
    return b"%d %d %d" % (wrong, count, slowest * 1000)


def beside_hostile(served: Served, score: Score, seconds: float) -> None:
    """One good client beside two hundred hostile connections.

    On a machine with other work she is slow alone too, so that is measured first.
    """
    alone = [int(one) for one in as_user(ANN, lambda: good_client(served.sockets, 2.0)).split()]
    limit = max(SLOWEST * 1000, SLOWER * alone[2])
    children = [hostile_user(5000 + one, served.sockets, seconds) for one in range(10)]
    time.sleep(0.3)
    told = as_user(ANN, lambda: good_client(served.sockets, seconds - 1)).split()
    for child in children:
        os.waitpid(child, 0)
    wrong, count, slowest = (int(one) for one in told)
    print(f"service: {count} answers beside 200 hostile connections, the slowest {slowest} ms")
    print(f"service: alone it was {alone[1]} in 2 s, the slowest {alone[2]} ms")
    score.check(wrong == 0, f"{wrong} of {count} answers were wrong")
    score.check(count > min(10, alone[1] // 4), f"{count} answers")
    score.check(slowest < limit, f"an answer after {slowest} ms")
    assert served.process is not None
    score.check(served.process.poll() is None, "the service goes on")


def change(served: Served, draw: random.Random, number: int) -> None:
    """Each file says which batch it is of: all of them the same one."""
    for one in range(FILES):
        (served.tree / f"file{one}").write_text(f"batch{number}\n" * draw.randrange(1, 2000))


def whole_batches(served: Served, score: Score, draw: random.Random, rounds: int) -> None:
    """After a kill in the midst of a batch there are all files of one batch, or of the next."""
    change(served, draw, 0)
    served.mirror().wait()
    last = 0
    for number in range(1, rounds + 1):
        change(served, draw, number)
        mirror = served.mirror()
        time.sleep(draw.random() * 0.6)
        killed = draw.choice(("mirror", "service", "program"))
        if killed == "mirror":
            mirror.kill()
        elif killed == "service":
            served.end(signal.SIGKILL)
        else:
            kill_program(served)
        mirror.wait()
        if killed == "service":
            shutil.copytree(served.store, served.folder / "copy", dirs_exist_ok=True)
            counts = saved_counts(served, last, number)
            score.check(sorted(counts) == [0, FILES], f"after a kill of the service: {counts}")
            served.start()
        score.check(mirror_until_done(served), "a turn after a kill")
        last = number
        reply = served.ask(ANN, b'count\tfile > "batch%d"' % number)
        due = b"count\t%d\t%d" % (FILES, FILES)
        score.check(reply == due, f"round {number}, {killed}: {reply!r}")


def mirror_until_done(served: Served) -> bool:
    """A turn, and another one where the program was just being started again."""
    return any(served.mirror().wait() == 0 for _ in range(5))


def saved_counts(served: Served, before: int, after: int) -> list[int]:
    """Of how many files a copy of the store has the text of either batch."""
    queries = b"".join(b'count\t0\tfile > "batch%d"\n' % one for one in (before, after))
    told = subprocess.run(
        [served.program, "run"], input=queries, capture_output=True, cwd=served.folder / "copy"
    )
    shutil.rmtree(served.folder / "copy")
    return [int(line.split(b"\t")[1]) for line in told.stdout.splitlines()]


def kill_program(served: Served, number: int = signal.SIGKILL) -> None:
    """Sends the program that the service holds a signal."""
    assert served.process is not None
    for child in children_of(served.process.pid):
        os.kill(child, number)


def children_of(process: int) -> list[int]:
    """The children of a process's first thread."""
    told = Path(f"/proc/{process}/task/{process}/children").read_text(encoding="ascii")
    return [int(child) for child in told.split()]


def main() -> int:
    """Runs the test."""
    parser = options(__doc__ or "")
    parser.add_argument("--seconds", type=float, default=10.0, help="of hostile clients")
    parser.add_argument("--kills", type=int, default=12)
    given = parser.parse_args()
    needs_root("service")
    needs_program("service", given.program)
    score = Score("service")
    draw = random.Random(given.seed)
    with folder_of_own() as name:
        served = Served(Path(name), given.program)
        served.start()
        try:
            identity(served, score)
            other_lines(served, score)
            beside_hostile(served, score, given.seconds)
            whole_batches(served, score, draw, given.kills)
            score.check(served.end(signal.SIGTERM) == 0, "a clean end at SIGTERM")
            left = sorted(one.name for one in served.sockets.iterdir())
            score.check(left == [], f"sockets that are left: {left}")
            served.start()
            score.check(mirror_until_done(served), "a turn after the end")
            reply = served.ask(ANN, b'count\t"apple"')
            score.check(reply == b"count\t1\t1", f"after the end: {reply!r}")
        finally:
            if served.process is not None and served.process.poll() is None:
                served.end(signal.SIGKILL)
    return score.end()


if __name__ == "__main__":
    sys.exit(main())
