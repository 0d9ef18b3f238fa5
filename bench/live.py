#!/usr/bin/env python3
"""What a live mirror costs over very many files, and how soon what is taken away is gone.

`bench/live.py --wumpus PATH --planner PATH --files 1000000 FOLDER` needs root, and a folder on a
tmpfs. It makes the tree of `many.py` there, where it isn't yet, begins service, `wumpus-watch` and
mirror, and prints a table: the start, memory, what a minute at rest takes, and the time from a call
that takes something away to another user's count that lacks it. Turns come once an hour.
"""

import argparse
import json
import os
import socket
import statistics
import subprocess
import sys
import tempfile
import time
from collections.abc import Callable
from pathlib import Path
from typing import Any

from many import IN_DIRECTORY, make

SERVICE = Path(__file__).resolve().parent.parent / "service"
USER = 12345
LONGEST = 1800.0  # seconds that a start may take
STEP = 10  # files of which one has a text


def spent(process: int) -> float:
    """Milliseconds of the processor that a process has taken, with all its threads."""
    tasks = Path(f"/proc/{process}/task").iterdir()
    return sum(int((one / "schedstat").read_text().split()[0]) for one in tasks) / 1e6


def memory(process: int) -> int:
    """Its resident memory, in MB."""
    lines = Path(f"/proc/{process}/status").read_text().splitlines()
    return next(int(one.split()[1]) for one in lines if one.startswith("VmRSS")) // 1024


def children(process: int) -> list[int]:
    """The processes that it began."""
    found: list[int] = []
    for task in Path(f"/proc/{process}/task").iterdir():
        found += map(int, (task / "children").read_text().split())
    return found


class Bench:
    """A service, `wumpus-watch` and a mirror over a tree."""

    def __init__(self, given: argparse.Namespace, tree: Path, folder: Path) -> None:
        self.tree = tree
        self.store, self.sockets = folder / "store", folder / "sockets"
        self.store.mkdir(mode=0o700)
        self.sockets.mkdir(mode=0o755)
        places = ["--folder", str(self.store), "--sockets", str(self.sockets)]
        watch = str(folder / "watch")
        self.began = time.monotonic()
        self.log = open(folder / "log", "wb")
        self.running = [
            subprocess.Popen(words, stderr=self.log)
            for words in (
                [str(SERVICE / "wumpus-watch"), "--socket", watch],
                [str(SERVICE / "wumpusd"), *places, "--program", os.path.abspath(given.wumpus),
                 "--query-seconds", "60", "--idle-seconds", "3600", "--age-seconds", "3600",
                 "--stale", "7200"],
            )
        ]  # fmt: skip
        while not (self.sockets / "control").exists():
            time.sleep(0.05)
        words = [str(SERVICE / "wumpus-mirror"), *places, "--served", "--every", "3600"]
        words += ["--planner", os.path.abspath(given.planner), "--watch", watch, str(tree)]
        self.running.append(subprocess.Popen(words, stderr=self.log))
        self.mirror, self.service = self.running[2].pid, self.running[1].pid

    def told(self) -> dict[str, Any]:
        """The mirror's status."""
        try:
            found: dict[str, Any] = json.loads((self.store / "mirror.status").read_text())
        except FileNotFoundError:
            return {}
        return found

    def wait(self) -> None:
        """Waits until the first turn is over."""
        while self.told().get("state") != "waiting":
            if time.monotonic() - self.began > LONGEST:
                sys.exit("the first turn isn't over")
            time.sleep(0.5)

    def emptier(self) -> int:
        """The process that empties the kernel's queue."""
        words = ((one, Path(f"/proc/{one}/cmdline").read_bytes()) for one in children(self.mirror))
        return next(one for one, line in words if b"emptier" in line)

    def end(self) -> None:
        """Ends all three."""
        for process in reversed(self.running):
            process.terminate()
            process.wait()
        self.log.close()


class Asker:
    """A user who asks on one connection."""

    def __init__(self, sockets: Path) -> None:
        mine, theirs = socket.socketpair()
        self.answers = mine.makefile("rb")
        self.mine = mine
        self.child = os.fork()
        if self.child == 0:
            mine.close()
            self._be(sockets, theirs)
        theirs.close()

    def _be(self, sockets: Path, theirs: socket.socket) -> None:
        try:
            os.setgroups([])
            os.setresgid(USER, USER, USER)
            os.setresuid(USER, USER, USER)
            with socket.socket(socket.AF_UNIX, socket.SOCK_STREAM) as connection:
                connection.connect(str(sockets / "ask"))
                answers = connection.makefile("rb")
                for line in theirs.makefile("rb"):
                    connection.sendall(line)
                    theirs.sendall(answers.readline())
        finally:
            os._exit(0)

    def count(self, word: str) -> int:
        """How many of her files have a word."""
        self.mine.sendall(b'count\t"%s"\n' % word.encode())
        fields = self.answers.readline().split()
        if fields[0] != b"count":
            sys.exit(f"she is answered {fields}")
        return int(fields[1])

    def until(self, word: str, count: int) -> float:
        """Milliseconds until she is told so many files."""
        began = time.monotonic()
        while self.count(word) != count:
            pass
        return (time.monotonic() - began) * 1000


def row(what: str, told: str) -> None:
    """Prints one."""
    print(f"| {what} | {told} |", flush=True)


def times(given: list[float]) -> str:
    """The median, and the worst."""
    return f"median {statistics.median(given):.0f} ms, worst {max(given):.0f} ms, of {len(given)}"


def rows(bench: Bench, files: int, tries: int) -> None:
    """All rows."""
    bench.wait()
    took = spent(bench.mirror) / 1000
    began = time.monotonic() - bench.began
    row("start, until all is fed", f"{began:.0f} s, the mirror's processor {took:.0f} s")
    emptier, (program, *_) = bench.emptier(), children(bench.service)
    processes = {"mirror": bench.mirror, "its child": emptier, "service": bench.service,
                 "program": program}  # fmt: skip
    sizes = ", ".join(f"{name} {memory(one)} MB" for name, one in processes.items())
    row("memory", sizes)
    time.sleep(15)
    before = {name: spent(one) for name, one in processes.items()}
    time.sleep(60)
    at_rest = {name: spent(one) - before[name] for name, one in processes.items()}
    row("a minute at rest", ", ".join(f"{name} {ms:.0f} ms" for name, ms in at_rest.items()))
    asker = Asker(bench.sockets)
    row("her first count", f"{asker.until('work', files // STEP):.0f} ms")
    row("a further one", times([asker.until("work", files // STEP) for _ in range(10)]))
    taken_away(bench.tree, asker, files, tries)


def taken_away(tree: Path, asker: Asker, files: int, tries: int) -> None:
    """What is taken away, until her count lacks it."""

    def after(deed: Callable[[], object], word: str, count: int) -> float:
        deed()
        return asker.until(word, count)

    numbers = [(files // STEP // tries * one) * STEP for one in range(tries)]
    took = []
    for number in numbers:
        top, below = number // IN_DIRECTORY % 100, number // IN_DIRECTORY
        file = tree / f"{top}" / f"{below}" / f"file-{number}.txt"
        assert asker.count(f"{number}") == 1
        took.append(after(lambda: file.chmod(0o600), f"{number}", 0))
    row("`chmod 600` of a file", times(took))
    left = asker.count("work")
    moved = len([one for one in (tree / "7").rglob("*.txt") if one.stat().st_size
                 and one.stat().st_mode & 4])  # fmt: skip
    count = sum(len(os.listdir(below)) for below in (tree / "7").iterdir())
    what = f"a rename of a directory with {count} files"
    row(what, f"{after(lambda: (tree / '7').rename(tree / 'x'), 'work', left - moved):.0f} ms")
    row("`chmod 000` of the directory above all", f"{after(lambda: tree.chmod(0), 'work', 0):.0f} ms")


def main() -> int:
    """Runs the measure."""
    parser = argparse.ArgumentParser(description=__doc__)
    parser.add_argument("--wumpus", required=True, help="the built program")
    parser.add_argument("--planner", required=True, help="the built program wumpus-plan")
    parser.add_argument("--files", type=int, default=1_000_000)
    parser.add_argument("--tries", type=int, default=20, help="files that are taken away")
    parser.add_argument("folder", help="where the tree is made, which is left there")
    given = parser.parse_args()
    tree = Path(given.folder) / "tree"
    if not tree.exists():
        make(tree, given.files)
    tree.chmod(0o755)
    if (tree / "x").exists():
        (tree / "x").rename(tree / "7")
    with tempfile.TemporaryDirectory(prefix="wumpus-bench-", dir="/var/tmp") as name:
        os.chmod(name, 0o755)
        bench = Bench(given, tree, Path(name))
        try:
            rows(bench, given.files, given.tries)
        finally:
            tree.chmod(0o755)
            bench.end()
    return 0


if __name__ == "__main__":
    sys.exit(main())
