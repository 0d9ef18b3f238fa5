#!/usr/bin/env python3
"""What the mirror and the service cost, over a real tree.

`bench/service.py --wumpus PATH --planner PATH TREE` needs root. Prints a table: turns of the
mirror, answers a second for one and for 32 clients, the time from a changed file to an answer that
knows it, and `rg` over the same tree as the same user, where it is installed.
"""

import argparse
import multiprocessing
import os
import shutil
import socket
import subprocess
import sys
import tempfile
import time
from pathlib import Path
from typing import IO

SERVICE = Path(__file__).resolve().parent.parent / "service"
sys.path.insert(0, str(SERVICE))

from wumpus.shared.script import lines_after  # noqa: E402

USER = 12345
TICKS = os.sysconf("SC_CLK_TCK")


def timed(
    words: list[str], accepted: tuple[int, ...] = (0,), said: IO[str] | None = None
) -> tuple[float, float, int]:
    """Runs a command: seconds of the clock, of the processor, and its peak memory in MB.

    Ends the measure where its status isn't one of those that are accepted.
    """
    began = time.monotonic()
    child = subprocess.Popen(words, stdout=subprocess.DEVNULL, stderr=said)
    _, status, usage = os.wait4(child.pid, 0)
    child.returncode = os.waitstatus_to_exitcode(status)
    if child.returncode not in accepted:
        sys.exit(f"{words[0]} ended with status {child.returncode}")
    spent = usage.ru_utime + usage.ru_stime
    return time.monotonic() - began, spent, usage.ru_maxrss // 1024


def spent_by(process: int) -> float:
    """Seconds of the processor that a process has taken, in the system too."""
    fields = Path(f"/proc/{process}/stat").read_text().rsplit(")", 1)[1].split()
    return (int(fields[11]) + int(fields[12])) / TICKS


def ask(sockets: Path, query: bytes, seconds: float) -> tuple[int, bytes]:
    """Asks one query again and again: how many answers came, and the last one's first line."""
    count = 0
    until = time.monotonic() + seconds
    with socket.socket(socket.AF_UNIX, socket.SOCK_STREAM) as connection:
        connection.connect(str(sockets / "ask"))
        with connection.makefile("rb") as answers:
            while True:
                connection.sendall(query)
                line = answers.readline()
                for _ in range(lines_after(line.rstrip(b"\n"))):
                    answers.readline()
                count += 1
                if time.monotonic() >= until:
                    return count, line


def client(sockets: Path, query: bytes, user: int, seconds: float) -> int:
    """Asks as a user: how many answers came."""
    os.setgroups([])
    os.setresgid(user, user, user)
    os.setresuid(user, user, user)
    return ask(sockets, query, seconds)[0]


class Bench:
    """A service over a tree."""

    def __init__(
        self, program: str, planner: str, tree: str, folder: Path, seconds: float
    ) -> None:
        self.folder = folder
        self.seconds = seconds
        self.tree = tree
        self.store = folder / "store"
        self.sockets = folder / "sockets"
        self.store.mkdir(mode=0o700)
        self.sockets.mkdir(mode=0o755)
        places = ["--folder", str(self.store), "--sockets", str(self.sockets)]
        self.mirror = [str(SERVICE / "wumpus-mirror"), *places, "--planner", planner]
        words = [str(SERVICE / "wumpusd"), *places, "--program", program]
        self.service = subprocess.Popen([*words, "--connections-of-user", "64"])
        time.sleep(1.0)
        children = Path(f"/proc/{self.service.pid}/task/{self.service.pid}/children")
        self.program = int(children.read_text().split()[0])

    def turn(self, what: str, *roots: str) -> None:
        """A turn of the mirror, as a row."""
        before = spent_by(self.program)
        with tempfile.TemporaryFile("w+") as said:
            clock, spent, peak = timed([*self.mirror, *roots], said=said)
            said.seek(0)
            did = said.read().splitlines()[-1].removeprefix("wumpus-mirror: ")
        files = int(did.split(" ")[0])
        told = f"{clock:.1f} s, the mirror's processor {spent:.2f} s, its peak {peak} MB"
        rates = f"{files / clock:.0f} files a second, {files / spent:.0f} of the processor's"
        program = spent_by(self.program) - before
        print(f"| {what}: {did} | {told}: {rates}; the program's {program:.2f} s |", flush=True)

    def answers(self, clients: int, users: int, query: bytes) -> None:
        """Answers a second for so many clients of so many users, as a row."""
        before = spent_by(self.program), spent_by(self.service.pid)
        jobs = [(self.sockets, query, USER + one % users, self.seconds) for one in range(clients)]
        with multiprocessing.get_context("fork").Pool(clients) as pool:
            count = sum(pool.starmap(client, jobs, 1))
        program = (spent_by(self.program) - before[0]) / count * 1000
        service = (spent_by(self.service.pid) - before[1]) / count * 1000
        told = (
            f"{count / self.seconds:.0f} a second; {service:.3f} ms of the service's processor each"
        )
        what = f"{query.split(chr(9).encode())[0].decode()}, {clients} clients of {users} users"
        print(f"| {what} | {told}, {program:.3f} ms of the program's |", flush=True)

    def changed(self, roots: list[str]) -> None:
        """From a changed file to an answer that knows it, as a row."""
        word = f"xyzzy{time.time_ns()}"
        path = self.folder / "changed"
        query = b'count\t"%s"\n' % word.encode()
        words = [*self.mirror, "--quiet", "--every", "0.1", *roots]
        with subprocess.Popen(words) as mirror:
            time.sleep(5.0)  # it goes on turn by turn
            path.write_text(word + "\n")
            path.chmod(0o644)
            began = time.monotonic()
            while ask(self.sockets, query, 0)[1] != b"count\t1\t1\n":
                time.sleep(0.005)
            told = f"{time.monotonic() - began:.2f} s, where turns follow one another"
            mirror.terminate()
        print(f"| a changed file, until an answer that knows it | {told} |", flush=True)


def rows(bench: Bench, word: str) -> None:
    """All rows."""
    print("| Measure | |\n|---|---|")
    roots = [bench.tree, str(bench.folder)]
    bench.turn("first turn", *roots)
    bench.turn("next turn", *roots)
    bench.turn("the one after", *roots)
    for query in (b'count\t"%s"\n' % word.encode(), b"rank\t10\tfile\t%s\n" % word.encode()):
        for clients, users in ((1, 1), (32, 1), (32, 8), (32, 32)):
            bench.answers(clients, users, query)
    for _ in range(3):
        bench.changed(roots)
    if shutil.which("rg"):
        words = ["setpriv", f"--reuid={USER}", f"--regid={USER}", "--clear-groups", "rg"]
        words += ["--no-messages", "-uuu", "-c", "-w", "-i", word, bench.tree]
        for what in ("rg", "rg again"):
            clock, spent, _ = timed(words, (0, 1, 2))
            print(f"| {what}, the same word and user | {clock:.2f} s, processor {spent:.2f} s |")


def main() -> int:
    """Runs the measure."""
    parser = argparse.ArgumentParser(description=__doc__)
    parser.add_argument("--wumpus", required=True, help="the built program")
    parser.add_argument("--planner", required=True, help="the built program wumpus-plan")
    parser.add_argument("--word", default="memory", help="the word that is asked for")
    parser.add_argument("--seconds", type=float, default=10.0, help="of each row of answers")
    parser.add_argument("tree", help="a directory that is mirrored")
    given = parser.parse_args()
    where = None if "TMPDIR" in os.environ else "/var/tmp"  # names come and go in /tmp
    with tempfile.TemporaryDirectory(prefix="wumpus-bench-", dir=where) as name:
        os.chmod(name, 0o755)
        programs = os.path.abspath(given.wumpus), os.path.abspath(given.planner)
        bench = Bench(*programs, given.tree, Path(name), given.seconds)
        try:
            rows(bench, given.word)
        finally:
            bench.service.terminate()
            bench.service.wait()
    return 0


if __name__ == "__main__":
    sys.exit(main())
