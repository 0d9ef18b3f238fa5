"""Who may ask and who may be a mirror, which values options have, and what the service tells."""

import os
import resource
import signal
import socket
import subprocess
import sys
import tempfile
import time
from collections.abc import Callable
from contextlib import redirect_stderr, suppress
from io import StringIO
from pathlib import Path
from unittest import mock

from fair_test import status_of
from harness import SERVICE, Score, folder_of_own, needs_program, needs_root, options
from kernel import User
from requests_test import COUNT, SEEN, Hand, begin, start_over
from service_test import ANN, BOB, CAROL, Served, as_user, ask_here

from wumpus.service import command
from wumpus.service.options import parser
from wumpus.shared.accounts import system_at_most

ROOT = User(0, (0,))
DAEMON = User(1, (1,))
NOT_ALLOWED = b"refused\tnotallowed"
DENIED = b"denied"
BAD = [
    ["--stale", "nan"], ["--stale", "-1"], ["--stale", "inf"], ["--query-seconds", "0"],
    ["--query-seconds", "x"], ["--idle-seconds", "nan"], ["--age-seconds", "-inf"],
    ["--connections", "0"], ["--connections", "1.5"], ["--connections-of-user", "-1"],
    ["--reply-bytes", "0"], ["--reply-bytes", "1e3"], ["--connections", "9" * 40],
    ["--mode", "888"], ["--mode", "66"], ["--mode", "4755"], ["--allow", ""], ["--allow", "5-1"],
    ["--allow", "0,-5"], ["--allow", "1-4294967296"], ["--allow", "ann"],
]  # fmt: skip
WITHOUT = [
    ["--group", "nogroup9"], ["--mirror-user", "nobody"], ["--mirror-user", "root"],
    ["--mirror-user", "no such name"], ["--program", "/nowhere"],
]  # fmt: skip


def asked(served: Served, user: User) -> bytes:
    """What a user is answered, or that she can't connect."""

    def ask() -> bytes:
        try:
            return ask_here(served.sockets, COUNT)
        except PermissionError:
            return DENIED

    return as_user(user, ask)


def of_users(served: Served, score: Score) -> None:
    """The group and mode of the socket, lists of users, and user 0."""
    everybody = [ROOT, ANN, BOB, CAROL]
    expected: list[tuple[list[str], list[bytes]]] = [
        ([], [SEEN] * 4),
        (["--group", "2000"], [SEEN, DENIED, SEEN, DENIED]),
        (["--mode", "600"], [SEEN, DENIED, DENIED, DENIED]),
        (["--group", "2000", "--mode", "666"], [SEEN] * 4),
        (["--allow", "1000,1002-1003"], [NOT_ALLOWED, SEEN, NOT_ALLOWED, SEEN]),
        (["--allow", "1001", "--allow", "0"], [SEEN, NOT_ALLOWED, SEEN, NOT_ALLOWED]),
        (["--refuse-root"], [NOT_ALLOWED, SEEN, SEEN, SEEN]),
        (["--refuse-root", "--allow", "0-1000"], [NOT_ALLOWED, SEEN, NOT_ALLOWED, NOT_ALLOWED]),
    ]
    for words, due in expected:
        start_over(served, *words, user=ROOT)
        begin(served).close()
        told = [asked(served, user) for user in everybody]
        score.check(told == due, f"{words}: {told}")
        served.end(signal.SIGTERM)


def as_mirror(served: Served, user: User) -> bytes:
    """What a user is answered at the mirror's socket."""

    def ask() -> bytes:
        try:
            return Hand(served).told(b"ask\tstat") or DENIED
        except PermissionError:
            return DENIED

    return as_user(user, ask)


def of_mirrors(served: Served, score: Score) -> None:
    """The mirror's socket is for user 0, the service's own, and one system account."""
    named = ["--mirror-user", "daemon"]
    expected: list[tuple[list[str], bytes]] = [([], DENIED), (named, b"reply")]
    for words, due in expected:
        start_over(served, *words)
        told = [as_mirror(served, user).split(b"\t")[0] for user in (ROOT, DAEMON, ANN)]
        score.check(told == [b"reply", due, DENIED], f"{words}: {told}")
        os.chmod(served.sockets / "control", 0o666)
        told = [as_mirror(served, ANN)]
        score.check(told == [DENIED], f"{words}: a socket that everybody reaches: {told}")
        served.end(signal.SIGTERM)


def ended(served: Served, words: list[str], hard: int = 4096) -> tuple[int, bytes]:
    """How a service ends that can't begin: its status, and what it says."""

    def bound() -> None:
        resource.setrlimit(resource.RLIMIT_NOFILE, (min(hard, 1024), hard))

    places = ["--folder", str(served.store), "--sockets", str(served.sockets)]
    told = subprocess.run(
        [str(SERVICE / "wumpusd"), *places, *words],
        capture_output=True,
        timeout=60,
        preexec_fn=bound,
        check=False,
    )
    return told.returncode, told.stderr


def of_options(served: Served, score: Score) -> None:
    """What no option may be, and what the service can't begin with: status 2, and a line."""
    for words in BAD:
        with redirect_stderr(StringIO()), suppress(SystemExit):
            score.check(not parser().parse_args(words), f"{words} were taken")
    for words in WITHOUT:
        status, said = ended(served, ["--program", served.program, *words])
        line = said.strip().splitlines()[-1:]
        held = status == 2 and line and line[0].startswith(b"wumpusd: ")
        score.check(bool(held), f"{words}: {status}, {said[-200:]!r}")
    words = ["--program", served.program, "--connections", "500"]
    status, said = ended(served, words, 300)
    score.check(status == 2 and b"descriptors" in said, f"few descriptors: {status}, {said!r}")
    words = ["wumpusd", "--folder", str(served.store)]
    fault = mock.patch.object(command, "serve", side_effect=KeyError("a fault"))
    with mock.patch.object(sys, "argv", words), fault, redirect_stderr(StringIO()) as told:
        status = command.main()
    said_so = told.getvalue().count("\n") == 1 and "KeyError" in told.getvalue()
    score.check(status == 2 and said_so, f"a fault of its own: {status}, {told.getvalue()!r}")
    definitions = served.folder / "login.defs"
    found = []
    for text in ("#SYS_UID_MAX 5\n", "SYS_UID_MAX\t\t499\n", ""):
        definitions.write_text(text)
        found.append(system_at_most(definitions))
    score.check(found == [999, 499, 999], f"the greatest number of a system account: {found}")


def hear(heard: socket.socket, holds: Callable[[list[bytes]], bool], seconds: float) -> list[bytes]:
    """What systemd is told, until something holds of it."""
    told: list[bytes] = []
    until = time.monotonic() + seconds
    while not holds(told) and time.monotonic() < until:
        with suppress(TimeoutError):
            told += heard.recv(4096).split(b"\n")
    return told


def of_reports(served: Served, score: Score) -> None:
    """The file that others read, and what systemd is told."""
    with tempfile.TemporaryDirectory() as name, socket.socket(
        socket.AF_UNIX, socket.SOCK_DGRAM
    ) as heard:
        heard.bind(f"{name}/notify")
        heard.settimeout(0.5)
        about = {"NOTIFY_SOCKET": f"{name}/notify", "WATCHDOG_USEC": "1000000"}
        with mock.patch.dict(os.environ, about):
            start_over(served, "--stale", "15")
            hand = begin(served)
        told = hear(heard, lambda found: b"STATUS=answering" in found, 10)
        due = {b"READY=1", b"WATCHDOG=1", b"STATUS=answering"}
        score.check(due <= set(told), f"systemd is told {told}")
        told = hear(heard, lambda found: found.count(b"WATCHDOG=1") > 2, 10)
        score.check(told.count(b"WATCHDOG=1") > 2, f"and again: {told}")
        served.ask(ANN, COUNT)
        served.ask(ANN, b"save")
        hand.feed(b"nothing")
        hand.told(b"ask\tstat")  # the program began again
        status = status_of(served)
        due_keys = {"format", "written", "started", "fed_age", "heard_age", "stale", "ready",
                    "program", "queries", "connections", "waiting", "slow", "batches"}  # fmt: skip
        score.check(set(status) == due_keys, f"the file has {sorted(status)}")
        score.check(status["batches"] == {"fed": 1, "failed": 1}, f"{status['batches']}")
        score.check(status["queries"]["answered"] == 1, f"{status['queries']}")
        score.check(status["queries"]["refused"].get("notquery") == 1, f"{status['queries']}")
        score.check(status["program"]["memory"] > 0, f"{status['program']}")
        score.check(status["program"]["starts"] == 2, f"{status['program']}")
        score.check(len(status["program"]["why"]) == 1, f"{status['program']}")
        score.check(status["ready"] and not status["stale"] and status["fed_age"] < 60, f"{status}")
        path = served.store / "service.status"
        score.check(path.stat().st_mode & 0o777 == 0o600, "its mode")
        told = hear(heard, lambda found: any(b"too long ago" in one for one in found), 40)
        score.check(any(b"too long ago" in one for one in told), f"stale: {told}")
        score.check(status_of(served)["stale"] is True, "the file says so, too")
        planted = served.store / "service.status.new"
        planted.symlink_to(served.folder / "planted")
        status_of(served)
        score.check(not (served.folder / "planted").exists(), "a link in its place isn't followed")
        served.end(signal.SIGTERM)
        hand.close()


def main() -> int:
    """Runs the test."""
    given = options(__doc__ or "").parse_args()
    needs_root("allow")
    needs_program("allow", given.program)
    score = Score("allow")
    with folder_of_own() as name:
        served = Served(Path(name), given.program)
        try:
            of_users(served, score)
            of_mirrors(served, score)
            of_options(served, score)
            of_reports(served, score)
        finally:
            if served.process is not None and served.process.poll() is None:
                served.end(signal.SIGKILL)
    return score.end()


if __name__ == "__main__":
    sys.exit(main())
