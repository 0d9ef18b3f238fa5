"""Who asks much doesn't keep others from asking: time, connections, kills, and merges, by person.

Users under many numbers, with slow queries, with queries that end the program, and with changing
groups stand beside honest ones. What is counted is how many of theirs are answered while an honest
user waits, so a slow machine changes nothing. The program is `troubled.py` over the true one.
"""

import json
import os
import signal
import socket
import struct
import sys
import time
from collections.abc import Callable
from contextlib import suppress
from functools import partial
from pathlib import Path
from typing import Any

from harness import Score, folder_of_own, needs_program, needs_root, options
from kernel import User, become
from requests_test import COUNT, SEEN, SPIN, Hand, begin, later, start_over, troubled
from service_test import ANN, BOB, CAROL, Served, as_user, ask_here, kill_program, wait_for

EVE = 3000  # who has the numbers from FIRST_OF_EVE on
FIRST_OF_EVE = 300_000
NUMBERS = 65_536
SLOW = b'count\t"busy300"'
SECONDS = 6.0  # or as many as slow queries take
SLOW_ONES = 15
WAITING = 300.0  # seconds for an answer, on a machine with other work
AHEAD = 500
TOO_SLOW = b"refused\ttooslow"
STOPPED = b"refused\tstopped"


def answers(sockets: Path, queries: list[bytes], seconds: float) -> bytes:
    """Asks ahead, again and again: when each answer came, as milliseconds."""
    when = []
    until = time.monotonic() + seconds
    due = 0
    with socket.socket(socket.AF_UNIX, socket.SOCK_STREAM) as connection:
        connection.settimeout(WAITING)
        connection.connect(str(sockets / "ask"))
        while time.monotonic() < until:
            if due < len(queries):
                connection.sendall(b"".join(line + b"\n" for line in queries))
                due += len(queries)
            for _ in range(connection.recv(65536).count(b"\n")):
                when.append(time.monotonic())
                due -= 1
    return struct.pack(f"<{len(when)}d", *when)


def beside(user: User, what: Callable[[], bytes]) -> tuple[int, int]:
    """Does something as a user in a child: its number, and where its result is read."""
    reading, writing = os.pipe()
    child = os.fork()
    if child == 0:
        try:
            become(user)
            with open(writing, "wb") as out:
                out.write(what())
        finally:
            os._exit(0)
    os.close(writing)
    return child, reading


def results(children: list[tuple[int, int]]) -> list[list[float]]:
    """What children gave: moments."""
    found = []
    for child, reading in children:
        with open(reading, "rb") as told:
            data = told.read()
        os.waitpid(child, 0)
        found.append(list(struct.unpack(f"<{len(data) // 8}d", data)))
    return found


def honest(sockets: Path, seconds: float) -> bytes:
    """Asks now and then: when each query was sent and answered, and whether rightly."""
    told = b""
    until = time.monotonic() + seconds
    while time.monotonic() < until:
        sent = time.monotonic()
        right = ask_here(sockets, COUNT) == SEEN
        told += struct.pack("<3d", sent, time.monotonic(), float(right))
        time.sleep(0.02)
    return told


def seconds_for(served: Served) -> float:
    """How long a test is to take, so that there are some slow queries in it."""
    began = time.monotonic()
    served.ask(CAROL, SLOW)
    return max(SECONDS, SLOW_ONES * (time.monotonic() - began))


def by_person(served: Served, score: Score) -> None:
    """Slow queries under eight numbers of one person: an honest user waits for one of them."""
    seconds = seconds_for(served)
    children = [
        beside(User(FIRST_OF_EVE + one, (1,)), lambda: answers(served.sockets, [SLOW], seconds))
        for one in range(8)
    ]
    time.sleep(0.5)
    good = beside(ANN, lambda: honest(served.sockets, seconds - 1.0))
    told = results([good, *children])
    asked = [tuple(told[0][place : place + 3]) for place in range(0, len(told[0]), 3)]
    slow = sorted(one for some in told[1:] for one in some)
    most = max((sum(sent < one < came for one in slow) for sent, came, _ in asked), default=99)
    wrong = sum(not right for _, _, right in asked)
    print(f"fair: {len(asked)} answers beside {len(slow)} slow ones of one person")
    score.check(len(slow) > 3 and len(asked) > 3 and not wrong, f"{wrong} of {len(asked)} wrong")
    score.check(most <= 2, f"an honest user waited for {most} queries of one person")


def by_time(served: Served, score: Score) -> None:
    """Slow queries and quick ones, asked ahead: who has quick ones gets far more answers."""
    dear = [User(3005, (3005, 77777, one)) for one in (1, 2)]
    seconds = seconds_for(served)
    for name, users, query in (
        ("slow queries", [User(3004, (3004,))], SLOW),
        ("changing groups", dear, COUNT),
    ):
        asks = partial(answers, served.sockets, [query], seconds)
        slow = [beside(user, asks) for user in users]
        quick = beside(BOB, partial(answers, served.sockets, [COUNT] * AHEAD, seconds))
        told = results([quick, *slow])
        many, few = len(told[0]), sum(len(one) for one in told[1:])
        print(f"fair: {many} quick answers beside {few} of {name}")
        score.check(few >= 2 and many > 10 * few, f"{name}: {few} answers beside {many}")


def of_connections(served: Served, score: Score) -> None:
    """Where all connections are taken, who has most loses one, and an honest user none."""
    told = as_user(ANN, lambda: kept_one(served.sockets))
    score.check(told == b"15 1", f"newcomers who are answered, and one who was there: {told!r}")


def kept_one(sockets: Path) -> bytes:
    """How many of 15 newcomers are answered beside a flood, and whether this connection stays."""
    old = patient(sockets)
    told = [is_answered(old)]
    for _ in range(15):
        with patient(sockets) as fresh:
            told.append(is_answered(fresh))
    return b"%d %d" % (sum(told[1:]), told[0] and is_answered(old))


def patient(sockets: Path) -> socket.socket:
    """A connection, for which one waits: with a timeout the kernel wouldn't."""
    connection = socket.socket(socket.AF_UNIX, socket.SOCK_STREAM)
    connection.connect(str(sockets / "ask"))
    connection.settimeout(20)
    return connection


def is_answered(connection: socket.socket) -> bool:
    """Whether a connection is there, and its query is answered."""
    with suppress(OSError):
        connection.sendall(COUNT + b"\n")
        return connection.recv(100).rstrip(b"\n") == SEEN
    return False


def flood(sockets: Path, seconds: float) -> bytes:
    """Connections that come again as soon as they are ended."""
    held: list[socket.socket] = []
    until = time.monotonic() + seconds
    while time.monotonic() < until:
        with suppress(OSError):
            held.append(socket.socket(socket.AF_UNIX, socket.SOCK_STREAM))
            held[-1].connect(str(sockets / "ask"))
            held[-1].sendall(b"cou")
        held = held[-200:]
        time.sleep(0.002)
    return b""


def beside_floods(served: Served, score: Score) -> None:
    """Five persons, one of them under 36 numbers, take what connections there are."""
    users = [User(FIRST_OF_EVE + one, (1,)) for one in range(36)]
    users += [User(3010 + one, (1,)) for one in range(4)]
    children = [beside(user, lambda: flood(served.sockets, 5.0)) for user in users]
    time.sleep(1.0)
    of_connections(served, score)
    results(children)


def status_of(served: Served) -> dict[str, Any]:
    """What the service tells of itself, written after this moment."""
    before = time.time()
    path = served.store / "service.status"

    def read() -> dict[str, Any]:
        told: dict[str, Any] = json.loads(path.read_text())
        return told

    wait_for(lambda: path.exists() and read()["written"] > before)
    return read()


def of_kills(served: Served, score: Score) -> None:
    """A query that takes for ever: one kill for all that its person has, and she waits."""
    before = status_of(served)["program"]["starts"]
    together = [
        beside(User(FIRST_OF_EVE + one, (1,)), lambda: ask_here(served.sockets, SPIN).ljust(16))
        for one in range(8)
    ]
    for child, reading in together:
        with open(reading, "rb") as told:
            answer = told.read().rstrip()
        os.waitpid(child, 0)
        score.check(answer == TOO_SLOW, f"one of eight slow queries: {answer!r}")
    after = status_of(served)
    kills = after["program"]["starts"] - before
    score.check(kills == 1, f"{kills} kills for eight queries of one person")
    slow = [one["uid"] for one in after["slow"]]
    score.check(slow == [EVE], f"who waits: {slow}")
    reply = [served.ask(User(EVE, (EVE,)), COUNT), served.ask(ANN, COUNT)]
    score.check(reply == [TOO_SLOW, SEEN], f"she herself, and another: {reply}")


def of_ends(served: Served, score: Score) -> None:
    """A query that takes all memory counts as a kill, another end of the program at second."""
    told = [served.ask(User(3020, (1,)), one) for one in (b'count\t"nomemory"', COUNT)]
    score.check(told == [STOPPED, TOO_SLOW], f"a query without memory: {told}")
    lines = [b'count\t"crash"', COUNT, b'count\t"crash"', COUNT]
    told = [served.ask(User(3021, (1,)), one) for one in lines]
    due = [STOPPED, SEEN, STOPPED, TOO_SLOW]
    score.check(told == due, f"queries in which the program ends: {told}")


def of_age(served: Served, score: Score) -> None:
    """A query whose connection is too old when it is taken isn't asked."""
    kill_program(served, signal.SIGSTOP)
    first, _ = later(lambda: served.ask(CAROL, COUNT))
    time.sleep(0.3)
    second, told = later(lambda: as_user(BOB, lambda: ask_here(served.sockets, COUNT)))
    time.sleep(3.0)
    kill_program(served, signal.SIGCONT)
    first.join()
    second.join()
    score.check(told == [b""], f"a query of an old connection: {told}")
    score.check(served.ask(BOB, COUNT) == SEEN, "a new one")


def of_merges(served: Served, score: Score, log: Path) -> None:
    """What was merged is saved before long, so that a kill doesn't lose it."""
    hand = Hand(served)
    for number in range(20, 26):
        text = b"word%d " % number * 200
        hand.put([b"create\t%d\t1\tf%d\t0\t0\t644" % (number, number),
                  b"text\t%d\t%d" % (number, len(text)), text, b"flush"], 4)  # fmt: skip
        score.check(hand.hear() == b"ok", "a batch")
    last = at_rest(log)[-2:]  # each batch ends with a save too
    score.check(last == [b"work\t200", b"save"], f"after merging: {last}")
    parts = hand.told(b"ask\tstat").split(b"\\t")[-1]
    log.write_bytes(b"")
    kill_program(served)
    wait_for(lambda: b"work" in log.read_bytes(), 60.0)
    works = at_rest(log).count(b"work\t200")
    score.check(works == 1, f"after a kill there is nothing to merge: {works} lines")
    score.check(hand.told(b"ask\tstat").split(b"\\t")[-1] == parts, "as many parts as before")
    hand.close()


def at_rest(log: Path) -> list[bytes]:
    """The lines of a log that doesn't grow any more."""
    before = -1
    while (size := log.stat().st_size) != before:
        before = size
        time.sleep(2.0)
    return log.read_bytes().splitlines()


def of_service(served: Served, score: Score, log: Path) -> None:
    """What needs a service."""
    subordinate = served.folder / "subuid"
    subordinate.write_text(f"{EVE}:{FIRST_OF_EVE}:{NUMBERS}\n")
    words = ["--subuid", str(subordinate), "--idle-seconds", "60", "--query-seconds"]
    parts: list[tuple[Callable[[], None], list[str]]] = [
        (lambda: by_person(served, score), ["60"]),
        (lambda: by_time(served, score), ["60"]),
        (lambda: beside_floods(served, score), ["60", "--connections", "40"]),
        (lambda: of_kills(served, score), ["2"]),
        (lambda: of_ends(served, score), ["60"]),
        (lambda: of_age(served, score), ["60", "--age-seconds", "2"]),
        (lambda: of_merges(served, score, log), ["60"]),
    ]
    for part, more in parts:
        if part is parts[-1][0]:
            os.environ["TROUBLED_LOG"] = str(log)
        start_over(served, *words, *more)
        begin(served).close()
        part()
        score.check(served.end(signal.SIGTERM) == 0, "a clean end at SIGTERM")


def main() -> int:
    """Runs the test."""
    given = options(__doc__ or "").parse_args()
    needs_root("fair")
    needs_program("fair", given.program)
    score = Score("fair")
    with folder_of_own() as name:
        folder = Path(name)
        log = folder / "log"
        served = Served(folder, troubled(folder, given.program))
        try:
            of_service(served, score, log)
        finally:
            if served.process is not None and served.process.poll() is None:
                served.end(signal.SIGKILL)
    return score.end()


if __name__ == "__main__":
    sys.exit(main())
