"""The limits of the service, each by itself: replies, connections, silence, age, and time."""

import os
import selectors
import signal
import socket
import sys
import time
from collections import deque
from contextlib import suppress
from pathlib import Path
from unittest import mock

from harness import Score, folder_of_own, needs_program, needs_root, options
from service_test import ANN, BOB, CAROL, Served, as_user, kill_program, mirror_until_done

from wumpus.service import engine  # isort: skip
from wumpus.service.tasks import Asked  # isort: skip
from wumpus.shared.program import Program  # isort: skip

COUNT = b'count\t"apple"'
FILES = 8
AHEAD = 1000  # queries that wait behind the one that is asked


def connected(served: Served) -> socket.socket:
    """A connection of this process."""
    connection = socket.socket(socket.AF_UNIX, socket.SOCK_STREAM)
    connection.settimeout(20)
    connection.connect(str(served.sockets / "ask"))
    return connection


def third_connection(served: Served) -> bytes:
    """What the third connection of a user is told, and the first one then."""
    first, second, third = (connected(served) for _ in range(3))
    told = third.recv(100)
    first.sendall(COUNT + b"\n")
    told += first.recv(100)
    for one in (first, second, third):
        one.close()
    return told


def end_of(served: Served, asks: bool) -> bytes:
    """After how many tenths of a second a connection is ended, which always asks, or never."""
    began = time.monotonic()
    with connected(served) as connection:
        due = 0
        with suppress(BrokenPipeError, ConnectionResetError, TimeoutError):
            while time.monotonic() - began < 20:
                if asks and due < AHEAD:
                    connection.sendall((COUNT + b"\n") * AHEAD)
                    due += AHEAD
                answers = connection.recv(65536)
                due -= answers.count(b"\n")
                if not answers:
                    break
    return b"%d" % ((time.monotonic() - began) * 10)


def of_connections(served: Served, score: Score) -> None:
    """How many of a user there may be, how long a silent one stays, and how old one may be."""
    told = as_user(BOB, lambda: third_connection(served))
    due = b"refused\tconnections\ncount\t%d\t%d\n" % (FILES, FILES)
    score.check(told == due, f"a third connection: {told!r}")
    silent = int(as_user(BOB, lambda: end_of(served, False)))
    score.check(9 <= silent <= 150, f"a silent connection ended after {silent / 10} s")
    old = int(as_user(BOB, lambda: end_of(served, True)))
    score.check(29 <= old <= 190, f"an old connection ended after {old / 10} s")


def of_replies(served: Served, score: Score) -> None:
    """A reply that is longer than is allowed isn't sent, and the next one is."""
    told = served.ask(CAROL, b"paths")
    score.check(told == b"refused\ttoolargereply", f"a long reply: {told!r}")
    told = served.ask(CAROL, COUNT)
    score.check(told == b"count\t%d\t%d" % (FILES, FILES), f"a short one after it: {told!r}")


def of_time(served: Served, score: Score) -> None:
    """A query that takes too long is ended, its user waits, and others are answered."""
    kill_program(served, signal.SIGSTOP)
    began = time.monotonic()
    told = served.ask(ANN, COUNT)
    spent = time.monotonic() - began
    score.check(told == b"refused\ttooslow" and spent < 10, f"a slow query: {told!r}, {spent} s")
    told = served.ask(ANN, COUNT)
    score.check(told == b"refused\ttooslow", f"the same user again: {told!r}")
    told = served.ask(BOB, COUNT)
    score.check(told == b"count\t%d\t%d" % (FILES, FILES), f"another user: {told!r}")


def of_clock(score: Score) -> None:
    """When a query of two seconds is ended: by its processor, by the clock, and by its waiting."""
    selector, pipe = selectors.DefaultSelector(), os.pipe()
    rows = (
        (1.9, 1.9, 0.0, False), (2.2, 2.1, 0.0, True), (3.9, 0.1, 0.0, False),
        (4.1, 0.1, 0.0, True), (15.0, 0.1, 12.0, False), (15.0, 2.1, 12.0, True),
        (15.0, 0.1, 10.0, True), (19.9, 1.0, 18.0, False), (20.1, 1.0, 19.0, True),
        (3.9, 0.1, -7.0, False), (4.1, 0.1, -7.0, True),
    )  # fmt: skip
    pressed = ((3.9, 0.1, 3.0, False), (4.1, 0.1, 4.0, True), (15.0, 0.1, 12.0, True))
    for is_pressed, (now, spent, waited, is_ended) in [
        *((False, row) for row in rows),
        *((True, row) for row in pressed),
    ]:
        clock = mock.Mock(monotonic=mock.Mock(return_value=100.0))
        program = mock.Mock(waiting=deque(), input=pipe[1], output=pipe[0])
        program.spent.return_value, program.waited.return_value = 30.0, 50.0
        with mock.patch.object(engine, "time", clock):
            one = engine.Engine(mock.Mock(), selector, 600.0, mock.Mock(), mock.Mock())
            one.program = program
            one.give(Asked([], COUNT, 2.0, 100, mock.Mock()))
            clock.monotonic.return_value += now
            program.spent.return_value += spent
            program.waited.return_value += waited
            one.look_at_clock(is_pressed)
        told = f"after {now} s, {spent} s of them worked, {waited} s waited, {is_pressed}"
        score.check((one.program is None) == is_ended, told)
    selector.close()
    for descriptor in pipe:
        os.close(descriptor)


def of_waiting(score: Score, folder: Path) -> None:
    """How long a program waited for a processor, as the kernel tells it."""
    script = folder / "busy"
    script.write_text("#!/bin/sh\nwhile :; do :; done\n")
    script.chmod(0o755)
    processor = min(os.sched_getaffinity(0))
    programs = [Program(str(script), folder) for _ in range(2)]
    for one in programs:
        os.sched_setaffinity(one.child.pid, {processor})
    time.sleep(1.0)
    spent, waited = programs[0].spent(), programs[0].waited()
    for one in programs:
        one.kill()
    score.check(waited > 0.1, f"{spent} s worked, {waited} s waited, beside another one")
    score.check(programs[0].waited() == 0.0, "one that has ended")


def main() -> int:
    """Runs the test."""
    given = options(__doc__ or "").parse_args()
    needs_root("limits")
    needs_program("limits", given.program)
    score = Score("limits")
    of_clock(score)
    with folder_of_own() as name:
        of_waiting(score, Path(name))
        served = Served(Path(name), given.program)
        for number in range(FILES):
            path = served.tree / f"file{number}"
            path.write_text("apple\n")
            os.chmod(path, 0o644)
        served.start(
            "--reply-bytes", "100", "--connections-of-user", "2", "--query-seconds", "1",
            "--idle-seconds", "1", "--age-seconds", "3",
        )  # fmt: skip
        try:
            score.check(mirror_until_done(served), "a turn")
            of_connections(served, score)
            of_replies(served, score)
            of_time(served, score)
            score.check(served.end(signal.SIGTERM) == 0, "a clean end at SIGTERM")
        finally:
            if served.process is not None and served.process.poll() is None:
                served.end(signal.SIGKILL)
    return score.end()


if __name__ == "__main__":
    sys.exit(main())
