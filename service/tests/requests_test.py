"""What the service does for a mirror, and until when it answers: by a mirror in this test's hand.

The program is `troubled.py` over the true one, so a query can take for ever, and a batch can end
the program. A kill fails what was under way and nothing that waits; no descriptor stays; and rights
that are older than is allowed are answered to nobody, whatever failed.
"""

import os
import signal
import socket
import subprocess
import sys
import tempfile
import threading
import time
from collections.abc import Callable
from contextlib import suppress
from pathlib import Path

from harness import Score, folder_of_own, needs_program, needs_root, options
from kernel import User
from service_test import (
    ANN,
    BOB,
    CAROL,
    Served,
    as_user,
    ask_here,
    children_of,
    kill_program,
    wait_for,
)

from wumpus.service.freshness import Freshness, Told
from wumpus.shared.clock import moment

COUNT = b'count\t"apple"'
SEEN = b"count\t1\t1"
NONE = b"count\t0\t0"
STALE = b"refused\tstale"
SPIN = b'count\t"spin"'
QUERY_SECONDS = 1.0
STALE_SECONDS = 6.0
LONG_SECONDS = 60.0


def troubled(folder: Path, program: str) -> str:
    """A program that does as its input says: the path of a script in the folder."""
    path = folder / "troubled"
    about = Path(__file__).resolve().parent / "troubled.py"
    path.write_text(f'#!/bin/sh\nexec {sys.executable} {about} {program} "$@"\n')
    path.chmod(0o755)
    return str(path)


def start_over(served: Served, *words: str, user: User = CAROL) -> None:
    """Starts the service over an empty store, with these options, and waits for an answer.

    The user has to be one who may connect.
    """
    for one in served.store.iterdir():
        if one.is_dir():
            one.rename(served.folder / f"old{time.monotonic_ns()}")
    served.start(*words)
    wait_for(lambda: as_user(user, lambda: ask_here(served.sockets, b"paths")) != b"", 20)


class Hand:
    """A mirror that sends what the test says."""

    def __init__(self, served: Served) -> None:
        self.served = served
        self.socket = socket.socket(socket.AF_UNIX, socket.SOCK_STREAM)
        self.socket.settimeout(30)
        self.socket.connect(str(served.sockets / "control"))
        self.answers = self.socket.makefile("rb")

    def send(self, line: bytes, file: int | None = None) -> None:
        """Sends a line, with a file where there is one."""
        with suppress(BrokenPipeError, ConnectionResetError):
            if file is None:
                self.socket.sendall(line + b"\n")
            else:
                socket.send_fds(self.socket, [line + b"\n"], [file])

    def hear(self) -> bytes:
        """The next answer, without its LF; empty where the service cut the mirror off."""
        with suppress(ConnectionResetError):
            return self.answers.readline().rstrip(b"\n")
        return b""

    def told(self, line: bytes) -> bytes:
        """Sends a line, and gives its answer."""
        self.send(line)
        return self.hear()

    def put(self, lines: list[bytes], due: int | None = None) -> None:
        """Sends a batch of lines, after which the program saves."""
        with tempfile.TemporaryFile() as file:
            file.write(b"".join(line + b"\n" for line in [*lines, b"save"]))
            file.flush()
            self.send(b"batch\t%d" % (len(lines) + 1 if due is None else due), file.fileno())

    def feed(self, *lines: bytes) -> bytes:
        """Feeds a batch, and gives the answer."""
        self.put(list(lines))
        return self.hear()

    def fed(self, ago: int = 0) -> bytes:
        """Tells that the walk was fed which began so many milliseconds ago."""
        return self.told(b"fed\t%d" % (moment() - ago))

    def close(self) -> None:
        """Ends it."""
        self.answers.close()
        self.socket.close()


TREE = (b"create\t9\t1\tapple\t0\t0\t644", b"text\t9\t6", b"apple\n")


def begin(served: Served) -> Hand:
    """A store with one file that everybody may read, and a mirror that told so."""
    hand = Hand(served)
    hand.put(list(TREE), 3)
    if hand.hear() != b"ok" or hand.fed() != b"ok" or hand.told(b"done") != b"ok":
        raise SystemExit("requests: a first batch failed")
    return hand


def later(what: Callable[[], bytes]) -> tuple[threading.Thread, list[bytes]]:
    """Does something beside, and keeps what it gives."""
    kept: list[bytes] = []
    thread = threading.Thread(target=lambda: kept.append(what()))
    thread.start()
    return thread, kept


def descriptors(served: Served) -> int:
    """How many descriptors the service has."""
    if served.process is None:
        return 0
    return len(list(Path(f"/proc/{served.process.pid}/fd").iterdir()))


def claims(served: Served, score: Score) -> None:
    """Nothing is answered before a walk is told, nor where that is too long ago."""
    hand = Hand(served)
    score.check(hand.told(b"reset") == b"ok", "an empty store")
    hand.put(list(TREE), 3)
    score.check(hand.hear() == b"ok", "a first batch")
    told = served.ask(ANN, COUNT)
    score.check(told == b"refused\tnotready", f"before the end of a turn: {told!r}")
    score.check(hand.told(b"done") == b"ok", "a turn without a walk that was told")
    told = served.ask(ANN, COUNT)
    score.check(told == STALE, f"where no walk was told: {told!r}")
    told = hand.told(b"fed\t%d" % (moment() + 5000))
    score.check(told.startswith(b"failed"), f"a walk that is yet to begin: {told!r}")
    for line in (b"fed", b"fed\t", b"fed\tx", b"fed\t-1", b"fed\t1\t2", b"fed\t" + b"9" * 30):
        told = hand.told(line)
        score.check(told.startswith(b"failed"), f"{line!r}: {told!r}")
    score.check(served.ask(ANN, COUNT) == STALE, "and none of these was taken")
    score.check(hand.fed() == b"ok", "a walk")
    score.check(served.ask(ANN, COUNT) == SEEN, "an answer")
    score.check(hand.fed(60_000) == b"ok", "a walk that is older")
    score.check(served.ask(ANN, COUNT) == SEEN, "of several walks the last one counts")
    time.sleep(STALE_SECONDS + 0.5)
    told = served.ask(ANN, COUNT)
    score.check(told == STALE, f"after a while: {told!r}")
    score.check(hand.fed() == b"ok", "a later walk")
    score.check(served.ask(ANN, COUNT) == SEEN, "an answer again")
    score.check(hand.told(b"reset") == b"ok", "the store is moved aside")
    hand.told(b"done")
    told = served.ask(ANN, COUNT)
    score.check(told == STALE, f"after a reset: {told!r}")
    hand.close()


def taken_late(served: Served, score: Score) -> None:
    """A query that came in time is refused where it is taken too late, or answered too late."""
    hand = begin(served)
    hand.fed()
    kill_program(served, signal.SIGSTOP)
    first, one = later(lambda: served.ask(BOB, COUNT))
    time.sleep(0.1)
    second, other = later(lambda: served.ask(ANN, COUNT))
    time.sleep(0.2)
    if served.process is not None:
        served.process.send_signal(signal.SIGSTOP)
        time.sleep(STALE_SECONDS + 0.5)
        kill_program(served, signal.SIGCONT)
        time.sleep(0.3)  # the answer waits in the pipe
        served.process.send_signal(signal.SIGCONT)
    first.join()
    second.join()
    score.check(one == [STALE], f"answered too late: {one}")
    score.check(other == [STALE], f"taken too late: {other}")
    hand.close()


def failures(served: Served, score: Score) -> None:
    """A batch that fails moves no claim, and leaves what was saved."""
    hand = begin(served)
    hand.put([b"chmod\t9\t000", b"chmod\t77\t000"])
    hand.send(b"fed\t%d" % moment())
    told = [hand.hear(), hand.hear()]
    wrong = [one for one in told if not one.startswith(b"failed")]
    score.check(not wrong, f"a batch that fails, and its walk: {told}")
    told = [served.ask(ANN, COUNT)]
    score.check(told == [SEEN], f"what was saved stays: {told}")
    for _ in range(20):
        score.check(hand.feed(b"chmod\t9\t644") == b"ok", "a batch between")
        hand.put([b"chmod\t9\t000", b"chmod\t77\t000"])
        told = [hand.hear(), hand.told(b"ask\tcount\\t1000\\t\"apple\"")]
        kept = told[1] == b"reply\tcount\\t1\\t1"
        score.check(kept, f"the program didn't save what isn't whole: {told}")
    time.sleep(STALE_SECONDS + 0.5)
    told = [served.ask(ANN, COUNT)]
    score.check(told == [STALE], f"and its claim stays where it was: {told}")
    score.check(hand.feed(b"chmod\t9\t600") == b"ok" and hand.fed() == b"ok", "a batch after it")
    told = [served.ask(ANN, COUNT)]
    score.check(told == [NONE], f"what was taken away: {told}")
    for name, begins in ((b"nomemory-batch", b"failed\tmemory"), (b"noroom-batch", b"failed\t")):
        answer = hand.feed(b"mkdir\t20\t1\t%s\t0\t0\t755" % name)
        score.check(answer.startswith(begins), f"{name!r}: {answer!r}")
        told = [hand.told(b"ask\tchmod\\t20\\t755")]
        score.check(told == [b"reply\trefused\\tnosuch"], f"nothing of {name!r} is left: {told}")
    hand.close()


def in_the_midst(served: Served, score: Score) -> None:
    """A program that is killed in the midst of a batch begins with its last save, as claimed."""
    hand = begin(served)
    lines = [b"chmod\t9\t600", *[b"mkdir\t%d\t1\td%d\t0\t0\t755" % (one, one) for one in
             range(100, 20_100)]]  # fmt: skip
    hand.put(lines)
    time.sleep(0.03)
    kill_program(served)
    told = hand.hear()
    score.check(told.startswith(b"failed") or told == b"ok", f"killed in its midst: {told!r}")
    due = SEEN if told != b"ok" else NONE
    reply = served.ask(CAROL, COUNT)
    score.check(reply == due, f"its last save: {reply!r} after {told!r}")
    time.sleep(STALE_SECONDS + 0.5)
    reply = served.ask(CAROL, COUNT)
    score.check(reply == STALE, f"and its claim: {reply!r}")
    hand.close()


def beside_slow(served: Served, score: Score) -> None:
    """What a mirror brings while a query runs goes in after it, though the query is killed."""
    hand = begin(served)
    thread, told = later(lambda: served.ask(BOB, SPIN))
    time.sleep(0.4)
    score.check(hand.fed() == b"ok" and thread.is_alive(), "a walk is told at once")
    began = time.monotonic()
    hand.put([b"chmod\t9\t600"])
    hand.send(b"fed\t%d" % moment())
    answers = [hand.hear(), hand.hear()]
    taken = time.monotonic() - began
    thread.join()
    score.check(told == [b"refused\ttooslow"], f"a query that takes for ever: {told}")
    score.check(answers == [b"ok", b"ok"], f"a batch that waited meanwhile: {answers}")
    score.check(taken < 10 * QUERY_SECONDS, f"it went in after {taken:.1f} s")
    score.check(served.ask(ANN, COUNT) == NONE, "the right was taken away")
    hand.close()


def beside_busy(served: Served, score: Score) -> None:
    """A query that waits for a processor doesn't keep a mirror waiting for that."""
    hand = begin(served)
    assert served.process is not None
    processor = min(os.sched_getaffinity(0))
    busy = [subprocess.Popen(["sh", "-c", "while :; do :; done"]) for _ in range(12)]
    try:
        for process in (*children_of(served.process.pid), *(one.pid for one in busy)):
            os.sched_setaffinity(process, {processor})
        thread, told = later(lambda: served.ask(BOB, SPIN))
        time.sleep(0.5)
        began = time.monotonic()
        answer = hand.feed(b"chmod\t9\t600")
        taken = time.monotonic() - began
    finally:
        for one in busy:
            one.kill()
            one.wait()
    thread.join()
    score.check(told == [b"refused\ttooslow"], f"a query beside other work: {told}")
    score.check(answer == b"ok" and taken < 6 * QUERY_SECONDS, f"{answer!r} after {taken:.1f} s")
    hand.close()


def descriptors_stay(served: Served, score: Score) -> None:
    """Each file that came is closed, whatever came of its line; and each line has its answer."""
    hand = begin(served)
    hand.told(b"ask\tstat")
    before = descriptors(served)
    endless = os.open("/dev/zero", os.O_RDONLY)
    with tempfile.TemporaryFile() as file:
        file.write(b"save\n")
        file.flush()
        for line in (b"batch", b"batch\tx", b"batch\t0", b"batch\t1\t2", b"nothing", b"ask\tsave",
                     b"batch\t2", b"batch\t1"):  # fmt: skip
            hand.send(line, file.fileno())
            if line == b"batch\t2":  # a batch with fewer lines never ends, until the program does
                time.sleep(0.3)
                kill_program(served)
            told = hand.hear()
            good = line in (b"batch\t1", b"ask\tsave")
            score.check(bool(told) and told.startswith(b"failed") != good, f"{line!r}: {told!r}")
        hand.send(b"batch\t1", endless)
        told = hand.hear()
        score.check(told.startswith(b"failed"), f"no file for a batch: {told!r}")
        score.check(hand.told(b"batch\t1").startswith(b"failed"), "a batch without a file")
    os.close(endless)
    hand.told(b"ask\tstat")
    after = descriptors(served)
    score.check(after == before, f"{after} descriptors after {before}")
    for line in (b"", b"ask", b"ask\t", b"ask\ta\\nb", b"reset\tnow", b"done\t1"):
        told = hand.told(line)
        score.check(told == b"failed\tnot understood", f"{line!r}: {told!r}")
    hand.send(b"x" * 1_000_000)
    score.check(hand.hear() == b"", "a mirror that sends a line without end")
    hand.close()
    again = begin_again(served)
    score.check(again == b"ok", f"the next mirror: {again!r}")


def begin_again(served: Served) -> bytes:
    """What another mirror is answered."""
    hand = Hand(served)
    told = hand.fed()
    hand.close()
    return told


def damaged(served: Served, score: Score) -> None:
    """A mirror is told where the store can't be opened, and may move it aside.

    The service, which merges and saves when it likes, stands still while the store is damaged.
    """
    hand = begin(served)
    if served.process is not None:
        served.process.send_signal(signal.SIGSTOP)
        end_program(served)
        (served.store / "wumpus-store" / "root").write_bytes(b"damaged")
        served.process.send_signal(signal.SIGCONT)
    time.sleep(0.5)
    told = hand.told(b"ask\tstat")
    score.check(told.startswith(b"failed\tthe store can't be opened"), f"damaged: {told!r}")
    score.check(hand.told(b"reset") == b"ok", "it is moved aside")
    score.check(hand.told(b"ask\tstat").startswith(b"reply\tstat"), "an empty one is opened")
    hand.close()


def end_program(served: Served) -> None:
    """Kills the program of a service, and waits for the end of the true one below it."""
    assert served.process is not None
    programs = [two for one in children_of(served.process.pid) for two in children_of(one)]
    kill_program(served)
    wait_for(lambda: not any(Path(f"/proc/{one}/exe").exists() for one in programs))


def of_clock(score: Score) -> None:
    """Claims by a clock of the test's: what is stale, and what a batch that failed leaves."""
    now = [10_000]
    found = Freshness(lambda: now[0], 1000)
    score.check(found.fed(10_001) is Told.FUTURE and found.walk is None, "a moment to come")
    score.check(found.fed(10_000) is Told.TAKEN and not found.is_stale(), "this moment")
    now[0] = 11_000
    score.check(not found.is_stale(), "as old as it may be")
    now[0] = 11_001
    score.check(found.is_stale(), "older")
    found.batch_failed()
    score.check(found.fed(11_001) is Told.DOUBTED and found.walk == 10_000, "a walk that failed")
    found.batch_went_in()
    score.check(found.fed(11_001) is Told.TAKEN, "one that was fed after all")
    found.batch_failed()
    now[0] = 11_005
    score.check(found.fed(11_003) is Told.TAKEN, "a walk that began after the failure")
    never = Freshness(lambda: now[0], 0)
    score.check(not never.is_stale(), "where nothing is ever stale")


def main() -> int:
    """Runs the test."""
    given = options(__doc__ or "").parse_args()
    needs_root("requests")
    needs_program("requests", given.program)
    score = Score("requests")
    of_clock(score)
    with folder_of_own() as name:
        folder = Path(name)
        served = Served(folder, troubled(folder, given.program))
        short = ["--stale", f"{STALE_SECONDS}", "--query-seconds", f"{LONG_SECONDS}"]
        long = ["--stale", f"{LONG_SECONDS}", "--query-seconds", f"{QUERY_SECONDS}"]
        parts = [(part, short) for part in (claims, taken_late, failures, in_the_midst)]
        parts += [(part, long) for part in (beside_slow, beside_busy, descriptors_stay, damaged)]
        try:
            for part, words in parts:
                start_over(served, *words, "--idle-seconds", "60")
                part(served, score)
                score.check(served.end(signal.SIGTERM) == 0, f"a clean end after {part.__name__}")
        finally:
            if served.process is not None and served.process.poll() is None:
                served.end(signal.SIGKILL)
    return score.end()


if __name__ == "__main__":
    sys.exit(main())
