"""What is taken away waits for nothing that a user can cause, and one owner's costs are bounded.

Names and rights go before all looks; what waits is shut, and waits in turn; each budget shuts what
its owner has, and nobody else's; a batch for which the program has no memory is cut.
"""

import contextlib
import mmap
import os
import sys
import time
from collections.abc import Callable
from typing import Any
from unittest import mock

from trial import ANN, BOB, CLOSED, EVE, SUBORDINATE, ZOE, Trial, beside, person_of, run_parts

from wumpus.mirror import budget, feed, look, names as names_of  # isort: skip
from wumpus.mirror.budget import Budget  # isort: skip
from wumpus.mirror.reasons import Reason  # isort: skip
from wumpus.mirror.turn import Mirror  # isort: skip
from wumpus.shared.progress import Progress  # isort: skip


def rights_first(trial: Trial) -> None:
    """A right is gone when the walk is fed, whatever waits for a look, and `fed` tells so."""
    secret = trial.write("ann/secret", ANN)
    for number in range(300):
        trial.write(f"eve/{number}", EVE)
    trial.old()
    trial.check(trial.count(BOB) == b"count\t301\t301", f"at first: {trial.count(BOB)!r}")
    for number in range(300):
        (trial.tree / "eve" / f"{number}").chmod(0o640)
    secret.chmod(0o600)
    trial.reach.fed_at.clear()
    before = time.clock_gettime_ns(time.CLOCK_BOOTTIME) // 1_000_000
    trial.walk()
    after = time.clock_gettime_ns(time.CLOCK_BOOTTIME) // 1_000_000
    trial.check(trial.count(BOB) == CLOSED, f"after the walk: {trial.count(BOB)!r}")
    trial.check(trial.mirror.pending.files == 301, f"{trial.mirror.pending.files} files wait")
    kinds = [kind for kind, _ in trial.reach.fed_at]
    trial.check(kinds == ["batch", "fed"], f"what was fed: {kinds}")
    trial.check(before <= trial.reach.fed_at[-1][1] <= after, "the moment that is told")
    trial.walk()
    trial.check(trial.reach.fed_at[-1][0] == "fed", "a walk without a change is told too")
    trial.turn()
    trial.check(trial.count(ANN) == b"count\t1\t1", f"her own: {trial.count(ANN)!r}")
    trial.check(trial.mirror.pending.files == 0, "nothing waits any more")


def in_turn(trial: Trial) -> None:
    """Owners take turns, and what waits longest comes first."""
    for number in range(300):
        trial.write(f"eve/{number}", EVE)
    trial.walk()
    trial.write("zoe/one", ZOE)
    trial.write("eve/late", EVE)
    trial.walk()
    taken = [trial.mirror.pending.take() for _ in range(2)]
    owners = [{place.file.owner for place in places} for places in taken]
    trial.check({ZOE} in owners and {EVE} in owners, f"whose turn it was: {owners}")
    left = trial.mirror.pending.queues[EVE]
    trial.check(left[-1].name == b"late", f"the last: {left[-1].name!r}")
    trial.turn()
    trial.check(trial.count(BOB) == b"count\t302\t302", f"in the end: {trial.count(BOB)!r}")


def young(trial: Trial) -> None:
    """A file that was just looked at stays, but not where the way to it opens meanwhile.

    Its text may be another one by now, under the same ctime, and was meant for a closed directory.
    """
    trial.write("open/file", ANN)
    closed = trial.write("closed/file", ANN, "secret\n" * 100)
    closed.parent.chmod(0o700)
    with mock.patch.object(look, "SETTLED", 3600 * 10**9):
        trial.turn()
        with open(closed, "r+b") as file, mmap.mmap(file.fileno(), 0) as text:
            text[:7] = b"public\n"  # as a process may that mapped the file before
        trial.walk()
        trial.check(trial.count(BOB) == b"count\t1\t1", f"what is young: {trial.count(BOB)!r}")
        trial.turn()
        closed.parent.chmod(0o755)
        trial.walk()
        told = trial.count(BOB, "secret")
        trial.check(told == CLOSED, f"what was meant for the closed directory: {told!r}")
        trial.turn()
        trial.check(trial.count(BOB, "public") == b"count\t1\t1", "what is there now")
        trial.walk()
        trial.check("open/file" in trial.paths(BOB), "what is young, once more")
        trial.walk()
        trial.check("open/file" not in trial.paths(BOB), "what waited over a walk")


def names(trial: Trial) -> None:
    """Names: the new ones of who has too many are left out, and those that were there stay."""
    trial.budget = Budget(names=50)
    for number in range(40):
        trial.write(f"eve/{number}", EVE)
    trial.write("ann/one", ANN)
    trial.turn()
    for number in range(60):
        trial.write(f"eve/a{number}", EVE)
        os.chown(trial.tree / "eve" / f"a{number}", SUBORDINATE + number, EVE)
    trial.write("ann/two", ANN)
    trial.turn()
    paths = trial.paths(BOB)
    trial.check({f"eve/{number}" for number in range(40)} <= set(paths), "the old ones stay")
    trial.check({"ann/one", "ann/two"} <= set(paths), "another's")
    eves = [path for path in paths if path.startswith("eve/")]
    trial.check(len(eves) == 49, f"{len(eves)} of 50 names, one of which is the directory's")
    told = sum(n[Reason.NAMES] for n in trial.mirror.remarks.counts.values())
    trial.check(told == 51, f"{told} are told of")
    shown = [one for one in trial.progress.noted if "too many names" in one]
    trial.check(len(shown) == 5, "five in full")
    for number in range(40):
        (trial.tree / "eve" / f"{number}").unlink()
    trial.turn()
    trial.turn()
    eves = [path for path in trial.paths(BOB) if path.startswith("eve/")]
    trial.check(len(eves) == 49, f"{len(eves)} where there is room again")


def directories(trial: Trial) -> None:
    """Directories, of which a known one stays."""
    trial.budget = Budget(directories=5)
    for number in range(4):
        trial.write(f"eve/{number}/file", EVE)
    trial.turn()
    for number in range(20):
        trial.write(f"eve/a{number}/file", EVE)
        trial.write(f"ann/{number % 4}/file{number}", ANN)
    trial.turn()
    paths = trial.paths(BOB)
    eves = [path for path in paths if path.startswith("eve/")]
    trial.check(eves == [f"eve/{number}/file" for number in range(4)], f"hers: {eves}")
    trial.check(len([path for path in paths if path.startswith("ann/")]) == 20, "another's")
    trial.check(trial.shut(EVE, Reason.DIRECTORIES) == 20, "they are told of")


def links(trial: Trial) -> None:
    """Names of one file: where there are too many, new ones are left out."""
    trial.budget = Budget(links=10)
    one = trial.write("eve/one", EVE)
    for number in range(9):
        os.link(one, trial.tree / "eve" / f"link{number}")
    trial.turn()
    trial.check(len(trial.paths(BOB)) == 10, "ten names")
    for number in range(50):
        os.link(one, trial.tree / "eve" / f"more{number}")
    trial.turn()
    trial.check(len(trial.paths(BOB)) == 10, f"and no more: {len(trial.paths(BOB))}")
    trial.check(trial.shut(EVE, Reason.LINKS) == 50, "they are told of")


def text_bytes(trial: Trial) -> None:
    """Bytes of texts: what is new is shut, what has its text keeps it, and isn't read again."""
    trial.budget = Budget(text_bytes=1000)
    for number in range(8):
        trial.write(f"eve/{number}", EVE, "apple " * 20)
    trial.old()
    for number in range(8):
        trial.write(f"eve/a{number}", EVE, "apple " * 20)
    trial.write("ann/one", ANN, "apple " * 20)
    trial.old()
    paths = trial.paths(BOB)
    trial.check({f"eve/{number}" for number in range(8)} <= set(paths), f"the old ones: {paths}")
    trial.check(len(paths) == 9, f"a thousand bytes: {paths}")
    trial.check(trial.shut(EVE, Reason.BYTES) == 8, "they are told of")
    trial.write("eve/0", EVE, "apple")
    trial.old()
    trial.check(len(trial.paths(BOB)) == 9, "no room for one more")
    trial.write("eve/1", EVE, "apple")
    trial.old()
    trial.check(len(trial.paths(BOB)) == 10, f"room for one: {len(trial.paths(BOB))}")


def seconds(trial: Trial) -> None:
    """Time: what is left unread is kept and shut, and the others are seen."""
    for number in range(10):
        trial.write(f"eve/{number}/file", EVE)
        trial.write(f"ann/{number}/file", ANN)
        trial.write(f"shared/{number}", EVE)
    os.chown(trial.tree / "shared", 0, 0)
    (trial.tree / "shared").chmod(0o1777)
    trial.write("shared/ann", ANN)
    for number in range(40):
        trial.write(f"zoe/{number % 4}/{number}", EVE if number >= 4 else ZOE)
    trial.turn()
    slow = {os.stat(trial.tree / "eve" / f"{number}").st_ino for number in range(10)}
    slow |= {os.stat(trial.tree / "zoe" / f"{number}").st_ino for number in range(4)}
    trial.budget = Budget(seconds=5.0)
    clock = Clock()
    with (
        mock.patch.object(names_of, "time", clock),
        mock.patch.object(os, "scandir", slowly(slow, clock)),
    ):
        trial.turn()
    paths = trial.paths(BOB)
    trial.check(len([one for one in paths if one.startswith("ann/")]) == 10, "another's are seen")
    eves = [one for one in paths if one.startswith("eve/")]
    trial.check(len(eves) < 10, f"{len(eves)} of hers")
    trial.check(trial.shut(EVE, Reason.SECONDS) > 0, "the others are told of")
    trial.check("shared/ann" in paths, "another's file in a directory of user 0")
    trial.check(len([one for one in paths if one.startswith("zoe/")]) == 40, "who lets her write")
    nodes = len(trial.mirror.state.tree.nodes)
    trial.budget = Budget()
    report = trial.turn()
    trial.check(len(trial.paths(BOB)) == 71, f"with time again: {len(trial.paths(BOB))}")
    trial.check(len(trial.mirror.state.tree.nodes) == nodes, "nothing was removed")
    trial.check(report.texts == 0, f"{report.texts} texts were sent again")


class Clock:
    """A clock that goes on only where it is told to."""

    def __init__(self) -> None:
        self.now = 0.0

    def monotonic(self) -> float:
        """Seconds."""
        return self.now


def slowly(folders: set[int], clock: Clock) -> Callable[[int], Any]:
    """Has some directories take two seconds each."""
    real = os.scandir

    def listing(descriptor: int) -> Any:
        if os.fstat(descriptor).st_ino in folders:
            clock.now += 2.0
        return real(descriptor)

    return listing


def deep(trial: Trial) -> None:
    """Very many directories, very deep: the way to them is looked at once for many of them."""
    descriptor = os.open(trial.tree, os.O_RDONLY)
    for level in range(220):
        os.mkdir("d", dir_fd=descriptor)
        below = os.open("d", os.O_RDONLY, dir_fd=descriptor)
        os.close(descriptor)
        descriptor = below
    for number in range(750):
        os.mkdir(f"{number}", dir_fd=descriptor)
        os.mkdir(f"{number}/d", dir_fd=descriptor)
    os.close(descriptor)
    time.sleep(0.1)
    calls = 0
    real = {call: getattr(os, call) for call in ("stat", "fstat", "open")}

    def counted(call: str) -> Callable[..., Any]:
        def made(*words: Any, **named: Any) -> Any:
            nonlocal calls
            calls += 1
            return real[call](*words, **named)

        return made

    with contextlib.ExitStack() as patches:
        for call in real:
            patches.enter_context(mock.patch.object(os, call, counted(call)))
        trial.walk()
    trial.check(len(trial.mirror.state.tree.entries) > 1720, "all of them are seen")
    trial.check(calls < 12 * 1720, f"{calls} calls for 1,720 directories")


def memory(trial: Trial) -> None:
    """A batch that the program has no memory for is cut, and a text that it hasn't is shut."""
    for number in range(300):
        trial.write(f"ann/{number}", ANN, f"apple {number}\n" * 100)
    trial.write("ann/large", ANN, "apple " * 30000)
    trial.reach.lines, trial.reach.size = 100, 100_000
    with mock.patch.object(feed, "LINES_AT_LEAST", 20):
        trial.turn()
    trial.check(trial.count(BOB) == b"count\t30000\t300", f"pieces: {trial.count(BOB)!r}")
    trial.check("ann/large" not in trial.paths(BOB), "a text without memory")
    trial.check(trial.shut(ANN, Reason.MEMORY) == 1, "it is told of")
    trial.reach.lines = trial.reach.size = sys.maxsize
    again = Mirror(trial.reach, trial.store, Progress("test", True))
    again.begin(False)
    same = again.state.tree == trial.mirror.state.tree
    trial.check(same, "what is written is what the program has")
    trial.check(again.state.complete, "that all was looked at once is written")
    trial.turn()
    trial.check(trial.count(BOB) == b"count\t60000\t301", f"with memory: {trial.count(BOB)!r}")


def patience(trial: Trial) -> None:
    """Who never rests has her own files shut, and nobody else's."""
    trial.write("eve/file", EVE)
    for number in range(5):
        trial.write(f"ann/{number}/file", ANN)
    trial.old()

    def touch() -> None:
        os.chmod(trial.tree / "eve", 0o755)

    with beside(touch), mock.patch.object(budget, "PATIENCE_OF_OWNER", 0.3):
        trial.turn()
    trial.check(trial.count(BOB) == b"count\t5\t5", f"the others: {trial.count(BOB)!r}")
    trial.check("eve/file" in trial.paths(0), "hers is kept")
    accounts = budget.Accounts(Budget(), person_of)
    for _ in range(100):
        accounts.wait(accounts.of_owner(EVE), 0.2)
    is_patient = [accounts.is_patient(accounts.of_owner(one)) for one in (EVE, SUBORDINATE, ANN)]
    trial.check(is_patient == [False, False, True], f"hers alone is spent: {accounts.patience}")


PARTS = (
    rights_first, in_turn, young, names, directories, links, text_bytes, seconds, deep, memory,
    patience,
)  # fmt: skip


if __name__ == "__main__":
    sys.exit(run_parts("bounds", __doc__ or "", PARTS))
