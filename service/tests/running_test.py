"""The mirror that goes on turn by turn: what is asked of it, what it tells, and what fails.

A path that an administrator names is looked at at once; nobody else can ask for that. After a
failure it tries again soon, however seldom its turns are. What it tells stands in its status file.
"""

import argparse
import json
import os
import signal
import subprocess
import sys
import time
from collections.abc import Callable
from pathlib import Path
from typing import Any
from unittest import mock

from harness import SERVICE, Score, folder_of_own, needs_program, needs_root, options
from kernel import User, become
from mirror_test import Place

from wumpus.mirror import command  # isort: skip
from wumpus.shared.numbers import count, seconds, seconds_or_never  # isort: skip
from wumpus.status.files import read_mirror  # isort: skip

ANN, EVE = 1000, 1002
SELDOM = ("--every", "3600")
LATER = 120.0  # seconds, on a machine that has much else to do


def wait_for(holds: Callable[[], bool], seconds: float = LATER) -> bool:
    """Waits until something holds: whether it does."""
    until = time.monotonic() + seconds
    while not holds():
        if time.monotonic() > until:
            return False
        time.sleep(0.05)
    return True


class Running:
    """A mirror that runs, and what it tells."""

    def __init__(self, place: Place, *words: str) -> None:
        self.place = place
        self.path = place.store / "mirror.status"
        self.path.unlink(missing_ok=True)
        self.child = subprocess.Popen(place.words(*SELDOM, *words), stderr=subprocess.PIPE)

    def told(self) -> dict[str, Any]:
        """What the status file has; nothing where there is none."""
        try:
            found: dict[str, Any] = json.loads(self.path.read_text())
        except FileNotFoundError:
            return {}
        return found

    def is_waiting(self) -> bool:
        """Whether a turn is over."""
        return self.told().get("state") == "waiting"

    def walked(self) -> float:
        """When the last walk began that was fed."""
        return float(self.told().get("walk", {}).get("began") or 0.0)

    def names(self) -> int:
        """How many names of user 0 are known."""
        owners: dict[str, dict[str, int]] = self.told().get("owners", {})
        return owners["0"]["names"] if "0" in owners else 0

    def end(self) -> str:
        """Ends it: what it wrote."""
        self.child.send_signal(signal.SIGTERM)
        return self.child.communicate(timeout=LATER)[1].decode()


def asked(place: Place, *words: str) -> subprocess.CompletedProcess[str]:
    """Asks the mirror that runs in the folder of a place."""
    line = [str(SERVICE / "wumpus-mirror"), "--folder", str(place.store), *words]
    return subprocess.run(line, capture_output=True, text=True, timeout=LATER)


def now(place: Place, score: Score) -> None:
    """A path that is walked at once, and it alone, for an administrator alone."""
    (place.tree / "a").write_text("apple\n")
    told = asked(place, "--now", str(place.tree / "new"))
    score.check(told.returncode == 2 and "no mirror is at work" in told.stderr, f"none: {told}")
    running = Running(place, "--quiet")
    score.check(wait_for(running.is_waiting), f"a turn: {running.told()}")
    before, names = running.walked(), running.names()
    (place.tree / "new").write_text("apple\n")
    (place.tree / "other").write_text("apple\n")
    child = os.fork()
    if child == 0:
        become(User(EVE, (EVE,)))
        os._exit(asked(place, "--now", str(place.tree / "new")).returncode)
    status = os.waitstatus_to_exitcode(os.waitpid(child, 0)[1])
    time.sleep(2.5)
    score.check(status == 2 and running.walked() == before, f"a user who asks: {status}")
    told = asked(place, "--now", str(place.tree / "new"))
    score.check(told.returncode == 0, f"an administrator: {told}")
    seen = wait_for(lambda: running.names() == names + 1 and running.is_waiting())
    score.check(seen, f"it isn't looked at: {running.told()}")
    score.check(running.walked() == before, f"no whole walk: {running.told()}")
    told = asked(place, "--force", "--now", str(place.tree / "new"))
    seen = wait_for(lambda: running.names() == names + 2 and running.is_waiting())
    score.check(seen and running.walked() > before, f"a whole walk: {running.told()}")
    (place.tree / "other").unlink()
    asked(place, "--now", str(place.tree / "other"))
    wait_for(lambda: running.names() == names + 1 and running.is_waiting())
    running.end()
    score.check(place.paths() == ["a", "new"], f"afterwards: {place.paths()}")


def again_and_again(place: Place, score: Score) -> None:
    """Who asks for a path again and again doesn't keep whole walks from coming."""
    running = Running(place, "--quiet", "--every", "2")
    score.check(wait_for(running.is_waiting), f"a turn: {running.told()}")
    before, until = running.walked(), time.monotonic() + LATER
    while running.walked() < before + 5.0 and time.monotonic() < until:
        asked(place, "--now", str(place.tree / "a"))
    score.check(running.walked() >= before + 5.0, f"walks go on: {running.told()}")
    running.end()


def status(place: Place, score: Score) -> None:
    """What the status file has, read as the program that shows it does."""
    (place.tree / "b").write_text("apple\n" * 10)
    os.chown(place.tree / "b", ANN, ANN)
    for number in range(20):
        (place.tree / f"eve{number}").write_text("apple\n")
        os.chown(place.tree / f"eve{number}", EVE, EVE)
    running = Running(place, "--budget-names", "10", str(place.tree / "none"))
    score.check(wait_for(running.is_waiting), f"a turn: {running.told()}")
    found = read_mirror(place.store)
    mode = running.path.stat().st_mode & 0o777
    said = running.end()
    score.check(mode == 0o600, f"its mode: {mode:o}")
    if not score.check(found is not None and found[0].walk is not None, "it can't be read"):
        return
    told = found[0]  # type: ignore[index]
    eves = told.owners[EVE]
    score.check(told.owners[ANN].bytes == 60 and told.owners[ANN].names == 1, f"{told.owners}")
    score.check(eves.names == 10 and eves.shut == {"budget-names": 10}, f"hers: {eves}")
    score.check(len([one for one in told.shut if one.owner == EVE]) == 10, f"{told.shut}")
    score.check(told.trouble is not None and "none" in told.trouble, f"{told.trouble}")
    score.check(told.pending_files == 0 and told.held is None, f"{told}")
    score.check(told.walk is not None and told.walk.fed is not None, "when it was fed")
    more = said.count("too many names")
    score.check(more == 6 and "5 more: " in said, f"warnings: five, and a count: {said}")
    (place.tree / "b").unlink()


def starting(place: Place, score: Score, folder: Path) -> None:
    """A mirror that waits for its program tells so; one that finds another at work tells nothing.

    What is missing is told as long as it is.
    """
    program = folder / "hanging"
    program.write_text("#!/bin/sh\nexec sleep 600\n")
    program.chmod(0o755)
    running = Running(place, "--quiet", "--program", str(program))
    is_told = wait_for(lambda: bool(running.told()))
    told = running.told()
    running.end()
    is_starting = is_told and told["state"] == "starting" and told["walk"]["began"] is None
    score.check(is_starting, f"before the first walk: {told}")
    running = Running(place, "--quiet", str(place.tree / "none"))
    score.check(wait_for(running.is_waiting), f"a turn: {running.told()}")
    other = subprocess.run(place.words("--quiet"), capture_output=True, text=True, timeout=LATER)
    score.check(other.returncode == 2 and "another mirror" in other.stderr, f"another: {other}")
    first = running.told()
    wait_for(lambda: bool(running.told()["written"] > first["written"]))
    told = running.told()
    running.end()
    score.check(first["state"] == told["state"] == "waiting", f"it still waits: {told}")
    score.check("none" in (told["trouble"] or ""), f"what is missing: {told['trouble']}")


def again(place: Place, score: Score, folder: Path) -> None:
    """A program that fails at first: the mirror tries again soon."""
    once = folder / "once"
    program = folder / "program"
    program.write_text(f"#!/bin/sh\n[ -e {once} ] || {{ touch {once}; exit 3; }}\n"
                       f'exec {place.program} "$@"\n')  # fmt: skip
    program.chmod(0o755)
    running = Running(place, "--program", str(program))
    score.check(wait_for(running.is_waiting), f"after a failure: {running.told()}")
    said = running.end()
    score.check("status 3" in said, f"what failed: {said}")


def ends(score: Score) -> None:
    """An exception that nobody foresaw ends with 2, and numbers of options are looked at."""
    with (
        mock.patch.object(command, "run", mock.Mock(side_effect=RuntimeError("unforeseen"))),
        mock.patch.object(sys, "argv", ["wumpus-mirror", "/"]),
        mock.patch("traceback.print_exc"),
    ):
        score.check(command.main() == 2, "an exception that nobody foresaw")
    for text in ("0", "-1", "x", "", "1.5", "\u0661", "1_0", "9" * 5000, f"{(1 << 50) + 1}"):
        score.check(is_refused(count, text), f"a count of {text[:20]!r}")
    for text in ("-1", "x", "", "nan", "inf", "1e10", "9" * 5000):
        score.check(is_refused(seconds, text), f"{text[:20]!r} seconds")
        score.check(is_refused(seconds_or_never, text), f"{text[:20]!r} seconds, or never")
    score.check(is_refused(seconds, "0") and seconds_or_never("0") == 0.0, "0 seconds")
    given = (count("1"), count(f"{1 << 50}"), count("7", 7), seconds("0.5"), seconds("1e9"))
    score.check(given == (1, 1 << 50, 7, 0.5, 1e9), f"what is given: {given}")
    score.check(is_refused(lambda text: count(text, 7), "8"), "a count of more than the most")


def is_refused(read: Callable[[str], float], text: str) -> bool:
    """Whether an option refuses a number."""
    try:
        read(text)
    except argparse.ArgumentTypeError:
        return True
    return False


def main() -> int:
    """Runs the test."""
    given = options(__doc__ or "").parse_args()
    needs_root("running")
    needs_program("running", given.program)
    score = Score("running")
    ends(score)
    with folder_of_own() as name:
        place = Place(Path(name), given.program)
        now(place, score)
        again_and_again(place, score)
        status(place, score)
        starting(place, score, Path(name))
        again(place, score, Path(name))
    return score.end()


if __name__ == "__main__":
    sys.exit(main())
