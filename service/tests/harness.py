"""What the tests of the service share."""

import argparse
import atexit
import os
import shutil
import sys
import tempfile
import time
from pathlib import Path

SERVICE = Path(__file__).resolve().parent.parent
sys.path.insert(0, str(SERVICE))

TOLD_EVERY = 15.0  # seconds
BUILT = SERVICE.parent / "crates" / "wumpus" / "out" / "wumpus"
STAND_IN = SERVICE / "tests" / "stand_in"
BUILT_PLANNER = BUILT.parents[2] / "wumpus_plan" / "out" / "wumpus_plan"
STAND_IN_PLANNER = SERVICE / "tests" / "stand_in_plan"


class Score:
    """Counts what passed and what failed; the last line says it."""

    def __init__(self, name: str) -> None:
        self.name = name
        self.passed = 0
        self.failed = 0

    def check(self, holds: bool, what: str) -> bool:
        """Counts one thing, and tells what failed, the first twenty times."""
        if holds:
            self.passed += 1
        else:
            self.failed += 1
            if self.failed <= 20:
                print(f"{self.name}: {what}", flush=True)
        return holds

    def end(self) -> int:
        """Prints the count: the exit status."""
        print(f"{self.name}: {self.passed} passed, {self.failed} failed", flush=True)
        return 1 if self.failed else 0


class Pace:
    """Tells how far a long test is, now and then."""

    def __init__(self, name: str, count: int, what: str) -> None:
        self.name = name
        self.count = count
        self.what = what
        self.began = self.told = time.monotonic()

    def spent(self) -> float:
        """Seconds since the beginning."""
        return time.monotonic() - self.began

    def tell(self, done: int) -> None:
        """Tells it, where nothing was told for a while."""
        if time.monotonic() - self.told > TOLD_EVERY:
            self.told = time.monotonic()
            of = f"{done} of {self.count} {self.what}"
            print(f"{self.name}: {of} after {self.spent():.0f} s", flush=True)


def absolute(path: str) -> str:
    """The path from the root on, for a program that is run in another folder."""
    return os.path.abspath(path)


def options(about: str) -> argparse.ArgumentParser:
    """Options that each test has."""
    parser = argparse.ArgumentParser(description=about)
    add = parser.add_argument
    usual = BUILT if os.access(BUILT, os.X_OK) else STAND_IN
    about_program = "the program wumpus; where none is built, the stand-in"
    add("--program", type=absolute, default=str(usual), help=about_program)
    parser.add_argument("--seed", type=int, default=1)
    return parser


def needs_root(name: str) -> None:
    """Ends a test that has to take on the ids of users, where that isn't allowed."""
    if os.geteuid() != 0:
        print(f"{name}: skipped, it needs root to take on the ids of users")
        print(f"{name}: 0 passed, 0 failed")
        sys.exit(0)


def needs_program(name: str, program: str) -> None:
    """Ends a test where there is no program, and tells where the stand-in is to answer.

    A mirror that is begun later finds the planner that was built or installed with the program.
    """
    if program == str(STAND_IN):
        print(f"{name}: the stand-in answers, there is no program at {BUILT}", flush=True)
    if not os.access(program, os.X_OK):
        print(f"{name}: there is no program at {program}: make builds it")
        sys.exit(1)
    put_planner(planner_of(program))


def planner_of(program: str) -> str:
    """The `wumpus-plan` that was built or installed with a program, or else the stand-in."""
    path = Path(program)
    built = path.parent.parent.parent / "wumpus_plan" / "out" / "wumpus_plan"
    for planner in (built, path.with_name("wumpus-plan"), BUILT_PLANNER):
        if os.access(planner, os.X_OK):
            return str(planner)
    return str(STAND_IN_PLANNER)


def put_planner(planner: str) -> None:
    """Has each mirror that is begun from now on find this program as `wumpus-plan`."""
    folder = tempfile.mkdtemp(prefix="wumpus-planner-")
    os.chmod(folder, 0o755)
    os.symlink(planner, f"{folder}/wumpus-plan")
    os.environ["PATH"] = f"{folder}:{os.environ.get('PATH', os.defpath)}"
    atexit.register(_remove, folder, os.getpid())


def _remove(folder: str, process: int) -> None:
    """Removes a folder at the end of the process that made it, and not at that of a child."""
    if os.getpid() == process:
        shutil.rmtree(folder, ignore_errors=True)


def folder_of_own() -> tempfile.TemporaryDirectory[str]:
    """A new folder that everybody may pass through.

    Where nothing else is said, it is in `/var/tmp`: names come and go in `/tmp` all the while, and
    the mirror looks again at what is below a directory that changed.
    """
    where = None if "TMPDIR" in os.environ else "/var/tmp"
    folder = tempfile.TemporaryDirectory(prefix="wumpus-test-", dir=where)
    os.chmod(folder.name, 0o755)
    return folder


def quick_folder() -> tempfile.TemporaryDirectory[str]:
    """A new folder in memory where there is such a place: the end of a save waits for no disk."""
    where = "/dev/shm" if os.access("/dev/shm", os.W_OK) else None
    return tempfile.TemporaryDirectory(prefix="wumpus-test-", dir=where)
