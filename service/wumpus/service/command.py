"""The command line of `wumpusd`."""

import argparse
import os
import resource
import signal
import subprocess
import sys
import time
import traceback
from pathlib import Path
from types import FrameType

from ..shared.accounts import system_account
from ..shared.notify import notify
from ..shared.persons import Persons
from ..shared.program import Program, die_with_parent
from ..shared.store import ASK, CONTROL, Aside, Failed, check_own, only_program
from .loop import Places, Service
from .options import allowed_of, bounds_of, mode_of, parser
from .sockets import group_number, listening, listening_for
from .status import Reports

OTHER_DESCRIPTORS = 64  # beside those of users' connections


def log(text: str) -> None:
    """A line on standard error, for the journal."""
    print(f"wumpusd: {text}", file=sys.stderr, flush=True)


class Mirrors:
    """The mirror as a child, which goes on turn by turn; one that ends is started again."""

    def __init__(self, given: argparse.Namespace) -> None:
        self.words: list[str] = []
        self.child: subprocess.Popen[bytes] | None = None
        self.begun = 0.0
        if given.mirror:
            places = ["--served", "--folder", given.folder, "--sockets", given.sockets]
            self.words = [given.mirror, *places, *given.words]

    def look(self) -> None:
        """Starts it where it doesn't run, at most every ten seconds."""
        if not self.words or time.monotonic() - self.begun < 10.0 and self.begun:
            return
        if self.child is None or self.child.poll() is not None:
            self.begun = time.monotonic()
            try:
                self.child = subprocess.Popen(self.words, preexec_fn=die_with_parent)
            except OSError as error:
                log(f"the mirror can't be started: {error}")

    def end(self) -> None:
        """Ends it."""
        if self.child is not None:
            self.child.terminate()
            self.child.wait()


def main() -> int:
    """Runs the command line: 0 after SIGTERM or SIGINT, 1 where the program failed at its end.

    2 is for whatever else ended it.
    """
    given = parser().parse_args()
    try:
        with only_program(Path(given.folder)):
            return serve(given)
    except (Failed, OSError) as error:
        log(str(error))
    except Exception as error:
        where = traceback.extract_tb(error.__traceback__)[-1]
        place = f"{Path(where.filename).name}:{where.lineno}"
        log(f"a fault of its own at {place}: {type(error).__name__}: {error}")
    return 2


def serve(given: argparse.Namespace) -> int:
    """What `main` does, while nobody else runs the program: the exit status.

    Raises `Failed`, and `OSError`.
    """
    folder, sockets = Path(given.folder), Path(given.sockets)
    check_own(sockets)
    have_descriptors(given.connections)
    mirrors = Mirrors(given)
    reports = Reports(folder, log)
    persons = Persons(log, Path(given.subuid))
    persons.look()
    aside = Aside(folder, log)

    def tick(service: Service) -> None:
        mirrors.look()
        aside.look()
        reports.look(service)

    try:
        service = Service(
            lambda: Program(given.program, folder),
            places_of(given, folder, sockets),
            bounds_of(given),
            persons,
            log,
            tick,
        )
        return run(service, reports)
    finally:
        mirrors.end()
        for name in (ASK, CONTROL):
            (sockets / name).unlink(missing_ok=True)


def places_of(given: argparse.Namespace, folder: Path, sockets: Path) -> Places:
    """The folder and the sockets, which listen from here on. Raises `Failed`, and `OSError`."""
    group = -1 if given.group is None else group_number(given.group)
    mirror = None if given.mirror_user is None else system_account(given.mirror_user)
    others = () if mirror is None else (mirror,)
    return Places(
        folder,
        listening(sockets / ASK, mode_of(given), group),
        listening_for(sockets / CONTROL, mirror),
        allowed_of(given),
        frozenset([0, os.geteuid(), *others]),
    )


def have_descriptors(connections: int) -> None:
    """Has room for so many connections. Raises `Failed` where the system gives less."""
    soft, hard = resource.getrlimit(resource.RLIMIT_NOFILE)
    wanted = connections + OTHER_DESCRIPTORS
    if soft != resource.RLIM_INFINITY and soft < wanted:
        if hard != resource.RLIM_INFINITY and hard < wanted:
            raise Failed(f"{connections} connections are more than the {hard} descriptors here")
        resource.setrlimit(resource.RLIMIT_NOFILE, (wanted, hard))


def run(service: Service, reports: Reports) -> int:
    """Answers until a signal: the exit status."""

    def stop(_number: int, _frame: FrameType | None) -> None:
        service.stop()

    signal.signal(signal.SIGTERM, stop)
    signal.signal(signal.SIGINT, stop)
    notify(b"READY=1")
    try:
        return service.run()
    finally:
        notify(b"STOPPING=1")
        reports.write(service)
