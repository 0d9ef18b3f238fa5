"""The walls of workers: hostile deeds with each wall alone, with all, and with none.

Each deed is done by a process of a user of its own. Without walls it has to succeed, else the test
shows nothing; with any one of the walls that are said to hold it, and with all of them, it mustn't.
So each wall has deeds that fail here without it. Then hostile documents, clients and filters.
"""

import os
import select
import signal
import subprocess
import sys
import time
from collections.abc import Callable
from dataclasses import dataclass
from pathlib import Path
from unittest import mock

from deeds import DEEDS, DESCRIPTORS, DOCUMENT, LANDLOCK, LIMITS, SECCOMP, Deed, Place, become, echo
from extracting import PROGRAM
from harness import Score, folder_of_own, needs_root, options

from wumpus.extract import system, walls  # isort: skip
from wumpus.extract.calls import Action, Rule, program_of  # isort: skip
from wumpus.extract.documents import Document  # isort: skip
from wumpus.extract.filters import FILTERS  # isort: skip
from wumpus.extract.kinds import PLAIN  # isort: skip
from wumpus.extract.trial import Untrusted, try_walls  # isort: skip
from wumpus.extract.walls import Allowance, Walls  # isort: skip
from wumpus.extract.worker import CodeTask, begin  # isort: skip

HOSTILE = 64511
ALLOWED = Allowance(1, 256)
PATIENCE = 40.0


def open_document(data: bytes, is_sealed: bool) -> int:
    """A memory file with some bytes, as it is given to a worker, or without any defence."""
    if is_sealed:
        document = Document.of(data)
        os.fchown(document.descriptor, HOSTILE, HOSTILE)
        return document.descriptor
    descriptor = os.memfd_create("deed", os.MFD_CLOEXEC)
    os.write(descriptor, data)
    return descriptor


def put_up(wanted: frozenset[str], ready: Walls, descriptors: tuple[int, int, int]) -> None:
    """Some walls, in the order of a worker."""
    if LANDLOCK in wanted:
        ready.restrict()
    if DESCRIPTORS in wanted:
        walls.hold_only(*descriptors)
    else:
        os.dup2(descriptors[0], 0)
        os.dup2(descriptors[1], 1)
    if LIMITS in wanted:
        walls.limit(ALLOWED)
    if SECCOMP in wanted:
        system.forbid_new_privileges()
        system.filter_calls(ready.program)


def outcome(process: int, reading: int) -> bool:
    """Whether a process says that it did its deed."""
    told = b""
    if select.select([reading], [], [], PATIENCE)[0]:
        told = os.read(reading, 100)
    os.close(reading)
    os.kill(process, signal.SIGKILL)
    os.waitpid(process, 0)
    return told == b"x"


def attempt(place: Place, deed: Deed, wanted: frozenset[str], ready: Walls) -> bool:
    """Whether a deed succeeds with some walls."""
    reading, writing = os.pipe()
    document = open_document(echo(), DOCUMENT in wanted)
    nowhere = os.open(os.devnull, os.O_RDWR)
    process = os.fork()
    if process == 0:
        try:
            become(HOSTILE)
            put_up(wanted, ready, (document, writing, nowhere))
            if deed.do(place):
                os.write(1, b"x")
        finally:
            os._exit(0)
    for one in (writing, document, nowhere):
        os.close(one)
    return outcome(process, reading)


@dataclass(frozen=True)
class Hostile:
    """A deed as what a worker does in place of a filter."""

    walls: Walls
    deed: Deed
    place: Place

    def run(self) -> None:
        """Does it, and says so."""
        if self.deed.do(self.place):
            os.write(1, b"x")


def attempt_as_worker(place: Place, deed: Deed, ready: Walls) -> bool:
    """Whether a deed succeeds in a worker as it is."""
    reading, writing = os.pipe()
    process = os.fork()
    if process == 0:
        try:
            become(HOSTILE)
            document = open_document_here(echo())
            nowhere = os.open(os.devnull, os.O_RDWR)
            task = Hostile(ready, deed, place)
            os.waitpid(begin(task, (document, writing, nowhere), ALLOWED), 0)
        finally:
            os._exit(0)
    os.close(writing)
    return outcome(process, reading)


def open_document_here(data: bytes) -> int:
    """A document of this process."""
    return Document.of(data).descriptor


def deeds(folder: Path, score: Score) -> None:
    """Each deed without walls, with each wall that holds it, and in workers as they are."""
    place = Place.made(folder, HOSTILE)
    code, program = Walls.for_code(), Walls.for_program("/usr/bin/pdftotext")
    shown = 0
    try:
        for deed in DEEDS:
            if attempt(place, deed, frozenset(), code):
                shown += 1
            else:
                print(f"walls: {deed.what} fails without walls too: this machine has other ones")
            for wall in deed.held_by:
                done = attempt(place, deed, frozenset({wall}), code)
                score.check(not done, f"{deed.what}: done with {wall} alone")
            done = attempt_as_worker(place, deed, code)
            score.check(not done, f"{deed.what}: done by a worker that is code")
            if not deed.by_program:
                done = attempt_as_worker(place, deed, program)
                score.check(not done, f"{deed.what}: done by a worker that is a program")
    finally:
        place.close()
    score.check(shown >= 30, f"{shown} of {len(DEEDS)} deeds succeed without walls")
    print(f"walls: {shown} of {len(DEEDS)} deeds succeed without walls", flush=True)


def ends_with_parent(score: Score) -> None:
    """A worker whose server is killed ends too."""
    told, tells = os.pipe()
    server = os.fork()
    if server == 0:
        become(HOSTILE)
        document, nowhere = open_document_here(b""), os.open(os.devnull, os.O_RDWR)
        begin(Sleeper(Walls.for_code()), (document, tells, nowhere), ALLOWED)
        os.close(tells)
        signal.pause()
    os.close(tells)
    score.check(os.read(told, 1) == b"s", "a worker sleeps")
    os.kill(server, signal.SIGKILL)
    os.waitpid(server, 0)
    # The pipe is at its end when nobody holds it.
    ready = select.select([told], [], [], 3)[0]
    score.check(bool(ready) and os.read(told, 1) == b"", "it ends with its server")
    os.close(told)


@dataclass(frozen=True)
class Sleeper:
    """A worker that says that it is there, and stays."""

    walls: Walls

    def run(self) -> None:
        """Sleeps."""
        os.write(1, b"s")
        time.sleep(60)


def do_nothing() -> None:
    """Does nothing."""


def root_is_nobody(folder: Path, score: Score) -> None:
    """What root forks isn't root, even where no other wall is there."""
    secret = folder / "of-root"
    secret.write_bytes(b"x")
    secret.chmod(0o600)
    ways: list[tuple[Callable[[], None], bytes]] = [(do_nothing, b"x"), (walls.leave_rights, b"")]
    for leave, due in ways:
        told, tells = os.pipe()
        process = os.fork()
        if process == 0:
            try:
                leave()
                os.write(tells, secret.read_bytes())
            finally:
                os._exit(0)
        os.close(tells)
        score.check(os.read(told, 1) == due, f"root's file is {due!r} to what root forks")
        os.close(told)
        os.waitpid(process, 0)


def refusals(folder: Path, score: Score) -> None:
    """The server serves only without rights, and where each wall stands."""
    landlock_calls = ("landlock_create_ruleset", "landlock_add_rule", "landlock_restrict_self")
    no_landlock = [Rule(one, Action.NOT_KNOWN) for one in landlock_calls]
    killed = [Rule("landlock_restrict_self", Action.KILL)]
    refused = [Rule("landlock_restrict_self", Action.NOT_PERMITTED)]
    no_filter = [Rule("prctl", Action.NOT_PERMITTED, 0, 0xFFFFFFFF, 22)]
    no_capability = ["setpriv", f"--reuid={HOSTILE}", f"--regid={HOSTILE}"]
    plain = [*no_capability, "--clear-groups"]
    cases: list[tuple[str, list[str], list[Rule], str]] = [
        ("root", [], [], "as root"),
        ("a group", [*no_capability, "--groups=4"], [], "with groups"),
        (
            "a capability",
            [*plain, "--inh-caps=+dac_read_search", "--ambient-caps=+dac_read_search"],
            [],
            "with a capability",
        ),
        ("no Landlock", plain, no_landlock, "Landlock"),
        ("Landlock kills", plain, killed, "each worker is killed"),
        ("Landlock fails", plain, refused, "can read nothing"),
        ("no seccomp", plain, no_filter, "can read nothing"),
        ("a bad table", plain, [], "line 1"),
    ]
    for what, words, rules, due in cases:
        table = folder / "documents"
        table.write_text("pdf nonsense\n" if what == "a bad table" else "")
        command = [*words, PROGRAM, "--check", "--documents", str(table)]
        told = subprocess.run(
            command, capture_output=True, text=True, preexec_fn=lambda: before(rules)
        )
        right = told.returncode == 2 and due in told.stderr and told.stdout == ""
        score.check(right, f"{what}: {told.returncode} {told.stderr}")
    told = subprocess.run([*plain, PROGRAM, "--check"], capture_output=True, text=True)
    score.check(told.returncode == 0 and "html" in told.stdout, f"nothing wrong: {told.stderr}")


def before(rules: list[Rule]) -> None:
    """Has the kernel refuse some calls to this process and its children."""
    if rules:
        system.forbid_new_privileges()
        system.filter_calls(program_of(rules, Action.ALLOW))


def open_walls(score: Score) -> None:
    """The server finds out that a wall that it put up doesn't hold."""
    child = os.fork()
    if child == 0:
        become(HOSTILE)
        status = 0
        open_to_all = mock.patch.multiple(Walls, filter=mock.DEFAULT, restrict=mock.DEFAULT)
        with open_to_all:
            try:
                try_walls({PLAIN: CodeTask(Walls.for_code(), FILTERS[PLAIN])})
            except Untrusted:
                status = 7
        os._exit(status)
    score.check(os.waitstatus_to_exitcode(os.waitpid(child, 0)[1]) == 7, "open walls are found")
    for open_one, due in ((LANDLOCK, 1), (SECCOMP, 1), ("none", 0)):
        status = status_of_worker(open_one)
        score.check(status == due, f"a worker tries its walls itself, {open_one} open: {status}")


def status_of_worker(open_wall: str) -> int:
    """How a worker of a text ends, one of whose walls doesn't hold."""
    child = os.fork()
    if child == 0:
        become(HOSTILE)
        ready = Walls.for_code()
        if open_wall == LANDLOCK:
            mock.patch.object(ready.rules, "restrict", do_nothing).start()
        if open_wall == SECCOMP:
            ready.program = program_of([], Action.ALLOW)
        document, nowhere = open_document_here(b""), os.open(os.devnull, os.O_RDWR)
        task = CodeTask(ready, FILTERS[PLAIN])
        process = begin(task, (document, nowhere, nowhere), ALLOWED)
        os._exit(os.waitstatus_to_exitcode(os.waitpid(process, 0)[1]))
    return os.waitstatus_to_exitcode(os.waitpid(child, 0)[1])


def main() -> int:
    """Runs the test."""
    options(__doc__ or "").parse_args()
    needs_root("walls")
    score = Score("walls")
    with folder_of_own() as name:
        folder = Path(name)
        deeds(folder, score)
        ends_with_parent(score)
        root_is_nobody(folder, score)
        refusals(folder, score)
        open_walls(score)
    return score.end()


if __name__ == "__main__":
    sys.exit(main())
