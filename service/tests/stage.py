"""A service, `wumpus-watch` and a mirror that seldom makes turns, and users whose rights are taken.

What was taken away is gone soon, though no walk comes.
"""

import json
import os
import socket
import struct
import subprocess
import time
from collections.abc import Callable
from pathlib import Path
from typing import Any

from harness import SERVICE, Score, folder_of_own
from kernel import User, become, escaped
from service_test import Served, as_user, wait_for

SHARED = 3000
ANN = User(1000, (1000, SHARED))
BOB = User(1001, (1001, SHARED))
EVE = User(1002, (1002,))
SELDOM = "3600"  # seconds between two turns
SOON = 1.0  # seconds after which what was taken away is gone
LATER = 60.0  # seconds in which a walk and its looks come, on a machine with other work
ACCESS = "system.posix_acl_access"
NONE = 2**32 - 1
LIST = struct.pack(
    "<I" + "HHI" * 5, 2, 1, 6, NONE, 2, 4, BOB.number, 4, 0, NONE, 16, 4, NONE, 32, 0, NONE
)


class Stage(Served):
    """A service, `wumpus-watch`, and a mirror that makes turns now and then."""

    def __init__(self, folder: Path, program: str) -> None:
        super().__init__(folder, program)
        self.watch = folder / "watch"
        self.bounds: tuple[str, ...] = ()  # options of the service
        self.helper: subprocess.Popen[bytes] | None = None
        self.turning: subprocess.Popen[bytes] | None = None
        self.log = open(folder / "log", "wb")

    def help(self) -> None:
        """Starts `wumpus-watch`."""
        words = [str(SERVICE / "wumpus-watch"), "--socket", str(self.watch)]
        self.helper = subprocess.Popen(words, stderr=self.log)
        wait_for(self.watch.exists)

    def turn(self, *words: str, every: str = SELDOM) -> None:
        """Starts the mirror."""
        line = [
            str(SERVICE / "wumpus-mirror"), "--served", "--every", every, "--folder",
            str(self.store), "--sockets", str(self.sockets), "--watch", str(self.watch), *words,
            str(self.tree),
        ]  # fmt: skip
        (self.store / "mirror.status").unlink(missing_ok=True)
        self.turning = subprocess.Popen(line, stderr=self.log)

    def begin(self, *words: str, every: str = SELDOM) -> None:
        """Starts all three."""
        self.help()
        self.start(*self.bounds)
        self.turn(*words, every=every)

    def told(self, name: str = "mirror.status") -> dict[str, Any]:
        """The mirror's status."""
        try:
            found: dict[str, Any] = json.loads((self.store / name).read_text())
        except FileNotFoundError:
            return {}
        return found

    def of_service(self) -> dict[str, Any]:
        """The service's status."""
        return self.told("service.status")

    def rests(self) -> bool:
        """Waits until a turn is over."""
        wait_for(lambda: self.told().get("state") == "waiting", LATER)
        return self.told().get("state") == "waiting"

    def walked(self) -> float:
        """When the last walk began that was fed."""
        return float(self.told().get("walk", {}).get("began") or 0.0)

    def sees(self, user: User, path: Path) -> bool:
        """Whether a user is told of a file."""
        return os.fsencode(path) in self.shown(user)

    def shown(self, user: User) -> set[bytes]:
        """The paths that a user is told, as a reply shows them. Fails where she is refused."""
        return set(as_user_long(user, lambda: paths_here(self.sockets)).split(b"\n")) - {b""}

    def program_of(self) -> int:
        """The process of the program."""
        assert self.process is not None
        children = Path(f"/proc/{self.process.pid}/task/{self.process.pid}/children")
        return int(children.read_text().split()[0])

    def emptier_of(self) -> int:
        """The process that empties the kernel's queue for the mirror."""
        assert self.turning is not None
        children = Path(f"/proc/{self.turning.pid}/task/{self.turning.pid}/children")
        for child in children.read_text().split():
            if b"emptier" in Path(f"/proc/{child}/cmdline").read_bytes():
                return int(child)
        raise ProcessLookupError("no process reads events")

    def finish(self) -> None:
        """Ends all three."""
        for process in (self.turning, self.process, self.helper):
            if process is not None and process.poll() is None:
                process.kill()
                process.wait()
        self.log.close()


def paths_here(sockets: Path) -> bytes:
    """All paths that this process is told; `refused` where it is refused."""
    with socket.socket(socket.AF_UNIX, socket.SOCK_STREAM) as connection:
        connection.settimeout(20)
        connection.connect(str(sockets / "ask"))
        connection.sendall(b"paths\n")
        with connection.makefile("rb") as answers:
            first = answers.readline().rstrip(b"\n").split(b"\t")
            if first[0] != b"paths":
                return b"refused"
            lines = [answers.readline().rstrip(b"\n") for _ in range(int(first[1]))]
    return b"\n".join(lines)


def as_user_long(user: User, what: Callable[[], bytes]) -> bytes:
    """What a function gives in a child with the user's ids, however long it is."""
    reading, writing = os.pipe()
    child = os.fork()
    if child == 0:
        try:
            os.close(reading)
            become(user)
            with open(writing, "wb") as out:
                out.write(what())
        finally:
            os._exit(0)
    os.close(writing)
    with open(reading, "rb") as answer:
        told = answer.read()
    os.waitpid(child, 0)
    return told


def goes(stage: Stage, user: User, path: Path, within: float = SOON) -> float:
    """After how many seconds a user isn't told of a file any more; infinite where it stays."""
    began = time.monotonic()
    while time.monotonic() < began + 4 * within:
        told = stage.shown(user)
        if b"refused" not in told and escaped(os.fsencode(path)) not in told:
            return time.monotonic() - began
        time.sleep(0.01)
    return float("inf")


def done(what: Callable[[], object]) -> bytes:
    """Does something, for `as_user`."""
    what()
    return b"done"


def make_home(tree: Path) -> Path:
    """Files of ann's that bob may read."""
    home = tree / "ann"
    home.mkdir()
    os.chown(home, ANN.number, ANN.number)
    (tree / "outside").mkdir(exist_ok=True)

    def make() -> bytes:
        (home / "closed").mkdir(mode=0o700)
        for number in range(40):
            folder = home / f"folder{number}" / "inner"
            folder.mkdir(parents=True)
            for name in ("secret", "other"):
                (folder / name).write_text("secret\n")
        for number in (5, 6):
            file = home / f"folder{number}" / "inner" / "secret"
            file.chmod(0o600)
            os.setxattr(file, ACCESS, LIST)
        file = home / "folder7" / "inner" / "secret"
        os.chown(file, -1, SHARED)
        file.chmod(0o640)
        return b"made"

    assert as_user(ANN, make) == b"made"
    return home


def on_stage(
    program: str,
    score: Score,
    what: Callable[[Stage, Score], None],
    every: str = SELDOM,
    bounds: tuple[str, ...] = (),
    words: tuple[str, ...] = (),
) -> None:
    """Does something with all three, after a first turn; the mirror gets the words, too."""
    with folder_of_own() as name:
        stage = Stage(Path(name), program)
        stage.bounds = bounds
        make_home(stage.tree)
        (stage.tree / "eve").mkdir()
        os.chown(stage.tree / "eve", EVE.number, EVE.number)
        (stage.tree / "eve" / "known").mkdir()
        for number in range(500):
            file = stage.tree / "eve" / f"known{number}"
            file.write_text("nothing\n")
            os.chown(file, EVE.number, EVE.number)
        (stage.folder / "aside").mkdir()
        os.link(stage.tree / "ann" / "folder12" / "inner" / "secret", stage.folder / "aside" / "it")
        os.chown(stage.folder / "aside", ANN.number, ANN.number)
        try:
            stage.begin(*words, every=every)
            if score.check(stage.rests(), f"{what.__name__}: no turn in {LATER:.0f} s"):
                what(stage, score)
        finally:
            stage.finish()


def alone(program: str, score: Score, what: Callable[[Stage, Score], None]) -> None:
    """Does something with a stage on which nothing was begun."""
    with folder_of_own() as name:
        what(Stage(Path(name), program), score)
