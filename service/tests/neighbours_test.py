"""What one user, or an administrator's slip, may not do to the others."""

import io
import json
import os
import signal
import socket
import subprocess
import sys
import threading
import time
from contextlib import redirect_stderr, suppress
from pathlib import Path
from unittest import mock

from field import SUBORDINATES, take_own_mounts
from harness import SERVICE, Score, folder_of_own, needs_program, needs_root, options
from kernel import User, become
from mirror_test import Place
from service_test import (
    ANN,
    BOB,
    Served,
    as_user,
    ask_here,
    kill_program,
    mirror_until_done,
    wait_for,
)

from wumpus.mirror import mounts, users  # isort: skip
from wumpus.shared import store  # isort: skip
from wumpus.mirror.changes import Groups  # isort: skip
from wumpus.mirror.budget import Accounts, Budget  # isort: skip
from wumpus.mirror.remarks import Remarks  # isort: skip
from wumpus.mirror.turn import Mirror, Wish  # isort: skip
from wumpus.shared.progress import Progress  # isort: skip
from wumpus.mirror.reach import Direct  # isort: skip
from wumpus.mirror.nodes import first_tree  # isort: skip
from wumpus.mirror.limits import Limits  # isort: skip
from wumpus.mirror.seen import FreshFile  # isort: skip
from wumpus.mirror.walk import Walk  # isort: skip

COUNT = b'count\t"apple"'


def still(folder: Path, score: Score) -> None:
    """A user touches a directory of hers all the time: the walk ends soon, and others are seen."""
    home = folder / "still" / "eve"
    for number in range(12):
        (home / f"{number}").mkdir(parents=True)
    (folder / "still" / "ann").write_text("apple\n")
    for one in [home, *home.iterdir()]:
        os.chown(one, 1001, 1001)
    child = os.fork()
    if child == 0:
        become(User(1001, (1001,)))
        until = time.monotonic() + 60
        while time.monotonic() < until:
            os.chmod(home, 0o755)
            time.sleep(0.01)
        os._exit(0)
    try:
        time.sleep(0.2)
        began = time.monotonic()
        remarks = Remarks(lambda *_: None)
        accounts = Accounts(Budget(), int)
        walk = Walk(first_tree(), Limits(), accounts, remarks, lambda _: None)
        walk.walk((os.fsencode(folder / "still"),))
        spent = time.monotonic() - began
    finally:
        os.kill(child, signal.SIGKILL)
        os.waitpid(child, 0)
    score.check(spent < 10, f"a walk beside a user who never rests took {spent:.0f} s")
    files = [one for one in walk.found.values() if isinstance(one, FreshFile)]
    score.check(any(one.size == 6 for one in files), "others are seen all the same")


def of_mirror(place: Place, score: Score) -> None:
    """Sparse files, roots with two slashes, and one that is gone."""
    with open(place.tree / "sparse", "wb") as out:
        out.write(b"apple " * 2000)
        out.truncate(16 << 20)
    _, _, told_of = place.mirror()
    score.check("sparse: has holes" in told_of, f"a sparse file is told of: {told_of}")
    size = sum(one.stat().st_size for one in (place.store / "wumpus-store").iterdir())
    score.check(size < 1 << 20, f"the store of a sparse file has {size} bytes")
    (place.tree / "private").mkdir()
    (place.tree / "private" / "a").write_text("pear\n")
    exclude = ["--exclude", str(place.tree / "private")]
    words = [*place.words("--dry-run", *exclude)[:-1], f"{place.tree.parent}//{place.tree.name}"]
    told = subprocess.run(words, capture_output=True).stdout
    score.check(b"pear" not in told, "an exclude below a root with two slashes")
    (place.tree / "late").write_text("quince\n")
    status, _, told_of = place.mirror(str(place.tree / "gone"))
    score.check(status == 2 and "gone" in told_of, f"a root that is gone: {told_of}")
    score.check("late" in place.paths(), "the other root is mirrored")
    os.chown(place.store, 1990, 1990)
    status, _, told_of = place.mirror()
    score.check(status == 2 and "no system account" in told_of, f"another's folder: {told_of}")
    os.chown(place.store, 0, 0)


def of_subordinates(place: Place, score: Score) -> None:
    """What two numbers own counts as that of the account whose they are."""
    crowd = place.tree / "crowd"
    for user in SUBORDINATES[:2]:
        home = crowd / f"{user.number}"
        home.mkdir(parents=True)
        for number in range(30):
            (home / f"{number}").write_text("apple\n")
        for one in (home, *home.iterdir()):
            os.chown(one, user.number, user.number)
    words = [str(SERVICE / "wumpus-mirror"), "--quiet", "--budget-names", "50"]
    words += ["--folder", str(place.store), "--program", place.program]
    words += ["--sockets", "/nonexistent", str(crowd)]
    subprocess.run(words, check=True, preexec_fn=take_own_mounts, timeout=100)
    owners = json.loads((place.store / "mirror.status").read_text())["owners"].values()
    shut = sum(owner["shut"].get("budget-names", 0) for owner in owners)
    score.check(0 < shut < 30, f"of two numbers of one account {shut} names are over its budget")


def of_disk(folder: Path, program: str, score: Score) -> None:
    """On a full disk no text is fed, but what is taken away is."""
    tree, store = folder / "disk", folder / "disk-store"
    tree.mkdir()
    store.mkdir(mode=0o700)
    (tree / "a").write_text("apple\n")
    reach = Direct(program, store)
    mirror = Mirror(reach, store, Progress("test", True))
    mirror.begin(False)
    wish = Wish((os.fsencode(tree),), Limits(), {})
    mirror.turn(wish)
    (tree / "a").chmod(0o600)
    (tree / "b").write_text("apple\n" * 1000)
    disk = os.statvfs(store)
    full = os.statvfs_result((*disk[:4], 0, *disk[5:]))
    with mock.patch.object(os, "statvfs", lambda _: full):
        mirror.turn(wish)
    told = reach.ask(b'count\t1000\t"apple"\n'), reach.ask(b'count\t0\t"apple"\n')
    score.check(told == (b"count\t0\t0", b"count\t1\t1"), f"on a full disk: {told}")
    mirror.turn(wish)
    score.check(reach.ask(b'count\t0\t"apple"\n') == b"count\t1001\t2", "with room again")
    reach.abandon()


def of_lines(score: Score) -> None:
    """Names of mounts with other white space, and warnings of many names."""
    line = b"1 2 0:77 / /home/eve/a\\040\r-\rext4 rw - fuse.x x rw\n"
    found = mounts.mount_of(line)
    score.check(found == (1, mounts.Mount("fuse.x", b"/home/eve/a \r-\rext4")), f"a mount: {found}")
    progress = Progress("test", False)
    with redirect_stderr(io.StringIO()) as told:
        for turn in range(3):
            progress.next_turn()
            for number in range(3000):
                progress.warn(f"{turn} {number}")
    score.check(told.getvalue().count("\n") < 4000 and len(progress.warned) < 2000, "warnings")


def slow_names(score: Score) -> None:
    """A name service that doesn't answer holds nothing up, and its users stay as they were."""
    answers = threading.Event()

    def ask() -> Groups:
        answers.wait(60)
        return {1001: (2000,)}

    with mock.patch.object(users, "of_system", lambda: {1001: (1001,)}):
        known = users.SystemUsers(lambda _: None)
    with (
        mock.patch.object(users, "of_system", ask),
        mock.patch.object(users.SystemUsers, "EVERY", 0.0),
    ):
        began = time.monotonic()
        score.check(known.latest() == {1001: (1001,)}, "users that were told before")
        score.check(time.monotonic() - began < 5, "a name service isn't waited for")
        answers.set()
        wait_for(lambda: known.found == {1001: (2000,)})
    score.check(known.found == {1001: (2000,)}, "users that it told at last")


def set_aside(folder: Path, score: Score) -> None:
    """A store that was moved aside is told of once, and removed when it is old."""
    (folder / store.ASIDE / "deep").mkdir(parents=True)
    lines: list[str] = []
    aside = store.Aside(folder, lines.append)
    with mock.patch.object(store.Aside, "EVERY", 0.0):
        aside.look()
        aside.look()
        score.check(len(lines) == 1 and (folder / store.ASIDE).exists(), f"a store aside: {lines}")
        with mock.patch.object(store.Aside, "KEPT", -1.0):
            aside.look()
        score.check(len(lines) == 2 and not (folder / store.ASIDE).exists(), f"old: {lines}")
        aside.look()
    score.check(len(lines) == 2, "none is told of")


def hold(sockets: Path, user: int, seconds: float) -> int:
    """Two connections of a user, of which each sends half a line."""
    child = os.fork()
    if child == 0:
        with suppress(OSError):
            become(User(user, (user,)))
            held = [socket.socket(socket.AF_UNIX, socket.SOCK_STREAM) for _ in range(2)]
            for one in held:
                one.connect(str(sockets / "ask"))
                one.sendall(b"cou")
            time.sleep(seconds)
        os._exit(0)
    return child


def ahead(sockets: Path) -> bytes:
    """How many of many lines that nothing is asked for are answered."""
    with socket.socket(socket.AF_UNIX, socket.SOCK_STREAM) as connection:
        connection.connect(str(sockets / "ask"))
        connection.settimeout(5)
        told = b""
        with suppress(OSError):
            connection.sendall(b"paths\n" * 1000)
        with suppress(OSError):
            while piece := connection.recv(65536):
                told += piece
    return b"%d" % told.count(b"\n")


def of_service(served: Served, score: Score) -> None:
    """Refusals, all connections taken, a query in which the program ends, another's socket."""
    served.start("--connections", "8", "--connections-of-user", "2")
    count = int(as_user(BOB, lambda: ahead(served.sockets)))
    score.check(count <= 16, f"{count} lines of one connection were refused before the first turn")
    score.check(mirror_until_done(served), "a turn")
    children = [hold(served.sockets, 5000 + one, 2.0) for one in range(4)]
    time.sleep(1)
    told = as_user(ANN, lambda: ask_here(served.sockets, COUNT))
    score.check(told == b"count\t1\t1", f"where all connections are taken: {told!r}")
    for child in children:
        os.waitpid(child, 0)
    kill_program(served, signal.SIGSTOP)
    timer = threading.Timer(0.3, lambda: kill_program(served))
    timer.start()
    replies = [served.ask(BOB, COUNT)]
    timer.join()
    replies += [served.ask(user, COUNT) for user in (ANN, BOB)]
    due = [b"refused\tstopped", b"count\t1\t1", b"refused\ttooslow"]
    score.check(replies == due, f"a user in whose query the program is killed: {replies}")
    score.check(served.end(signal.SIGTERM) == 0, "a clean end")
    os.chown(served.sockets, 1001, 1001)
    words = ["--folder", str(served.store), "--sockets", str(served.sockets)]
    run = subprocess.run([str(SERVICE / "wumpusd"), *words], capture_output=True, timeout=20)
    told = run.stderr
    score.check(b"somebody else's" in told, f"sockets in another's folder: {told!r}")
    listening = socket.socket(socket.AF_UNIX, socket.SOCK_STREAM)
    os.seteuid(1001)
    try:
        listening.bind(str(served.sockets / "control"))
        os.chmod(served.sockets / "control", 0o666)
        listening.listen(1)
    finally:
        os.seteuid(0)
    words = [str(SERVICE / "wumpus-mirror"), "--served", *words, str(served.tree)]
    told = subprocess.run(words, capture_output=True, timeout=20).stderr
    score.check(b"isn't a socket of the service" in told, f"another's socket: {told!r}")


def early(served: Served, score: Score) -> None:
    """A mirror that began before the service finds it soon."""
    words = ["--served", "--quiet", "--every", "60", "--folder", str(served.store)]
    words += ["--sockets", str(served.sockets), str(served.tree)]
    words = [str(SERVICE / "wumpus-mirror"), *words]
    mirror = subprocess.Popen(words, stderr=subprocess.DEVNULL)
    try:
        time.sleep(1)
        served.start()
        wait_for(lambda: served.ask(ANN, COUNT) == b"count\t1\t1", 15)
        score.check(served.ask(ANN, COUNT) == b"count\t1\t1", "a mirror that began first")
    finally:
        mirror.kill()
        mirror.wait()
        served.end(signal.SIGTERM)


def main() -> int:
    """Runs the test."""
    given = options(__doc__ or "").parse_args()
    needs_root("neighbours")
    needs_program("neighbours", given.program)
    score = Score("neighbours")
    with folder_of_own() as name:
        folder = Path(name)
        still(folder, score)
        of_lines(score)
        slow_names(score)
        set_aside(folder, score)
        of_disk(folder, given.program, score)
        for one in ("mirror", "service"):
            (folder / one).mkdir()
        of_mirror(Place(folder / "mirror", given.program), score)
        (folder / "subordinates").mkdir()
        of_subordinates(Place(folder / "subordinates", given.program), score)
        served = Served(folder / "service", given.program)
        (served.tree / "a").write_text("apple\n")
        try:
            early(served, score)
            of_service(served, score)
        finally:
            if served.process is not None and served.process.poll() is None:
                served.end(signal.SIGKILL)
    return score.end()


if __name__ == "__main__":
    sys.exit(main())
