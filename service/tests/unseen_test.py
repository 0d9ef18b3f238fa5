"""What a walk didn't see is shut, and not removed; what goes on changing is read again alone.

An error at one name is that name's alone. A file system or a root that is gone, and most of all
that is, is held. What is read twice takes its owner's room once.
"""

import contextlib
import errno
import os
import subprocess
import sys
import time
from collections.abc import Iterator
from pathlib import Path
from typing import Any
from unittest import mock

from trial import ANN, BOB, CLOSED, EVE, Trial, beside, failing, run_parts

from wumpus.mirror import budget, target, walk  # isort: skip
from wumpus.mirror.budget import Budget  # isort: skip


@contextlib.contextmanager
def breaking_off(folder: Path, after: int) -> Iterator[None]:
    """Has the kernel fail in the midst of the names of a directory."""
    real = os.scandir
    wanted = folder.stat().st_ino

    @contextlib.contextmanager
    def listing(descriptor: int) -> Iterator[Iterator[os.DirEntry[str]]]:
        with real(descriptor) as entries:
            found = sorted(entries, key=lambda entry: entry.name)

        def some() -> Iterator[os.DirEntry[str]]:
            yield from found[:after]
            raise OSError(errno.EIO, "an error")

        yield some() if os.fstat(descriptor).st_ino == wanted else iter(found)

    with mock.patch.object(os, "scandir", listing):
        yield


def torn(trial: Trial) -> None:
    """A shared directory that somebody touches in a loop is shut, and nothing of it is removed."""
    shared = trial.tree / "shared"
    for number in range(20):
        trial.write(f"shared/{number}/file", ANN)
        trial.write(f"other/{number}/file", ANN)
    os.chown(shared, 0, 0)
    shared.chmod(0o1777)
    trial.old()
    nodes = set(trial.mirror.state.tree.nodes)

    def touch() -> None:
        with contextlib.suppress(OSError):
            os.close(os.open(shared / "eve", os.O_CREAT | os.O_WRONLY))
            os.unlink(shared / "eve")

    visits = 0
    real = walk.Walk._visit

    def visit(self: walk.Walk, one: Any) -> Any:
        nonlocal visits
        visits += 1
        return real(self, one)

    with beside(touch), mock.patch.object(walk.Walk, "_visit", visit):
        (trial.tree / "other" / "0" / "file").chmod(0o600)
        trial.walk()
    others = [path for path in trial.paths(BOB) if path.startswith("other/")]
    trial.check(len(others) == 19, f"{len(others)} of another directory")
    trial.check(nodes <= set(trial.mirror.state.tree.nodes), "nothing is removed")
    trial.check(visits < 600, f"{visits} visits of some fifty directories")
    (shared / "eve").unlink(missing_ok=True)  # it is there, where that process ended in the midst
    report = trial.turn()
    trial.check(len(trial.paths(BOB)) == 39, f"afterwards: {len(trial.paths(BOB))}")
    trial.check(report.texts == 0, f"{report.texts} texts were sent again")


def unsettled(trial: Trial) -> None:
    """Below a directory that goes on changing, and is what it was, nothing is read twice.

    What was read in the window that failed is.
    """
    for number in range(600):
        trial.write(f"busy/more/{number}/file", ANN)
    listings = visits = refusals = 0
    scandir, visit, wait_for = os.scandir, walk.Walk._visit, budget.Accounts.wait_for

    def listed(descriptor: int) -> Any:
        nonlocal listings
        listings += 1
        if listings == 400:
            (trial.tree / "busy" / "more").chmod(0o755)
        return scandir(descriptor)

    def visited(self: walk.Walk, one: Any) -> Any:
        nonlocal visits
        visits += 1
        return visit(self, one)

    def waited(self: budget.Accounts, account: budget.Account, changed: int) -> bool:
        nonlocal refusals
        if refusals < 2 and 0 <= time.time_ns() - changed < budget.YOUNG:
            refusals += 1
            return False
        return wait_for(self, account, changed)

    time.sleep(1.1)
    with (
        mock.patch.object(os, "scandir", listed),
        mock.patch.object(walk.Walk, "_visit", visited),
        mock.patch.object(budget.Accounts, "wait_for", waited),
        mock.patch.object(budget, "YOUNG", 10**9),
        mock.patch.object(walk, "SECONDS_OF_WINDOW", 60.0),
    ):
        trial.turn()
    trial.check(refusals == 2, "it goes on changing, at a window's end and at the next one's begin")
    trial.check(len(trial.paths(BOB)) == 600, f"{len(trial.paths(BOB))} files of 600")
    trial.check(600 < visits < 1100, f"{visits} visits of some 600 directories")


def taken_once(trial: Trial) -> None:
    """What is read twice in a walk takes its owner's room once, whether it was known or not."""
    for number in range(20):
        trial.write(f"eve/{number}/file", EVE)
    trial.budget = Budget(names=41, directories=21)
    scandir, listings = os.scandir, 0

    def listed(descriptor: int) -> Any:
        nonlocal listings
        listings += 1
        if trial.tree.stat().st_ino == os.fstat(descriptor).st_ino:
            listings = 0
        if listings == 15:
            (trial.tree / "eve").chmod(0o751 if (trial.tree / "eve").stat().st_mode & 4 else 0o755)
        return scandir(descriptor)

    for mode in (0o751, 0o755):
        with mock.patch.object(os, "scandir", listed), mock.patch.object(walk, "WINDOW", 4):
            trial.turn()
        found = (trial.tree / "eve").stat().st_mode & 0o777
        trial.check(found == mode, f"its mode, which changed once: {found:o}")
        trial.check(trial.mirror.remarks.count == 0, f"shut: {trial.mirror.remarks.counts}")
        trial.check(len(trial.paths(0)) == 20, f"{len(trial.paths(0))} files of 20")


def unseen(trial: Trial) -> None:
    """An error at one name is that name's alone: it is shut, and not removed."""
    for number in range(40):
        trial.write(f"ann/{number:02}", ANN)
    trial.write("ann/folder/file", ANN)
    trial.old()
    for number in (errno.EIO, errno.ENOTCONN, errno.ESTALE, errno.ENOENT):
        with failing(trial.tree / "ann" / "20", number):
            trial.turn()
        paths = trial.paths(BOB)
        trial.check(len(paths) == 40 and "ann/20" not in paths, f"{os.strerror(number)}: {paths}")
        trial.check("ann/20" in trial.paths(0), f"{os.strerror(number)}: it is there")
        trial.old()
        trial.check(len(trial.paths(BOB)) == 41, f"after {os.strerror(number)}")
    with breaking_off(trial.tree / "ann", 20):
        report = trial.turn()
    paths = trial.paths(BOB)
    trial.check(len(paths) == 20, f"a listing that breaks off: {paths}")
    trial.check(len(trial.paths(0)) == 41, "all of it is there")
    report = trial.turn()
    trial.check(len(trial.paths(BOB)) == 41, f"seen again: {len(trial.paths(BOB))}")
    trial.check(report.texts == 0, f"{report.texts} texts were sent again")
    os.link(trial.tree / "ann" / "00", trial.tree / "two")
    trial.old()
    (trial.tree / "ann" / "00").unlink()
    with breaking_off(trial.tree / "ann", 0):
        trial.turn()
    trial.check("ann/00" not in trial.paths(0), "another name of a file that is seen elsewhere")


def gone(trial: Trial) -> None:
    """A root that is gone, and most of all: they are held and shut, and rights go on."""
    for number in range(30):
        trial.write(f"ann/{number}", ANN)
        trial.write(f"bob/{number}", BOB)
    other = trial.top / "other"
    other.mkdir()
    (other / "file").write_text("apple\n")
    os.chown(other / "file", EVE, EVE)
    trial.roots = (trial.tree, other)
    trial.old()
    trial.check(trial.count(EVE) == b"count\t61\t61", f"at first: {trial.count(EVE)!r}")
    trial.tree.rename(trial.top / "aside")
    (other / "file").chmod(0o600)
    report = trial.turn()
    trial.check(trial.count(BOB) == CLOSED, f"a root that is gone: {trial.count(BOB)!r}")
    trial.check(len(report.missing) == 1, f"it is told: {report.missing}")
    trial.check(len(trial.paths(0)) == 61, "and nothing of it is removed")
    (trial.top / "aside").rename(trial.tree)
    report = trial.turn()
    trial.check(trial.count(BOB) == b"count\t60\t60", f"it is back: {trial.count(BOB)!r}")
    trial.check(report.texts == 0, f"{report.texts} texts were sent again")
    with mock.patch.object(target, "FEW", 20):
        most_is_gone(trial)


def most_is_gone(trial: Trial) -> None:
    """More than half is gone: it waits for force. What one person removes is hers to remove."""
    for number in range(30, 90):
        trial.write(f"ann/{number}", ANN)
    trial.old()
    for number in range(90):
        (trial.tree / "ann" / f"{number}").rename(trial.top / f"a{number}")
    report = trial.turn()
    trial.check(not report.held, f"what one person removes: {report.held}")
    trial.check(len(trial.paths(0)) == 31, f"it is removed: {len(trial.paths(0))}")
    for number in range(30):
        (trial.top / f"a{number}").rename(trial.tree / "ann" / f"{number}")
    trial.old()
    for name in ("ann", "bob"):
        (trial.tree / name).rename(trial.top / name)
    report = trial.turn()
    trial.check(len(report.held) == 1, f"most of all is gone: {report.held}")
    trial.check(trial.count(BOB) == CLOSED, f"it is shut: {trial.count(BOB)!r}")
    trial.check(len(trial.paths(0)) == 61, "and not removed")
    (trial.top / "ann").rename(trial.tree / "ann")
    report = trial.turn()
    trial.check(report.texts == 0, f"{report.texts} texts were sent again")
    trial.check(trial.count(BOB) == b"count\t30\t30", f"some is back: {trial.count(BOB)!r}")
    (trial.tree / "ann").rename(trial.top / "ann")
    trial.turn()
    trial.force = True
    trial.turn()
    trial.force = False
    trial.check(len(trial.paths(0)) == 1, f"by force: {len(trial.paths(0))}")


def unmounted(trial: Trial) -> None:
    """A file system that is unmounted: its files are held and shut, and are there again with it."""
    aside = trial.top / "aside"
    aside.mkdir()
    if subprocess.run(["mount", "-t", "tmpfs", "none", str(aside)]).returncode != 0:
        print("bounds: no mounts here, one part is skipped")
        return
    inner = trial.tree / "inner"
    inner.mkdir()
    try:
        (aside / "file").write_text("apple\n")
        subprocess.run(["mount", "--bind", str(aside), str(inner)], check=True)
        trial.write("ann", ANN)
        trial.old()
        trial.check(trial.count(BOB) == b"count\t2\t2", f"at first: {trial.count(BOB)!r}")
        subprocess.run(["umount", str(inner)], check=True)
        (inner / "beneath").write_text("apple\n")
        (trial.tree / "ann").chmod(0o600)
        report = trial.turn()
        trial.check(len(report.held) == 1, f"it is told: {report.held}")
        trial.check(trial.count(BOB) == CLOSED, f"it is shut: {trial.count(BOB)!r}")
        trial.check("inner/file" in trial.paths(0), "and not removed")
        subprocess.run(["mount", "--bind", str(aside), str(inner)], check=True)
        report = trial.turn()
        trial.check(trial.count(BOB) == b"count\t1\t1", f"again: {trial.count(BOB)!r}")
        trial.check(report.texts == 0, f"{report.texts} texts were sent again")
        subprocess.run(["umount", str(inner)], check=True)
        trial.force = True
        trial.turn()
        trial.check(trial.paths(0) == ["ann", "inner/beneath"], f"by force: {trial.paths(0)}")
    finally:
        for one in (inner, aside):
            subprocess.run(["umount", str(one)], stderr=subprocess.DEVNULL)


PARTS = (torn, unsettled, taken_once, unseen, gone, unmounted)


if __name__ == "__main__":
    sys.exit(run_parts("unseen", __doc__ or "", PARTS))
