#!/usr/bin/env python3
"""What the mirror takes for very many files.

`bench/many.py --files 1000000 --planner PATH FOLDER` makes a tree of that many files in the folder,
a hundred in each directory, a tenth of them with a text, where it isn't there yet. Then a first
turn of the mirror, and two without a change, each in a process of its own that begins with the
state of the one before: processor and peak memory of the mirror, and those of `wumpus-plan`. The
place of `wumpus` is taken by something that takes each batch and does nothing with it.
"""

import argparse
import multiprocessing
import os
import resource
import sys
import time
from pathlib import Path

SERVICE = Path(__file__).resolve().parent.parent / "service"
sys.path.insert(0, str(SERVICE))

from wumpus.mirror import look  # noqa: E402
from wumpus.mirror.batch import Batch  # noqa: E402
from wumpus.mirror.command import without_cycles  # noqa: E402
from wumpus.mirror.limits import Limits  # noqa: E402
from wumpus.mirror.planner import Planner  # noqa: E402
from wumpus.mirror.turn import Mirror, Wish  # noqa: E402
from wumpus.shared.progress import Progress  # noqa: E402

IN_DIRECTORY = 100
TEXT = b"all work and no play makes a dull file number %d\n"


class Nothing:
    """A reach of a program that takes all: it stands where the last batch left it."""

    def __init__(self, folder: Path) -> None:
        self.at = folder / "serial"

    def ask(self, line: bytes) -> bytes:
        """The reply to a line."""
        if line == b"stat\n":
            return b"stat\t0\t0\t0\t0"
        if not line.startswith(b"rename\t"):
            return b"ok"
        asked = line.split(b"\t")[2].removeprefix(b"serial-")
        return b"ok" if self.at.exists() and self.at.read_bytes() == asked else b"refused\tnosuch"

    def feed(self, batch: Batch) -> None:
        """Takes a batch. Its serial stands in its last line but one, the end of the busy time."""
        file = batch.file
        file.seek(max(0, batch.size - 1000))
        last = file.read().splitlines()[-2]
        self.at.write_bytes(last.split(b"\t")[-1].removeprefix(b"serial-"))

    def reset(self) -> None:
        """Nothing is there that could be moved aside."""

    def fed(self, moment: int) -> None:
        """Nobody is answered."""

    def done(self) -> None:
        """All was fed once."""

    def close(self) -> None:
        """Nothing is open."""

    abandon = close


def make(tree: Path, files: int) -> None:
    """Makes the tree."""
    for directory in range(0, files, IN_DIRECTORY):
        below = tree / f"{directory // IN_DIRECTORY % 100}" / f"{directory // IN_DIRECTORY}"
        below.mkdir(parents=True)
        for number in range(directory, min(files, directory + IN_DIRECTORY)):
            path = os.open(below / f"file-{number}.txt", os.O_WRONLY | os.O_CREAT, 0o644)
            if number % 10 == 0:
                os.write(path, TEXT % number)
            os.close(path)


def turn(what: str, tree: Path, store: Path, program: str) -> None:
    """A turn of the mirror, as a row."""
    look.SETTLED = 0  # as if all files were old
    began = time.monotonic()
    planner = Planner(program)
    mirror = Mirror(Nothing(store), store, Progress("many", True), planner=planner)
    mirror.begin(False)
    with without_cycles():
        told = mirror.turn(Wish((os.fsencode(tree),), Limits(), {}))
    planner.close()
    usage = resource.getrusage(resource.RUSAGE_SELF)
    spent = usage.ru_utime + usage.ru_stime
    plans = resource.getrusage(resource.RUSAGE_CHILDREN)
    ordering = plans.ru_utime + plans.ru_stime
    size = sum(one.stat().st_size for one in store.glob("mirror.state"))
    print(
        f"| {what} | {told.files} files, {told.texts} texts in {told.batches} batches | "
        f"{spent:.1f} s of the processor, {time.monotonic() - began:.1f} s | "
        f"peak {usage.ru_maxrss // 1024} MB, state {size >> 20} MB | "
        f"the planner's {ordering:.1f} s, its peak {plans.ru_maxrss // 1024} MB |",
        flush=True,
    )


def main() -> int:
    """Runs the measure."""
    parser = argparse.ArgumentParser(description=__doc__)
    parser.add_argument("--files", type=int, default=1_000_000)
    parser.add_argument("--planner", required=True, help="the built program wumpus-plan")
    parser.add_argument("folder", help="where the tree is made, which is left there")
    given = parser.parse_args()
    tree, store = Path(given.folder) / "tree", Path(given.folder) / "store"
    if not tree.exists():
        make(tree, given.files)
    store.mkdir(mode=0o700, exist_ok=True)
    for left in store.iterdir():
        left.unlink()
    for what in ("first turn", "next turn", "the one after"):
        process = multiprocessing.get_context("spawn").Process(
            target=turn, args=(what, tree, store, os.path.abspath(given.planner))
        )
        process.start()
        process.join()
        if process.exitcode != 0:
            return 1
    return 0


if __name__ == "__main__":
    sys.exit(main())
