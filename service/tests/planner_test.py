"""The program `wumpus-plan` as the mirror keeps it, and what becomes of a turn that has no plan.

Bad input gets one line that says what is wrong and where, status 1, and no event. Where the program
isn't there, ends, or says something else, a turn fails and nothing is fed; the next one begins it
again. After a large batch it is ended, since it keeps the memory that it took.
"""

import os
import subprocess
import sys
from collections.abc import Iterator
from dataclasses import replace
from pathlib import Path
from unittest import mock

from harness import (
    STAND_IN_PLANNER,
    Score,
    absolute,
    folder_of_own,
    needs_program,
    options,
    planner_of,
)
from mirror_test import Place

from wumpus.mirror import planner as planner_module  # isort: skip
from wumpus.mirror.changes import Pairs, Told, told_of_pairs  # isort: skip
from wumpus.mirror.limits import Limits  # isort: skip
from wumpus.mirror.nodes import Node, Rights  # isort: skip
from wumpus.mirror.planner import BadPlan, Plan, Planner  # isort: skip
from wumpus.mirror.reach import Direct  # isort: skip
from wumpus.mirror.turn import Mirror, Wish  # isort: skip
from wumpus.shared.progress import Progress  # isort: skip

FILE = "stays 4 file 644 same other 0"


def lines(*rows: str) -> bytes:
    """The lines of these rows, in which a blank stands for a TAB."""
    return b"".join(row.replace(" ", "\t").encode() + b"\n" for row in rows)


# What is given, and what has to be said of it.
BAD: tuple[tuple[str, bytes, str], ...] = (
    ("no header", lines("plan 0 0"), "line 1: no header of a batch"),
    ("a number past its bound", lines("batch 0 4294967296"), "line 1: no header of a batch"),
    ("a cut line", lines("batch 0 1")[:-1], "line 1: the input ends here"),
    ("a cut batch", lines("batch 0 1"), "line 2: the input ends here"),
    ("a user without a number", lines("batch 1 0", "user"), "line 2: no line of a user"),
    ("an open root", lines("batch 1 0", "user 5"), "line 2: number 1: groups change"),
    (
        "a user twice",
        lines("batch 2 1", "user 5", "user 5 7", "stays 1 directory 755 same other 0"),
        "line 4: number 5: a user twice",
    ),
    ("no kind", lines("batch 0 1", "goes 4 link 1"), "line 2: no change of a node"),
    ("a short mode", lines("batch 0 1", "stays 4 file 64 same other 0"), "line 2: no change"),
    (
        "another number",
        lines("batch 0 1", "made 4 file same 1", "create 5 1 a 0 0 644"),
        "line 3: another node",
    ),
    ("what nothing makes", lines("batch 0 1", "made 4 file same 0"), "line 2: a node that"),
    (
        "two modes",
        lines("batch 0 1", "stays 4 file 644 same other 2", "chmod 4 600", "chmod 4 640"),
        "line 4: no part of this change",
    ),
    (
        "another mask",
        lines("batch 0 1", "stays 4 file 644 same other 1", "acl 4 g::4,m::6"),
        "line 3: a list with another mask",
    ),
    (
        "the closed directory",
        lines("batch 0 1", "stays 2 directory 000 same other 0"),
        "number 2: a number that no node",
    ),
    ("a root that goes", lines("batch 0 1", "goes 1 directory 0"), "number 1: the root has no"),
    ("no name", lines("batch 0 1", "stays 4 file 644 same none 0"), "number 4: a node without"),
    (
        "a name with a slash",
        lines("batch 0 1", "goes 4 file 1", "unlink 1 a/b"),
        "number 4: not a file name",
    ),
    (
        "a text of a directory",
        lines("batch 0 1", "stays 4 directory 755 text other 0"),
        "number 4: a text where",
    ),
    ("a number twice", lines("batch 0 2", FILE, FILE), "line 3: number 4: a number twice"),
    (
        "a name twice",
        lines("batch 0 2", "goes 4 file 1", "unlink 1 a", "goes 5 file 1", "unlink 1 a"),
        "number 5: a name twice",
    ),
    (
        "a directory below itself",
        lines("batch 0 1", "made 4 directory same 1", "mkdir 4 4 a 0 0 755"),
        "number 4: a directory before the one in which it stands, or below itself",
    ),
    (
        "a directory too early",
        lines(
            "batch 0 2",
            *("made 4 directory same 1", "mkdir 4 5 a 0 0 755"),
            *("made 5 directory same 1", "mkdir 5 1 b 0 0 755"),
        ),
        "number 4: a directory before",
    ),
)


def check_bad_input(score: Score, program: str) -> None:
    """Each bad batch alone, and behind a good one, which is answered."""
    for name, given, told in BAD:
        for before, answer in ((b"", b""), (lines("batch 0 0"), lines("plan 0 0"))):
            ran = subprocess.run([program], input=before + given, capture_output=True, check=False)
            error = ran.stderr.decode()
            is_told = error.count("\n") == 1 and (told in error or before != b"")
            holds = ran.returncode == 1 and ran.stdout == answer and is_told
            score.check(holds, f"{name}: {error!r} {ran.stdout!r}")


# ---- the client

# Programs that aren't wumpus-plan, and what is said of them.
WRONG = (
    ("exit 3", "status 3"),
    ("kill -9 $$", "status -9"),
    ("echo told >&2; exit 1", "told"),
    ("head -n 3; exit 0", "status 0"),
    ("read line; echo 'plan\t1'; exit 0", "status 0"),
    ("read line; echo 'plan\t1\tx'; exit 0", "status 0"),
    ("read line; echo 'plan\t-1\t1'; exit 0", "status 0"),
    ("read line; echo 'plan\t2\t0'; echo 'chmod\t4\t000'; exit 0", "status 0"),
    ("read line; echo 'plan\t1\t1'; echo 'chmod\t4\t000'; printf 'chmod\t4'", "status 0"),
    ("read line; echo 'plan\t999999999999\t0'; exit 0", "status 0"),
)


def file_of(number: int) -> Node:
    """A file that everybody may read."""
    return Node(number, False, Rights(0o644, 5, 5), b"", 0, 1, 0)


def told(count: int = 1) -> Told:
    """A batch of so many files with other rights."""
    nodes = [file_of(4 + place) for place in range(count)]
    return told_of_pairs([(one, replace(one, rights=Rights(0o600, 5, 5))) for one in nodes])


def failing() -> Iterator[bytes]:
    """Lines that end in the midst."""
    yield b"goes\t4\tfile\t1\n"
    raise KeyError("in the midst")


def fails(planner: Planner, what: Told) -> str:
    """What is said where there is no plan; empty where there is one."""
    try:
        planner.order(what)
    except BadPlan as error:
        return str(error)
    return ""


def client(score: Score, program: str, folder: Path) -> None:
    """The program is kept, and begun again; what isn't a plan is none."""
    due = Plan([b"chmod\t4\t600\n"], [])
    planner = Planner(program)
    score.check(planner.order(Told([], 0, iter([]))) == Plan([], []), "nothing to be ordered")
    score.check(planner.child is None, "for nothing a program was begun")
    score.check(planner.order(told()) == due, "a plan")
    child = planner.child
    score.check(planner.order(told()) == due and planner.child is child, "it isn't kept")
    assert child is not None
    child.kill()
    child.wait()
    score.check(planner.order(told()) == due, "it isn't begun again")
    try:
        planner.order(Told([], 2, failing()))
    except KeyError:
        pass
    score.check(planner.child is None, "it is kept with half a batch")
    score.check(planner.order(told()) == due, "after half a batch")
    with mock.patch.object(planner_module, "LARGE", 10):
        score.check(len(planner.order(told(10)).head) == 10, "ten nodes")
        score.check(planner.child is not None, "it is ended after few nodes")
        score.check(len(planner.order(told(11)).head) == 11, "eleven nodes")
        score.check(planner.child is None, "it is kept after many nodes")
    listed = replace(file_of(4), rights=Rights(0o640, 5, 5, b"g::4,m::6"))
    plan = planner.order(told_of_pairs([(file_of(4), listed)]))
    score.check(b"acl\t4\tg::4,m::4\n" in plan.tail, f"the mask is the mode's: {plan.tail}")
    planner.close()
    planner.close()
    for place, (script, said) in enumerate(WRONG):
        wrong = Planner(str(program_of(folder / f"wrong{place}", script)))
        found = fails(wrong, told())
        score.check(said in found and wrong.child is None, f"{script}: {found!r}")
    found = fails(Planner("/nonexistent"), told())
    score.check(found == "/nonexistent can't be run: No such file or directory", found)


def program_of(path: Path, script: str) -> Path:
    """A program of the shell."""
    path.write_text(f"#!/bin/sh\n{script}\n")
    path.chmod(0o755)
    return path


# ---- turns

MARK = "a planner that failed"
ASKED = b"paths\t5\n"


def turns(score: Score, program: str, folder: Path) -> None:
    """A turn without a plan feeds nothing; the next one, with a plan, feeds all."""
    place = Place(folder, program)
    (place.tree / "a").write_text("apple\n")
    ways: list[tuple[str, str]] = [
        ("isn't there", "/nonexistent"),
        ("ends", str(program_of(folder / "ends", f"echo {MARK} >&2; exit 1"))),
        ("tells half", str(program_of(folder / "half", "read line; echo 'plan\t9\t9'; exit 0"))),
    ]
    for what, planner in ways:
        status, _, said = place.mirror("--planner", planner)
        is_told = MARK in said or planner in said or "status 0" in said
        score.check(status == 2 and is_told and said.count("\n") == 1, f"{what}: {status} {said}")
        score.check(place.paths() == [], f"{what}: {place.paths()}")
        files = [one for one in ("mirror.state", "mirror.next") if (place.store / one).exists()]
        score.check(files == [], f"{what}: {files}")
    status, _, said = place.mirror()
    score.check((status, place.paths()) == (0, ["a"]), f"with a plan: {said}")
    shown = place.ask(ASKED)
    score.check(shown[0] == b"paths\t1", f"what she is shown: {shown}")
    status, _, said = place.mirror("--planner", "/nonexistent")
    score.check(status == 2, f"nothing changed, and no planner: {status} {said}")
    os.chmod(place.tree / "a", 0o600)
    for what, planner in ways:
        status, _, said = place.mirror("--planner", planner)
        score.check((status, place.ask(ASKED)) == (2, shown), f"later, {what}: {status} {said}")
        status, out, said = place.mirror("--planner", planner, "--dry-run")
        score.check((status, out) == (2, b""), f"dry, {what}: {out!r}")
    status, _, said = place.mirror()
    found = place.ask(ASKED)
    score.check((status, found) == (0, [b"paths\t0"]), f"later, with a plan: {found} {said}")


class Once(Planner):
    """Has a plan for names and rights, and none for a slice of files."""

    def plan_nodes(self, pairs: Pairs) -> Plan:
        """Raises `BadPlan`."""
        raise BadPlan(MARK)


def slices(score: Score, program: str, planner: str, folder: Path) -> None:
    """A slice of files without a plan isn't fed, and neither is its text."""
    tree, store = folder / "slices", folder / "store-of-slices"
    tree.mkdir()
    store.mkdir(mode=0o700)
    (tree / "a").write_text("apple\n")
    wish = Wish((os.fsencode(tree),), Limits(), {})
    for one, told_of, due in ((Once(planner), MARK, b"0\t0"), (Planner(planner), "", b"1\t1")):
        reach = Direct(program, store)
        mirror = Mirror(reach, store, Progress("test", True), planner=one)
        mirror.begin(False)
        try:
            mirror.turn(wish)
            failed = ""
        except BadPlan as error:
            failed = str(error)
        found = reach.ask(b'count\t5\t"apple"\n')
        score.check((failed, found) == (told_of, b"count\t" + due), f"slices: {failed} {found!r}")
        one.close()
        reach.close()


def main() -> int:
    """Runs the test; bad input is given to a `wumpus-plan` that is built."""
    parser = options(__doc__ or "")
    parser.add_argument("--planner", type=absolute)
    given = parser.parse_args()
    needs_program("planner", given.program)
    score = Score("planner")
    planner = given.planner or planner_of(given.program)
    if planner == str(STAND_IN_PLANNER):
        print("planner: no wumpus-plan is built: bad input isn't tried", flush=True)
    else:
        check_bad_input(score, planner)
    with folder_of_own() as name:
        folder = Path(name)
        client(score, planner, folder)
        turns(score, given.program, folder)
        slices(score, given.program, planner, folder)
    return score.end()


if __name__ == "__main__":
    sys.exit(main())
