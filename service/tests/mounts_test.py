"""Mounts that come and go are seen at once, with turns that come once an hour.

A real tmpfs is mounted over a directory of which users are told, changed, and taken away again, and
one is mounted beside the roots. A user's own file system, which never answers, shuts what it covers
and has no walk come. Where a marked file system can't be opened, that is told, and a walk comes.
"""

import ctypes
import os
import sys
import tempfile
import time
from pathlib import Path
from unittest import mock

from at_once_test import BESIDE, mount
from harness import Score, needs_program, needs_root, options
from service_test import as_user, wait_for
from stage import ANN, BOB, LATER, Stage, alone, done, goes, make_home, on_stage

from wumpus.live.directories import Beside, Directories, System  # isort: skip
from wumpus.live.mounting import Mounting, node_at  # isort: skip
from wumpus.live.seeing import NOBODY, Seeing  # isort: skip
from wumpus.live.waiting import Item  # isort: skip
from wumpus.mirror.access import Access  # isort: skip
from wumpus.mirror.mounts import Mount, Mounts  # isort: skip
from wumpus.mirror.nodes import ROOT, Node, Rights, Tree, identity_of  # isort: skip

QUIET = 4.0  # seconds in which a walk would have come
DETACH = 2
_libc = ctypes.CDLL(None, use_errno=True)


def lists(score: Score) -> None:
    """Which mounts concern a root, and for which of them a walk comes."""
    line = b"%d 1 0:%d / %s rw - %s none rw\n"
    with tempfile.NamedTemporaryFile() as file:

        def put(*lines: bytes) -> None:
            Path(file.name).write_bytes(b"".join(lines))

        home, other = line % (30, 1, b"/home", b"ext4"), line % (31, 2, b"/homes", b"ext4")
        put(home, other)
        mounting = Mounting((b"/home/ann/", b"/srv"))
        mounting.close()
        mounting.mounts = Mounts(file.name)
        score.check(mounting.changes() == [], "nothing changed")
        put(home, line % (32, 2, b"/homes/x", b"ext4"), line % (33, 3, b"/srv/a\\040b", b"fuse"))
        score.check(mounting.changes() == [Mount("fuse", b"/srv/a b")], "one below a root came")
        put(line % (34, 4, b"/home/ann", b"fuse"))
        found = {mount.place for mount in mounting.changes()}
        score.check(found == {b"/home", b"/home/ann", b"/srv/a b"}, f"all of these: {found}")
        walks = [
            (Mount("tmpfs", b"/srv/x"), True),
            (Mount("fuse", b"/srv/x"), False),
            (Mount("fuse", b"/srv"), True),
            (Mount("nfs", b"/home"), True),
            (Mount("fuse", b"/home/ann/x"), False),
        ]
        for one, due in walks:
            score.check(mounting.needs_walk(one) == due, f"{one}")
        mounting.close()
    tree = Tree()
    tree.entries[ROOT], tree.entries[4] = {b"a": 4}, {b"b": 5}
    found_at = [node_at(tree, path) for path in (b"/", b"/a", b"/a/b", b"/a/c", b"/a/b/c")]
    score.check(found_at == [ROOT, 4, 5, None, None], f"the nodes at paths: {found_at}")


def unopened(score: Score) -> None:
    """A marked file system that can't be opened: it is told, and what is known of it is shut."""
    tree, found = Tree(), Directories(mock.Mock(), (b"/",))
    rights = Rights(0o755, 5, 20)
    for number, identity in ((ROOT, 1), (4, 2), (5, 3)):
        tree.nodes[number] = Node(number, number != 5, rights, b"", identity, 1, 0)
    tree.entries[ROOT], tree.entries[4] = {b"a": 4}, {b"f": 5}
    found.keys[4] = (b"system-1handle", 2)
    found.systems[0] = System(0, b"system-1", b"/none/of/it")
    beside = Beside(found)
    seeing = Seeing(found, tree, Access(), beside)
    told = [seeing.look(one) for one in (Item(4), Item(4, b"f"), Item(file=b"system-1other"))]
    due = [[(4, NOBODY)], [(5, NOBODY)], []]
    score.check(told == due, f"what is known of it is shut: {told}")
    score.check(found.is_unreached, "a walk comes")
    score.check(found.bad[0][0] == b"/none/of/it", f"it is told: {found.bad}")
    del found.keys[4]
    told = [seeing.look(one) for one in (Item(4, b"f"), Item(file=b"system-2other"))]
    score.check(told == [[], []], f"of what isn't marked nothing is known: {told}")
    beside.close()
    found.close()


def mounted(score: Score) -> None:
    """A directory that is mounted somewhere is there as long as its path leads to it."""
    tree, found = Tree(), Directories(mock.Mock(), (b"/",))
    with tempfile.TemporaryDirectory() as name:
        status = os.stat(name)
        rights = Rights(status.st_mode & 0o777, status.st_uid, status.st_gid)
        tree.nodes[ROOT] = Node(ROOT, True, rights, b"", 1, 1, 0)
        tree.nodes[4] = Node(4, True, rights, b"", identity_of(status), 1, 0)
        found.places[4], found.places[5] = (ROOT, b"a"), (4, b"b")
        paths = [found.path_of(number) for number in (ROOT, 4, 5)]
        score.check(paths == [b"/", b"/a", b"/a/b"], f"paths: {paths}")
        seeing = Seeing(found, tree, Access(), mock.Mock())
        for place, due in ((name, rights), ("/", NOBODY), ("/none", NOBODY)):
            with (
                mock.patch.object(found, "open", lambda *_: os.open(name, os.O_PATH)),
                mock.patch.object(found, "open_path", lambda _: os.open(place, os.O_RDONLY)),
            ):
                told = seeing.look(Item(4))
            score.check(told == [(4, due)], f"where its path leads to {place}: {told}")
    found.close()


def walks_after(stage: Stage, before: float) -> bool:
    """Waits for a walk that began later: whether one came."""
    wait_for(lambda: stage.walked() > before, LATER)
    return stage.walked() > before and stage.rests()


def is_gone(stage: Stage, score: Score, path: Path, what: str) -> None:
    """Bob isn't told of a file any more, soon."""
    taken = goes(stage, BOB, path, BESIDE)
    score.check(taken < BESIDE, f"{what} for {taken:.1f} s")


def comes_and_goes(stage: Stage, score: Score) -> None:
    """A file system over a directory: what it covers, what is on it, and what is back later."""
    place = stage.tree / "ann" / "folder20"
    covered, other = place / "inner" / "secret", stage.tree / "ann" / "folder21" / "inner" / "other"
    score.check({os.fsencode(covered), os.fsencode(other)} <= stage.shown(BOB), "before")
    before = stage.walked()
    mount(b"tmpfs", place, b"mode=755")
    try:
        is_gone(stage, score, covered, "what is covered stays")
        score.check(stage.sees(BOB, other), "what is beside it is gone")
        score.check(walks_after(stage, before), "no walk came for the mount")
        before = stage.walked()
        time.sleep(10.0)  # no walk comes sooner after another one
        fresh = place / "fresh"
        fresh.write_text("fresh\n")
        is_gone(stage, score, covered, "what is covered is there again")
        mount(b"tmpfs", stage.folder / "aside", b"mode=755")
        _libc.umount2(os.fsencode(stage.folder / "aside"), DETACH)
        time.sleep(QUIET)
        score.check(stage.walked() == before, "a walk came for a mount elsewhere")
    finally:
        _libc.umount2(os.fsencode(place), DETACH)
    score.check(walks_after(stage, before), "no walk came when it went")
    held = stage.told()["held"] or ""
    score.check(os.fspath(place) in held, f"what went is told: {held}")


def on_it(stage: Stage, score: Score) -> None:
    """What is on a file system that came is told of, is taken away at once, and goes with it."""
    place = stage.tree / "ann" / "folder22"
    kept = tempfile.mkdtemp(dir=stage.folder)
    mount(b"tmpfs", Path(kept), b"mode=755")
    secret, open_one = Path(kept) / "secret", Path(kept) / "open"
    for file in (secret, open_one):
        file.write_text("secret\n")
    before = stage.walked()
    bind = 0x1000
    _libc.mount(os.fsencode(kept), os.fsencode(place), None, bind, None)
    _libc.umount2(os.fsencode(kept), DETACH)
    try:
        score.check(walks_after(stage, before), "no walk came")
        wait_for(lambda: stage.sees(BOB, place / "secret"), LATER)
        score.check(stage.sees(BOB, place / "secret"), "what is on it isn't told of")
        (place / "secret").chmod(0o600)
        is_gone(stage, score, place / "secret", "on it nothing is taken away")
        score.check(stage.sees(BOB, place / "open"), "another file is gone")
    finally:
        _libc.umount2(os.fsencode(place), DETACH)
    is_gone(stage, score, place / "open", "what was on it stays")


def bound(stage: Stage, score: Score) -> None:
    """A part of a file system that is mounted in itself, as systemd does with `/home` for a unit."""
    home = make_home(stage.tree)
    bind = 0x1000
    for place in (home, home / "folder27"):
        _libc.mount(os.fsencode(place), os.fsencode(place), None, bind, None)
    try:
        stage.begin(every="2")
        score.check(stage.rests(), "no turn")
        files = [home / f"folder{number}" / "inner" / "secret" for number in (27, 28, 29)]
        due = {os.fsencode(file) for file in files}
        before = stage.walked()
        for _ in range(3):
            wait_for(lambda: stage.walked() > before, LATER)
            before = stage.walked()
            time.sleep(0.5)
            score.check(due <= stage.shown(BOB), "what is below it isn't told of")
        score.check(stage.told()["live"]["narrowed"] == 0, f"{stage.told()['live']}")
        for file in files[:2]:
            file.chmod(0o600)
            is_gone(stage, score, file, "what is below it stays")
        score.check(stage.sees(BOB, files[2]), "another file is gone")
    finally:
        stage.finish()
        for place in (home / "folder27", home):
            _libc.umount2(os.fsencode(place), DETACH)


def of_a_user(stage: Stage, score: Score) -> None:
    """A file system that never answers: it shuts what it covers, and no walk comes for it."""
    place = stage.tree / "ann" / "folder24"
    descriptor = os.open("/dev/fuse", os.O_RDWR)
    before = stage.walked()
    words = f"fd={descriptor},rootmode=40000,user_id={ANN.number},group_id={ANN.number}"
    mount(b"fuse", place, f"{words},allow_other".encode())
    try:
        covered = place / "inner" / "secret"
        is_gone(stage, score, covered, "what is covered stays")
        file = stage.tree / "ann" / "folder25" / "inner" / "secret"
        as_user(ANN, lambda: done(lambda: file.chmod(0o600)))
        is_gone(stage, score, file, "beside it nothing is taken away")
        time.sleep(QUIET)
        score.check(stage.walked() == before, "a user's own mount has a walk come")
    finally:
        _libc.umount2(os.fsencode(place), DETACH)
        os.close(descriptor)


def unreached(stage: Stage, score: Score) -> None:
    """A marked file system that can't be opened any more: it is told, and a walk comes."""
    above = stage.tree / "ann" / "folder26" / "inner"
    place = above / "memory"
    place.mkdir()
    mount(b"tmpfs", place, b"mode=755")
    beside = inner = -1
    try:
        (place / "file").write_text("secret\n")
        wait_for(lambda: stage.sees(BOB, place / "file"), LATER)
        score.check(stage.sees(BOB, place / "file"), "what is on it isn't told of")
        inner, before = os.open(place, os.O_RDONLY), stage.walked()
        beside = os.open("/dev/fuse", os.O_RDWR)
        words = f"fd={beside},rootmode=40000,user_id={ANN.number},group_id={ANN.number},allow_other"
        mount(b"fuse", above, words.encode())
        is_gone(stage, score, place / "file", "what can't be reached stays")
        time.sleep(10.0)  # no walk comes sooner after another one
        score.check(stage.walked() == before, "a walk came before")
        os.chmod("file", 0o600, dir_fd=inner)
        score.check(walks_after(stage, before), "no walk came")
        told = {one["path"] for one in stage.told()["left_out"]}
        score.check(os.fspath(above) in told, f"what covers it isn't told: {told}")
    finally:
        _libc.umount2(os.fsencode(above), DETACH)
        for one in (inner, beside):
            if one >= 0:
                os.close(one)
        _libc.umount2(os.fsencode(place), DETACH)


def main() -> int:
    """Runs the test."""
    parser = options(__doc__ or "")
    parser.add_argument("--only")
    given = parser.parse_args()
    needs_root("mounts")
    needs_program("mounts", given.program)
    score = Score("mounts")
    lists(score)
    unopened(score)
    mounted(score)
    for part in (comes_and_goes, on_it, of_a_user, unreached):
        if given.only in (None, part.__name__):
            print(f"mounts: {part.__name__}", flush=True)
            on_stage(given.program, score, part)
    if given.only in (None, "bound"):
        print("mounts: bound", flush=True)
        alone(given.program, score, bound)
    return score.end()


if __name__ == "__main__":
    sys.exit(main())
