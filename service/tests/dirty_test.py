"""What is dirty: what the kernel told until it is understood, when it is due, and who is next."""

import os
import sys
import threading
from pathlib import Path
from tempfile import TemporaryDirectory
from unittest import mock

from harness import Score, options

from wumpus.live import dirty, kept  # isort: skip
from wumpus.live.dirty import Dirty, Spot  # isort: skip
from wumpus.live.index import Index  # isort: skip
from wumpus.live.kept import ALL, Kept, Times  # isort: skip
from wumpus.live.looks import Follower, Looks  # isort: skip
from wumpus.live.narrowing import OUTSIDE  # isort: skip
from wumpus.live.part import Part, TooLarge  # isort: skip
from wumpus.mirror import feed  # isort: skip
from wumpus.mirror.feed import Feeder  # isort: skip
from wumpus.mirror.mounts import Mount  # isort: skip
from wumpus.mirror.names import FileSystems, entries_in  # isort: skip
from wumpus.mirror.nodes import ROOT, Node, Rights, Tree  # isort: skip
from wumpus.mirror.planner import Plan  # isort: skip
from wumpus.mirror.reach import NoMemory  # isort: skip
from wumpus.mirror.state import Addition, State, apply  # isort: skip


def told(score: Score) -> None:
    """What was told is kept once, by directory, and bounded."""
    wait = Kept()
    for name in (b"a", b"a", b"b"):
        wait.tell(b"here", name, b"")
    wait.tell(b"", b"", b"file")
    wait.tell_of(7)
    wait.tell_of(8, is_whole=True)
    score.check(wait.came.is_set(), "who waits is told")
    batch = wait.take()
    score.check(not wait.came.is_set() and not wait.take().names, "it is taken once")
    found = {key: list(names) for key, names in batch.names.items()}
    score.check(found == {b"here": [(b"a", b""), (b"b", b"")], b"": [(b"", b"file")]}, f"{found}")
    score.check((list(batch.nodes), list(batch.whole)) == ([7], [8]), "nodes, and directories")
    with mock.patch.object(kept, "OF_ONE", 3), mock.patch.object(kept, "AT_MOST", 8):
        for number in range(10):
            wait.tell(b"here", b"%d" % number, b"")
        wait.tell(b"there", b"a", b"")
        batch = wait.take()
        score.check((ALL, b"") in batch.names[b"here"], "too many of one directory: it is all")
        score.check(len(batch.names[b"here"]) == 4 and not batch.is_short, "and nothing is lost")
        for number in range(10):
            wait.tell_of(number)
        wait.tell(b"here", b"a", b"")
        batch = wait.take()
        score.check(batch.is_short and len(batch.nodes) == 8, "too many in all")
    threads = [threading.Thread(target=wait.tell_of, args=(one,)) for one in range(20)]
    for one in threads:
        one.start()
    for one in threads:
        one.join()
    score.check(len(wait.take().nodes) == 20, "by several threads")


def due(score: Score) -> None:
    """When something is due: once it is quiet, or a second after the first of it."""
    now = [100.0]
    line = Dirty(lambda: now[0])
    one, other = Spot(1, b"a"), Spot(1, b"b")
    line.put(5, one, Times(100.0, 100.0))
    score.check(line.take() is None and round(line.seconds() or 0, 3) == 0.055, "it waits")
    now[0] = 100.05
    line.put(5, one, Times(100.05, 100.05))
    now[0] = 100.06
    score.check(line.take() is None, "it changed once more")
    for step in range(100):
        now[0] = 100.06 + step / 100
        line.put(5, one, Times(now[0], now[0]))
    score.check(line.take() == (5, [one]), "what goes on changing is looked at after a second")
    line.again(5, one)
    score.check(line.take() is None and 0 < (line.seconds() or 0) < 2 * dirty.AGAIN, "and again")
    now[0] += 0.04
    line.take()
    line.again(5, one)
    line.put(5, one, Times(now[0], now[0]))
    score.check((line.seconds() or 0) > dirty.AGAIN, "later and later, whatever comes")
    now[0] += 0.1
    line.take()
    now[0] += dirty.GIVEN_UP
    line.again(5, one)
    score.check(line.is_empty() and line.left == 1, "until it is left to the turns")
    line.looked_at(other, 1 << 20)
    line.put(5, other, Times(now[0], now[0]))
    score.check(3.9 < (line.seconds() or 0) <= 4.0, "a large text isn't read on and on")
    now[0] += 5.0
    score.check(line.take() == (5, [other]) and line.take() is None, "but then")


def turns(score: Score) -> None:
    """Persons in turn; who costs time waits, and of what fails fewer are tried next."""
    now = [100.0]
    line = Dirty(lambda: now[0])
    before = Times(99.0, 99.0)
    with mock.patch.object(dirty, "AT_ONCE", 8):
        for number in range(20):
            line.put(5, Spot(5, b"%02d" % number), before)
        for spot in list(line.lines[5].spots):
            line.lines[5].most = 8
        line.put(6, Spot(6), before)
        taken = [line.take(), line.take()]
        score.check([one and (one[0], len(one[1])) for one in taken] == [(5, 8), (6, 1)], "in turn")
        line.is_done(6, 0.0)
        line.put(6, Spot(6), before)
        line.is_done(5, 0.9)
        score.check([line.take(), line.take()] == [(6, [Spot(6)]), None], "who took time waits")
        now[0] += 0.9
        first = line.take()
        line.failed(5, 0.0, True)
        fewer = line.take()
        score.check(first is not None and fewer is not None, "there are more")
        if first is not None and fewer is not None:
            score.check((len(first[1]), len(fewer[1])) == (8, 4), f"half as many: {fewer}")
            score.check(fewer[1] == first[1][:4] and line.left == 0, "the same, and none is left")
        line.is_done(5, 0.0)
        line.lines[5].most = 1
        line.take()
        line.failed(5, 0.0, True)
        score.check(line.left == 1, "one that can't be done is left to the turns")
    with mock.patch.object(dirty, "AT_MOST", 3):
        left = line.left
        for number in range(5):
            line.put(7, Spot(7, b"%d" % number), before)
        score.check(line.left == left + 2, "not more than there is room for")
    now[0] += 10.0
    while (one := line.take()) is not None:
        line.is_done(one[0], 0.0)
    now[0] += 10.0
    line.tidy()
    score.check(not line.lines, f"nothing is left: {line.lines}")


def tree_of() -> Tree:
    """A directory 4 with files 10 and 11, of which 11 is in 5 twice, too, and 5 with 6 in it."""
    open_ = Rights(0o755, 0, 0)
    nodes = {one: Node(one, True, open_, b"", 100 + one, 1, 0) for one in (ROOT, 4, 5, 6)}
    nodes |= {
        one: Node(one, False, Rights(0o644, 5, 5), b"", 100 + one, 1, 0) for one in (10, 11, 12)
    }
    entries = {
        ROOT: {b"a": 4, b"b": 5}, 4: {b"x": 10, b"y": 11},
        5: {b"y": 11, b"z": 11, b"c": 6}, 6: {b"w": 12},
    }  # fmt: skip
    return Tree(nodes, entries)


def index(score: Score) -> None:
    """Where files are, also after looks changed something, is what a new index would say."""
    tree, known = tree_of(), Index()
    known.renew(tree)
    score.check(known.is_only(10, 4) and not known.is_only(11, 4), "files of one name")
    places = sorted(known.places_of(11))
    score.check(places == [(4, b"y"), (5, b"y"), (5, b"z")], f"all of its names: {places}")
    moved = [(4, b"x", 0), (5, b"x", 10), (5, b"z", 0), (4, b"y", 12), (5, b"c", 0), (4, b"n", 20)]
    new = Node(20, False, Rights(0o644, 7, 7), b"", 120, 1, 0)
    other_one = Node(11, False, Rights(0o644, 8, 8), b"", 121, 1, 0)  # another file at its place
    addition = Addition("2-a", [new, other_one], moved, [6], 30)
    state = State("1-a", tree)
    known.takes_away(tree, addition)
    apply(state, addition)
    known.adds(tree, addition)
    other = Index()
    other.renew(tree)
    for number in (4, 10, 11, 12, 20):
        found, right = set(known.places_of(number)), set(other.places_of(number))
        score.check(found == right, f"{number}: {found} for {right}")
    counts = (+known.counts.names, +known.counts.directories)
    score.check(counts == (other.counts.names, other.counts.directories), f"{counts}")


def names(score: Score) -> None:
    """A name is asked for alone only where what is found by it is called so."""
    systems = FileSystems(False, mock.Mock())
    with TemporaryDirectory(dir="/var/tmp") as folder:
        Path(folder, "Report").write_text("")
        directory = os.open(folder, os.O_RDONLY | os.O_DIRECTORY)
        flagged = (0x40000000).to_bytes(8, sys.byteorder)
        of_vfat = mock.Mock(return_value=Mount("vfat", b"/"))
        of_ext4 = mock.Mock(return_value=Mount("ext4", b"/"))
        with mock.patch.object(systems.mounts, "of", of_ext4):
            score.check(systems.tells_names(directory), "names that are bytes")
            with mock.patch("fcntl.ioctl", mock.Mock(return_value=flagged)):
                score.check(not systems.tells_names(directory), "a directory without case")
        with mock.patch.object(systems.mounts, "of", of_vfat):
            score.check(not systems.tells_names(directory), "a file system without case")
            with mock.patch("os.scandir", wraps=os.scandir) as listed:
                with entries_in(directory, {b"report"}, (), systems) as found:
                    told = [one.name for one in found]
            score.check(listed.called and told == ["Report"], f"it isn't listed: {told}")
        os.close(directory)
    systems.close()


def lines(score: Score) -> None:
    """Whose line it is that somebody made a new name where others may: the directory's owner's, so
    that who makes many directories has one line; of root's each directory has its own."""
    open_ = {0: Rights(0o777, 0, 0), 5: Rights(0o777, 5, 5), 6: Rights(0o777, 6, 6)}
    owners = {ROOT: 0, 4: 5, 5: 5, 6: 6, 7: 0, 8: 0}
    nodes = {one: Node(one, True, open_[who], b"", 100 + one, 1, 0) for one, who in owners.items()}
    tree = Tree(nodes, {one: {} for one in nodes})
    narrowing = mock.Mock(whose=mock.Mock(return_value=OUTSIDE))
    looks = Looks(mock.Mock(**{"state.tree": tree}), narrowing)
    told = {one: looks.person_of(Spot(one, b"new")) for one in (4, 5, 6, 7, 8)}
    score.check(told[4] == told[5] != told[6], f"of an owner: {told}")
    score.check(len({told[6], told[7], told[8], told[4], OUTSIDE}) == 5, f"of root: {told}")
    narrowing.whose = mock.Mock(return_value=5)
    score.check(looks.person_of(Spot(4, b"new")) == 5, "of a name that is known")


def failing(score: Score) -> None:
    """A batch of a look that the program has no room for: the mirror's word begins anew."""
    narrowing = mock.Mock()
    looks = Looks(mock.Mock(), narrowing)
    planner = mock.Mock(**{"plan.return_value": Plan([], [])})
    feeder = Feeder(mock.Mock(), Path("/nonexistent"), mock.Mock(), planner)
    feeder.files = mock.Mock()
    feeder.state = State("1-a", tree_of())
    before, after = tree_of(), tree_of()
    after.nodes[10] = Node(10, False, Rights(0o600, 5, 5), b"", 110, 2, 0)
    reach = mock.Mock(**{"feed.side_effect": NoMemory})
    texts = mock.Mock(count=1, size=0)
    with mock.patch.object(feed, "Batch"):
        try:
            feeder.feed_part(before, after, 30, texts, reach, Follower(looks))
            score.check(False, "it is fed")
        except NoMemory:
            score.check(narrowing.hearing.miss.called, "what was told until now isn't whole there")


def parts(score: Score) -> None:
    """What is walked of a tree: ways, names with all below them, and nothing above the roots."""
    tree = tree_of()
    places = {4: (ROOT, b"a"), 5: (ROOT, b"b"), 6: (5, b"c")}
    part = Part(tree, places, {ROOT})
    part.add(6, b"w")
    part.add(4, b"x")
    part.add_directory(5)
    top = part.ways()
    score.check(set(top.below) == {b"a", b"b"} and not top.is_inner, "the ways")
    score.check((top.below[b"a"].only, top.below[b"a"].is_root) == ({b"x"}, True), "a name")
    inner = top.below[b"b"]
    score.check((inner.only, inner.is_root, inner.is_inner) == (set(), False, True), "one alone")
    score.check(inner.below[b"c"].only == {b"w"}, "one deeper")
    part.add(5, b"c")
    score.check(part.covers(6, b"w") and not part.covers(5, b"y"), "what is below a name")
    inner = part.ways().below[b"b"]
    score.check((inner.only, inner.below) == ({b"c"}, {}), "it is walked once")
    found = sorted(part.known())
    score.check(found == [(4, b"x", 10), (5, b"c", 6), (6, b"w", 12)], f"what is known: {found}")
    try:
        part.add(ROOT, b"other")
        score.check(False, "a name above the roots")
    except TooLarge:
        score.check(True, "")
    with mock.patch("wumpus.live.part.MOST", 2):
        try:
            part.check_size()
            score.check(False, "more than a look may walk")
        except TooLarge:
            score.check(True, "")


def main() -> int:
    """Runs the test; it needs no program."""
    options(__doc__ or "").parse_args()
    score = Score("dirty")
    for part in (told, due, turns, index, names, lines, failing, parts):
        part(score)
    return score.end()


if __name__ == "__main__":
    sys.exit(main())
