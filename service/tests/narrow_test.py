"""A narrow turn: some paths alone are walked, and nobody is shown what a whole walk wouldn't show.

What is at and below the paths is as a whole turn has it; all else stays as it was known. Where that
can't be had, nothing is done, and all has to be walked.
"""

import errno
import os
import random
import sys
from dataclasses import replace
from pathlib import Path
from unittest import mock

from harness import Pace, Score, folder_of_own, needs_program, needs_root, options, quick_folder
from tree import Changes
from trial import ANN, BOB, EVE, ZOE, Trial, failing

from wumpus.mirror import budget, look  # isort: skip
from wumpus.mirror.limits import Limits  # isort: skip
from wumpus.mirror.nodes import ROOT  # isort: skip
from wumpus.mirror.turn import Mirror, Wish  # isort: skip
from wumpus.shared.progress import Progress  # isort: skip
from wumpus.shared.script import unescape  # isort: skip

USERS = (0, ANN, BOB, EVE, ZOE)
GROUPS = {ANN: (ANN, 50), BOB: (BOB, 50, 51), EVE: (EVE, 51), ZOE: (ZOE,)}
Seen = dict[int, set[tuple[bytes, bytes]]]


class Narrow(Trial):
    """A trial whose users are in groups."""

    limits = Limits()
    seed, rounds = 1, 100

    def wish(self) -> Wish:
        """What is mirrored."""
        return replace(super().wish(), users=GROUPS, limits=self.limits)

    def wish_of(self, *names: str) -> Wish:
        """The same, of some names in the tree alone."""
        return replace(self.wish(), first=tuple(bytes(self.tree / name) for name in names))

    def narrow(self, *paths: Path | bytes) -> bool:
        """A narrow turn: whether it could be had."""
        wish = replace(self.wish(), first=tuple(map(os.fsencode, paths)))
        is_narrow = self.mirror.narrow(wish)
        while is_narrow and self.mirror.look(wish, 20.0):
            pass
        return is_narrow

    def texts(self) -> dict[bytes, bytes]:
        """What the program has at each path, by what tells a text from another one."""
        tree, found = self.mirror.state.tree, {}
        waiting = [(ROOT, b"")]
        while waiting:
            number, above = waiting.pop()
            for name, child in tree.entries[number].items():
                path = above + b"/" + name
                if child in tree.entries:
                    waiting.append((child, path))
                else:
                    found[path] = tree.nodes[child].digest
        return found

    def seen(self) -> Seen:
        """Which user is told of which paths, and what they have."""
        texts, found = self.texts(), {}
        for user in USERS:
            lines = self.reach.talk.ask_whole(b"paths\t%d\n" % user)[1:]
            paths = [unescape(line) or b"" for line in lines]
            found[user] = {(path, texts[path]) for path in paths}
        return found


def alone(trial: Narrow) -> None:
    """A path, and what is below it, is as a whole turn has it; no walk is told of."""
    for name in ("ann/a/1", "ann/a/2", "ann/b/3", "ann/4"):
        trial.write(name, ANN)
    trial.old()
    trial.reach.fed_at.clear()
    walked = trial.mirror.walked
    trial.write("ann/a/new", ANN)
    trial.write("ann/b/new", ANN)
    (trial.tree / "ann/a/1").unlink()
    (trial.tree / "ann/a/2").chmod(0o600)
    (trial.tree / "ann/4").chmod(0o600)
    trial.check(trial.narrow(trial.tree / "ann/a"), "a directory")
    trial.check(trial.paths(BOB) == ["ann/4", "ann/a/new", "ann/b/3"], f"{trial.paths(BOB)}")
    trial.check(trial.narrow(trial.tree / "ann/4"), "a file")
    trial.check(trial.paths(BOB) == ["ann/a/new", "ann/b/3"], f"{trial.paths(BOB)}")
    trial.write("ann/c/d/e", ANN)
    trial.check(trial.narrow(trial.tree / "ann/c/d/e"), "a file below what wasn't known")
    trial.check("ann/c/d/e" in trial.paths(BOB), f"{trial.paths(BOB)}")
    (trial.tree / "ann/a/new").unlink()
    trial.check(trial.narrow(trial.tree / "ann/a/new"), "what went")
    several = [trial.tree / name for name in ("ann/b/new", "ann/a/2", "ann/a", "ann/b/none")]
    (trial.tree / "ann/a/2").chmod(0o644)
    trial.check(trial.narrow(*several), "several paths")
    trial.check(trial.paths(BOB) == ["ann/a/2", "ann/b/3", "ann/b/new", "ann/c/d/e"], "all in all")
    told = [kind for kind, _ in trial.reach.fed_at]
    trial.check("fed" not in told and trial.mirror.walked is walked, f"what is told: {told}")
    again = Mirror(trial.reach, trial.store, Progress("test", True))
    again.begin(False)
    trial.check(again.state.tree == trial.mirror.state.tree, "what is written is what is fed")
    trial.old()
    trial.check(trial.mirror.report.batches == 0, f"{trial.mirror.report.batches} batches more")


def refused(trial: Narrow) -> None:
    """Where a narrow turn can't be had, nothing is done."""
    trial.write("ann/a", ANN)
    trial.check(not trial.narrow(trial.tree / "ann"), "before a whole walk")
    trial.old()
    trial.write("ann/b", ANN)
    for path in (b"/", b"/none", b"ann", bytes(trial.top), bytes(trial.tree), b"/a/../b"):
        trial.check(not trial.narrow(path), f"a path that isn't below a root: {path!r}")
    trial.limits = Limits((b"a",))
    trial.check(not trial.narrow(trial.tree / "ann"), "other limits than those of the walk")
    trial.limits, trial.force = Limits(), True
    trial.check(not trial.narrow(trial.tree / "ann"), "by force")
    trial.force, trial.roots = False, (trial.tree, trial.tree / "ann")
    trial.old()
    trial.check(not trial.narrow(trial.tree / "ann/b"), "a root below another one")
    trial.roots = (trial.tree,)
    trial.old()
    (trial.tree / "ann/.nowumpus").touch()
    trial.check(not trial.narrow(trial.tree / "ann/b"), "a directory on the way that is left out")
    (trial.tree / "ann/c").mkdir()
    trial.check(not trial.narrow(trial.tree / "ann/c/d"), "below such a one")
    (trial.tree / "ann/.nowumpus").unlink()
    trial.check(trial.narrow(trial.tree / "ann/b"), "and where nothing of this is so")


def opened(trial: Narrow) -> None:
    """A directory on the way that opens: what is known beside the path may be older than that."""
    secret = trial.write("ann/secret", ANN)
    trial.write("ann/public/file", ANN)
    secret.parent.chmod(0o700)
    trial.old()
    secret.chmod(0o600)
    secret.parent.chmod(0o755)
    trial.check(not trial.narrow(trial.tree / "ann/public"), "it is all walked")
    trial.check(trial.paths(BOB) == [], f"nothing is shown before: {trial.paths(BOB)}")
    trial.old()
    trial.check(trial.paths(BOB) == ["ann/public/file"], f"afterwards: {trial.paths(BOB)}")
    secret.parent.chmod(0o700)
    trial.check(trial.narrow(trial.tree / "ann/public"), "one that is shut")
    trial.check(trial.paths(BOB) == [], f"is shut at once: {trial.paths(BOB)}")


def linked(trial: Narrow) -> None:
    """A file that is known elsewhere too: its names there may have gone before its text came."""
    for name in ("one", "two"):
        trial.write(f"closed/{name}", ANN, "old\n")
        trial.write(f"open/{name}", ANN, "old\n").unlink()
        os.link(trial.tree / "closed" / name, trial.tree / "open" / name)
        os.link(trial.tree / "closed" / name, trial.top / name)  # so that no inode is used again
    (trial.tree / "closed").chmod(0o700)
    trial.old()
    trial.check(trial.count(BOB, "old") == b"count\t2\t2", "both are open")
    for name in ("one", "two"):
        (trial.tree / "open" / name).unlink()
    (trial.tree / "closed/one").write_text("secret\n")
    trial.check(not trial.narrow(trial.tree / "closed/one"), "one with another text")
    (trial.tree / "closed/two").unlink()
    trial.write("closed/two", ANN, "secret\n")
    trial.check(trial.narrow(trial.tree / "closed/two"), "one that is another file now")
    trial.check(trial.count(BOB, "secret") == b"count\t0\t0", "neither is shown")
    trial.check(trial.count(ANN, "secret") == b"count\t1\t1", "the other is its owner's")
    trial.old()
    trial.check(trial.count(ANN, "secret") == b"count\t2\t2", "both are, afterwards")


def moved(trial: Narrow) -> None:
    """A directory that came from elsewhere, or went there."""
    trial.write("ann/a/file", ANN)
    trial.write("eve/b/file", EVE)
    trial.write("eve/c/file", EVE)
    trial.old()
    (trial.tree / "ann/a").rename(trial.tree / "eve/a")
    trial.check(not trial.narrow(trial.tree / "eve"), "one that is known elsewhere")
    trial.check(not trial.narrow(trial.tree / "eve/a"), "itself")
    (trial.tree / "eve/a").rename(trial.tree / "ann/a")
    (trial.tree / "eve/b").rename(trial.tree / "ann/b")
    trial.check(trial.narrow(trial.tree / "eve"), "one that went")
    trial.check(trial.paths(BOB) == ["ann/a/file", "eve/c/file"], f"{trial.paths(BOB)}")
    (trial.tree / "eve").rename(trial.top / "eve")
    (trial.tree / "ann").rename(trial.tree / "eve")
    trial.check(not trial.narrow(trial.tree / "eve/c/file"), "a known one on the way")
    (trial.tree / "eve").rename(trial.tree / "ann")
    trial.write("eve/c/file", EVE)
    trial.check(not trial.narrow(trial.tree / "eve/c"), "another directory on the way")


def waiting(trial: Narrow) -> None:
    """What waits elsewhere goes on waiting; what waits and isn't there any more is forgotten."""
    for name in ("ann/1", "ann/2", "ann/3", "ann/a/4", "ann/a/5", "eve/1"):
        trial.write(name, ANN)
    trial.turn()
    for name in ("ann/1", "ann/2", "ann/3", "ann/a/4", "ann/a/5", "eve/1"):
        trial.write(name, ANN, "pear\n")
    trial.walk()
    names = queued(trial)
    trial.check(names == ["1", "1", "2", "3", "4", "5"], f"what waits after the walk: {names}")
    (trial.tree / "ann/2").unlink()
    trial.write("ann/3", ANN, "plum\n")
    trial.check(trial.mirror.narrow(trial.wish_of("ann/2", "ann/3")), "two files")
    names = queued(trial)
    trial.check(names == ["1", "1", "3", "4", "5"], f"what waits after that: {names}")
    first = trial.mirror.pending.queues[ANN][0].name
    trial.check(first == b"3", f"what was asked for comes first: {first!r}")
    (trial.tree / "ann/a/4").unlink()
    with failing(trial.tree / "ann/a/5", errno.EIO):
        trial.check(trial.mirror.narrow(trial.wish_of("ann/a")), "a directory")
    names = queued(trial)
    trial.check(names == ["1", "1", "3"], f"what wasn't seen doesn't wait: {names}")
    while trial.mirror.look(trial.wish(), 20.0):
        pass
    trial.check(trial.paths(BOB) == ["ann/1", "ann/3", "eve/1"], f"{trial.paths(BOB)}")
    trial.check(trial.count(BOB, "pear") == b"count\t2\t2", "their texts")


def queued(trial: Narrow) -> list[str]:
    """The names of what waits."""
    queues = trial.mirror.pending.queues.values()
    return sorted(place.name.decode() for queue in queues for place in queue)


def at_random(trial: Narrow) -> None:
    """Random trees, changes and paths: what is shown was shown before, or is by a whole turn."""
    draw, rounds = random.Random(trial.seed), trial.rounds
    changes = Changes(bytes(trial.tree), draw, [ANN, BOB, EVE], [50, 51], True)
    pace, narrow = Pace("narrow", rounds, "rounds"), 0
    for number in range(rounds):
        pace.tell(number)
        with mock.patch.object(look, "SETTLED", draw.choice((0, 0, 40 * 10**9))):
            changes.some(draw.randrange(1, 40))
            trial.turn()
            before = trial.seen()
            changes.some(draw.choice((1, 2, 4, 8)))
            try:
                path = changes._place() if draw.random() < 0.3 else changes._one()
            except OSError:
                continue
            is_narrow = trial.narrow(path)
            between = trial.seen()
            trial.turn()
            after = trial.seen()
        narrow += is_narrow
        for user in USERS:
            more = between[user] - before[user] - after[user]
            trial.check(not more, f"round {number}: user {user} is shown {more}")
            if is_narrow:
                one, other = below(between[user], path), below(after[user], path)
                trial.check(one == other, f"round {number}: at {path!r}: {one ^ other}")
            else:
                trial.check(between[user] == before[user], f"round {number}: nothing is done")
    trial.check(narrow > rounds // 4, f"{narrow} of {rounds} turns were narrow")
    print(f"narrow: {narrow} of {rounds} turns at random were narrow")


def below(seen: set[tuple[bytes, bytes]], path: bytes) -> set[tuple[bytes, bytes]]:
    """What is at or below a path."""
    return {one for one in seen if one[0] == path or one[0].startswith(path + b"/")}


PARTS = (alone, refused, opened, linked, moved, waiting, at_random)


def main() -> int:
    """Runs the test."""
    parser = options(__doc__ or "")
    parser.add_argument("--only", metavar="PART", help="one part alone")
    parser.add_argument("--rounds", type=int, default=100)
    given = parser.parse_args()
    needs_root("narrow")
    needs_program("narrow", given.program)
    score = Score("narrow")
    with (
        folder_of_own() as name,
        quick_folder() as store,
        mock.patch.object(budget, "YOUNG", 20_000_000),
    ):
        for part in PARTS:
            if given.only in (None, part.__name__):
                trial = Narrow(Path(name), Path(store), given.program, score, part.__name__)
                trial.seed, trial.rounds = given.seed, given.rounds
                try:
                    part(trial)
                finally:
                    trial.end()
    return score.end()


if __name__ == "__main__":
    sys.exit(main())
