"""The kernel as judge of what was taken away at once, at moments at which no walk came.

Processes make random calls: modes, owners, lists, links, names that come, go and are swapped. When
they end, nothing is shown beyond what the kernel lets each user open, though the mirror's turns
come each five seconds alone. After some more turns each user is shown just that. With `--live full`
she is, too, though no turn comes at all.
"""

import os
import random
import sys
import time
from contextlib import suppress
from pathlib import Path

from harness import Score, needs_program, needs_root, options
from kernel import User, escaped, found_by
from service_test import wait_for
from stage import ANN, BOB, EVE, LATER, SHARED, Stage, on_stage
from tree import Changes

from wumpus.shared.program import die_with_parent  # isort: skip

USERS = (ANN, BOB, EVE, User(1003, (1003, 1000)), User(1004, (1004,)))
PATIENT = 3.0  # seconds in which nothing is shown that isn't to be, on a busy machine


class Opening(Changes):
    """Random changes, of which some open a file or a directory to all, with all above it."""

    def __init__(self, top: bytes, seed: int) -> None:
        users = [user.number for user in USERS]
        super().__init__(top, random.Random(seed), users, [*users, SHARED], True, False)
        self.kinds += [self.open] * 8

    def open(self) -> None:
        """Opens one."""
        path = self._one()
        os.chmod(path, 0o755 if os.path.isdir(path) else 0o644, follow_symlinks=False)
        while path != self.top:
            path = os.path.dirname(path)
            os.chmod(path, 0o755)


def many_files(top: Path) -> None:
    """Open files, in directories three deep."""
    for one in range(4):
        for two in range(4):
            folder = top / f"{one}" / f"{two}"
            folder.mkdir(parents=True)
            for three in range(6):
                (folder / f"{three}").write_text("secret\n")
                os.chown(folder / f"{three}", USERS[three % 5].number, SHARED)


def judged(stage: Stage, score: Score, seed: int, rounds: int) -> None:
    """Random calls, and then a quiet moment at which no walk came: nothing is shown beyond what
    the kernel lets each user open."""
    top = os.fsencode(stage.tree / "random")
    many_files(stage.tree / "random")
    score.check(is_made_good(stage, top), "the first files aren't shown")
    calls = wrong = compared = 0
    slowest = 0.0
    for number in range(rounds):
        children = []
        for one in range(2):
            child = os.fork()
            if child == 0:
                die_with_parent()
                with suppress(Exception):
                    changes = Opening(top, seed * 1_000_000 + number * 10 + one)
                    changes.some(15 if number % 5 else 100)
                os._exit(0)
            children.append(child)
        for child in children:
            os.waitpid(child, 0)
        calls += 30 if number % 5 else 200
        quiet, began = time.monotonic(), stage.walked()
        for user in USERS:
            due = {escaped(path) for path in found_by(user, top)}
            extra, count, after = beyond(stage, user, due, quiet)
            compared, slowest = compared + count, max(slowest, after)
            if extra and stage.walked() == began:
                wrong += 1
                score.check(False, f"round {number}: user {user.number} is told of {extra}")
        if number % 5 == 4:
            score.check(is_made_good(stage, top), f"round {number}: something stays shut")
    counts = f"{rounds} rounds, {calls} changes, {compared} paths compared"
    print(f"judged: {counts}, {wrong} wrong, {slowest:.2f} s at most", flush=True)
    score.check(compared > 0, "nothing was shown at all")


def beyond(
    stage: Stage, user: User, due: set[bytes], quiet: float
) -> tuple[set[bytes], int, float]:
    """What a user is told beyond what is due, so long after a quiet moment; of how many files she
    is told, and after how many seconds something was gone that she was told of."""
    late = 0.0
    while True:
        told = {one for one in stage.shown(user) if b"/random/" in one}
        if not told - due or late > PATIENT:
            return told - due, len(told), late
        time.sleep(0.02)
        late = time.monotonic() - quiet


def is_made_good(stage: Stage, top: bytes) -> bool:
    """Whether after some turns each user is told of just what she may open."""

    def holds() -> bool:
        for user in USERS:
            told = {one for one in stage.shown(user) if b"/random/" in one}
            if told != {escaped(path) for path in found_by(user, top)}:
                return False
        return True

    wait_for(holds, LATER)
    return holds()


def followed(stage: Stage, score: Score, seed: int, rounds: int) -> None:
    """Random calls, and then each user is told just what she may open, though no turn comes."""
    top = os.fsencode(stage.tree / "random")
    many_files(stage.tree / "random")
    times = []
    began = stage.walked()
    for number in range(rounds):
        with suppress(NotImplementedError):  # of a mode of a symbolic link
            Opening(top, seed * 1_000_000 + number).some(15)
        quiet = time.monotonic()
        is_good = is_made_good(stage, top)
        times.append(time.monotonic() - quiet)
        if not score.check(is_good, f"round {number}: not as the kernel: {stage.told()['live']}"):
            break
    score.check(stage.walked() == began, "a turn came")
    times.sort()
    told = f"{times[len(times) // 2]:.2f} s, {times[-1]:.2f} s at most"
    print(f"judged: followed in {told}, of {len(times)}: {stage.told()['live']}", flush=True)


def main() -> int:
    """Runs the test."""
    parser = options(__doc__ or "")
    parser.add_argument("--rounds", type=int, default=25)
    given = parser.parse_args()
    needs_root("judged")
    needs_program("judged", given.program)
    score = Score("judged")

    def random_calls(stage: Stage, score: Score) -> None:
        judged(stage, score, given.seed, given.rounds)

    def random_calls_followed(stage: Stage, score: Score) -> None:
        followed(stage, score, given.seed, given.rounds // 2)

    on_stage(given.program, score, random_calls, every="5")
    on_stage(given.program, score, random_calls_followed, words=("--live", "full"))
    return score.end()


if __name__ == "__main__":
    sys.exit(main())
