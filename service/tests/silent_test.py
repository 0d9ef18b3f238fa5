"""A live mirror that hangs: nobody is answered, long before its last walk is too old.

The mirror, the process that empties the kernel's queue and the planner are stopped, each in turn,
and go on; `wumpus-watch` is stopped, which hinders nothing; the process that reads events and the
mirror are killed. Turns come once an hour. Who has the kernel tell of very much keeps nobody from
being answered.
"""

import os
import signal
import sys
import time
from functools import partial
from pathlib import Path
from unittest import mock

from at_once_test import begin_as
from harness import Score, needs_program, needs_root, options
from service_test import as_user, wait_for
from stage import (  # fmt: skip
    ANN, BOB, EVE, LATER, SELDOM, SOON, Stage, done, goes, on_stage
)

from wumpus.live.hearing import Hearing  # isort: skip
from wumpus.live.narrowing import Narrowing  # isort: skip
from wumpus.live.waiting import LONG, Item, Waiting  # isort: skip
from wumpus.mirror.nodes import Tree  # isort: skip
from wumpus.service.freshness import Freshness, Told  # isort: skip
from wumpus.service import options as service_options  # isort: skip

SILENT = 5.0  # seconds after which a live mirror is behind
SLACK = 4.0  # that it may be known later, on a machine with other work
MUCH = 6.0  # seconds for which eve has the kernel tell of as much as she can


# ---- what is told, by a clock of the test's


def claims(score: Score) -> None:
    """What the service takes of a mirror's word."""
    now = [10_000]
    found = Freshness(lambda: now[0], 900_000, 1000)
    score.check(found.claim([b"fed", b"9000"]) is Told.TAKEN and not found.is_stale(), "by turns")
    now[0] = 90_000
    score.check(not found.is_stale(), "by turns it is as old as a walk may be")
    score.check(found.claim([b"heard", b"8000", b"90001"]) is Told.FUTURE, "a moment to come")
    score.check(found.claim([b"heard", b"90001", b"90000"]) is Told.FUTURE, "of a beginning, too")
    for line in ([b"heard", b"1"], [b"heard", b"x", b"1"], [b"unheard", b"1"], [b"heard"]):
        score.check(found.claim(line) is Told.UNKNOWN, f"{line}")
    score.check(found.heard is None, "nothing of that counts")
    score.check(found.claim([b"heard", b"8000", b"90000"]) is Told.TAKEN, "up to now")
    score.check((found.heard_age(), found.is_stale()) == (0, False), "it is whole")
    now[0] = 91_001
    score.check(found.is_stale() and found.heard_age() == 1001, "a mirror that fell silent")
    score.check(found.claim([b"heard", b"91001", b"91000"]) is Told.TAKEN, "something was missed")
    score.check((found.heard_age(), found.is_stale()) == (None, False), "a walk has to come")
    found.claim([b"fed", b"91001"])
    score.check(found.heard_age() == 1, "one that began later")
    now[0] = 95_000
    score.check(found.is_stale() and found.claim([b"unheard"]) is Told.TAKEN, "no more is told")
    score.check(not found.is_stale(), "so walks alone count")
    now[0] = 992_000
    found.claim([b"heard", b"8000", b"992000"])
    score.check(found.is_stale(), "the last walk is too long ago all the same")


def failed(score: Score) -> None:
    """After a batch that failed, or was lost, the kernel's word counts where it began anew."""
    now = [10_000]
    found = Freshness(lambda: now[0], 900_000, 1000)
    found.fed(9000)
    found.live_batch_failed()
    now[0] = 10_500
    score.check(found.claim([b"heard", b"9000", b"10500"]) is Told.DOUBTED, "as before")
    score.check(found.claim([b"heard", b"10001", b"10500"]) is Told.TAKEN, "anew")
    found.batch_failed()
    now[0] = 10_600
    score.check(found.claim([b"heard", b"10001", b"10600"]) is Told.TAKEN, "a batch of a walk")
    found.fall()
    score.check(found.heard is None and found.is_stale(), "all was lost")
    score.check(found.claim([b"heard", b"10001", b"10600"]) is Told.DOUBTED, "and what was told")
    for words, stale, silent in (
        ("", 900.0, 30.0),
        ("--stale 0", 0.0, 0.0),
        ("--stale-live 0", 900.0, 0.0),
        ("--stale 0 --stale-live 5", 0.0, 5.0),
        ("--stale 7", 7.0, 30.0),
    ):
        bounds = service_options.bounds_of(service_options.parser().parse_args(words.split()))
        score.check((bounds.stale_seconds, bounds.silent_seconds) == (stale, silent), words)


def told(score: Score) -> None:
    """What the mirror tells: nothing twice, nothing that still waits, but for long lines."""
    reach = mock.Mock()
    clock = [0.0]
    heard, waits = Hearing(reach, lambda: 7), Waiting(lambda: clock[0])
    with mock.patch("time.monotonic", lambda: clock[0]):
        heard.tell(None)
        score.check(not reach.heard.called, "before anything came")
        heard.miss()
        heard.until = 50
        heard.tell(waits.since())
        heard.until = 60
        heard.tell(waits.since())
        clock[0] = 1.0
        heard.tell(waits.since())
        heard.tell(waits.since())
        score.check(reach.heard.mock_calls == [mock.call(7, 50), mock.call(7, 60)], "each second")
        waits.put(5, Item(1), 61)
        waits.put(6, Item(2), 63)
        waits.put(5, Item(1), 64)
        clock[0], heard.until = 2.0, 65
        heard.tell(waits.since())
        score.check(reach.heard.mock_calls[2:] == [mock.call(7, 61)], "not what waits")
        for number in range(LONG):
            waits.put(5, Item(10 + number), 65)
        score.check(waits.since() == 63, "a long line is of one person's own doing")
        waits.put(6, Item(7), 66)
        waits.take(), waits.take()
        score.check(waits.since() == 65, "which isn't as long any more")
        for _ in range(20):
            waits.charge(5)
        score.check(waits.since() == 66, "and so is one whose batches are spent")
        heard.end()
        clock[0] = 9.0
        heard.tell(waits.since())
        score.check(reach.unheard.called and len(reach.heard.mock_calls) == 3, "nothing afterwards")


def steps(score: Score) -> None:
    """The mirror tells nothing before what came is looked at, and a walk's directories are known."""
    mirror, reach = mock.MagicMock(), mock.Mock()
    tree = mirror.state.tree = Tree()
    beside = Narrowing(mirror, reach, mock.Mock(), int)
    beside.directories = mock.Mock()

    def step(until: int, flags: int = 0, waits: bool = False) -> list[tuple[int, int]]:
        reach.heard.reset_mock()
        beside.hearing.due = 0.0
        if waits:
            beside._put(5, Item(until))
        with mock.patch.object(beside, "_round", lambda _: False):
            beside._step([], flags, until)
        return [one.args for one in reach.heard.mock_calls]

    score.check(step(50) == [], "before the walk's directories are known")
    beside.compared = tree
    score.check(step(60) == [(0, 60)], "then")
    score.check(step(70, waits=True) == [], "what came after that moment waits")
    score.check(step(80) == [], "and goes on waiting")
    beside.waiting = Waiting()
    score.check(step(90) == [(0, 90)], "it was looked at")
    mirror.state.tree = Tree()
    score.check(step(100) == [], "another walk is fed")
    beside.compared = mirror.state.tree
    told = step(110, flags=1)
    score.check(len(told) == 1 and told[0][0] > 110 == told[0][1], f"after a loss: {told}")
    score.check(beside.is_lost, "a walk comes")


# ---- what is stopped


def is_answered(stage: Stage) -> bool:
    """Whether bob is."""
    return b"refused" not in stage.shown(BOB)


def falls_silent(stage: Stage, score: Score, processes: list[int], what: str) -> None:
    """Some processes are stopped: nobody is answered soon, and all are when they go on."""
    score.check(is_answered(stage), f"{what}: nobody is answered before")
    for process in processes:
        os.kill(process, signal.SIGSTOP)
    try:
        began = time.monotonic()
        wait_for(lambda: not is_answered(stage), 2 * (SILENT + SLACK))
        taken = time.monotonic() - began
        score.check(not is_answered(stage), f"{what}: bob is answered all the while")
        score.check(taken < SILENT + SLACK, f"{what}: he is answered for {taken:.1f} s")
        print(f"silent: {what}: answered for {taken:.1f} s", flush=True)
        score.check(stage.ask(BOB, b"paths") == b"refused\tstale", f"{what}: another word")
    finally:
        for process in processes:
            os.kill(process, signal.SIGCONT)
    wait_for(lambda: is_answered(stage), LATER)
    time.sleep(2.0)  # the first word after that may be an old one, which is soon too old
    wait_for(lambda: is_answered(stage), LATER)
    score.check(is_answered(stage), f"{what}: it goes on, and nobody is answered")


def secret(stage: Stage, number: int) -> Path:
    """A file of ann's."""
    return stage.tree / "ann" / f"folder{number}" / "inner" / "secret"


def take(stage: Stage, number: int) -> None:
    """Ann takes it away."""
    assert as_user(ANN, partial(done, partial(secret(stage, number).chmod, 0o600))) == b"done"


def planners_of(stage: Stage) -> list[int]:
    """The processes that order batches for the mirror."""
    assert stage.turning is not None
    children = Path(f"/proc/{stage.turning.pid}/task/{stage.turning.pid}/children")
    found = [int(child) for child in children.read_text().split()]
    for task in Path(f"/proc/{stage.turning.pid}/task").iterdir():
        found += [int(child) for child in (task / "children").read_text().split()]
    return [one for one in set(found) if one != stage.emptier_of()]


def stopped(stage: Stage, score: Score) -> None:
    """Each process that has to go on; and `wumpus-watch`, which needn't."""
    assert stage.turning is not None and stage.helper is not None
    walked = stage.walked()
    falls_silent(stage, score, [stage.turning.pid], "the mirror")
    falls_silent(stage, score, [stage.emptier_of()], "the process that empties the queue")
    take(stage, 2)
    score.check(goes(stage, BOB, secret(stage, 2)) < SOON, "before it stays")
    planners = planners_of(stage)
    score.check(bool(planners), "no process orders batches")
    for one in planners:
        os.kill(one, signal.SIGSTOP)
    take(stage, 0)
    falls_silent(stage, score, planners, "the planner, with something to take away")
    wait_for(lambda: not stage.sees(BOB, secret(stage, 0)))
    score.check(not stage.sees(BOB, secret(stage, 0)), "what was taken away meanwhile")
    stage.helper.send_signal(signal.SIGSTOP)
    until = time.monotonic() + SILENT + SLACK
    while time.monotonic() < until:
        score.check(is_answered(stage), "wumpus-watch is stopped, and nobody is answered")
        time.sleep(0.2)
    take(stage, 1)
    score.check(goes(stage, BOB, secret(stage, 1)) < SOON, "without wumpus-watch it stays")
    stage.helper.send_signal(signal.SIGCONT)
    score.check(stage.walked() == walked, "a walk came")


def killed(stage: Stage, score: Score) -> None:
    """What is killed: a walk comes, or a mirror that makes turns alone, and all are answered."""
    assert stage.turning is not None
    before = stage.walked()
    score.check(age(stage) is None, "before a second walk what is heard isn't whole")
    os.kill(stage.emptier_of(), signal.SIGKILL)
    wait_for(lambda: stage.walked() > before, LATER)
    answered_for(stage, score, "the process that reads events is killed")
    falls_silent(stage, score, [stage.emptier_of()], "another one")
    stage.turning.kill()
    stage.turning.wait()
    wait_for(lambda: not is_answered(stage), 2 * (SILENT + SLACK))
    score.check(not is_answered(stage), "the mirror is killed, and bob is answered")
    stage.turn("--live", "off")
    score.check(stage.rests(), "no turn")
    answered_for(stage, score, "by turns alone")


def answered_for(stage: Stage, score: Score, what: str) -> None:
    """Bob is answered for longer than a live mirror may be silent."""
    until = time.monotonic() + SILENT + SLACK
    while time.monotonic() < until:
        if not score.check(is_answered(stage), f"{what}: nobody is answered"):
            return
        time.sleep(0.2)


def age(stage: Stage) -> float | None:
    """How old what was heard is, as the service tells."""
    found: float | None = stage.of_service().get("heard_age")
    return found


def flooded(stage: Stage, score: Score) -> None:
    """Eve changes as much as she can in lines of her own: all others are answered all the while."""
    home = stage.tree / "eve"
    children = [begin_as(EVE, partial(toggling, home)), begin_as(EVE, partial(making, home))]
    try:
        until, answers = time.monotonic() + MUCH, 0
        while time.monotonic() < until:
            score.check(is_answered(stage), "beside eve nobody is answered")
            answers += 1
            time.sleep(0.1)
        lost = stage.told()["live"]["lost"]
        print(f"silent: beside eve {answers} answers; events lost {lost} times", flush=True)
    finally:
        for child in children:
            os.kill(child, signal.SIGKILL)
            os.waitpid(child, 0)


def whole(stage: Stage, score: Score) -> None:
    """How old what was heard is, once a walk began after it is heard; and after a loss."""
    wait_for(lambda: age(stage) is not None, LATER)
    score.check((age(stage) or 99.0) < SILENT, f"what was heard is {age(stage)} s old")
    os.kill(stage.emptier_of(), signal.SIGKILL)
    wait_for(lambda: age(stage) is None)
    score.check(age(stage) is None, "it is whole without the process that reads events")
    wait_for(lambda: age(stage) is not None, LATER)
    score.check((age(stage) or 99.0) < SILENT, f"later it is {age(stage)} s old")


def toggling(home: Path) -> None:
    """Changes the modes of known files, without an end: nothing becomes less."""
    files = [os.fsencode(home / f"known{number}") for number in range(500)]
    while True:
        for mode in (0o645, 0o644):
            for file in files:
                os.chmod(file, mode)


def making(home: Path) -> None:
    """Makes and removes names, without an end."""
    number = 0
    while True:
        number += 1
        name = os.fsencode(home / f"new{number % 40_000}")
        os.close(os.open(name, os.O_CREAT | os.O_WRONLY, 0o600))
        os.chmod(name, 0o644)
        os.unlink(name)


def main() -> int:
    """Runs the test."""
    parser = options(__doc__ or "")
    parser.add_argument("--only")
    given = parser.parse_args()
    needs_root("silent")
    needs_program("silent", given.program)
    score, program = Score("silent"), given.program
    for told_of in (claims, failed, told, steps):
        told_of(score)
    bounds = ("--stale-live", f"{SILENT}")
    parts = ((stopped, SELDOM), (killed, SELDOM), (flooded, SELDOM), (whole, "2"))
    for part, every in parts:
        if given.only in (None, part.__name__):
            print(f"silent: {part.__name__}", flush=True)
            on_stage(program, score, part, every, bounds)
    return score.end()


if __name__ == "__main__":
    sys.exit(main())
