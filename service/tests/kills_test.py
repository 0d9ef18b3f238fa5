"""What was taken away at once stays so, whichever of the programs is killed, and what is lost.

The program, the service, the mirror and `wumpus-watch` are killed after rights were taken away; a
save that the service doesn't know of leaves nobody answered before a walk; and more events come
than the kernel keeps.
"""

import os
import signal
import socket
import sys
import time
from collections.abc import Callable
from pathlib import Path

from harness import Score, needs_program, needs_root, options
from kernel import escaped
from service_test import as_user, wait_for
from stage import ANN, BOB, LATER, SOON, Stage, done, goes, on_stage

QUEUE = Path("/proc/sys/fs/fanotify/max_queued_events")


def kills(stage: Stage, score: Score) -> None:
    """Each of the four is killed after something was taken away, which stays so."""
    home = stage.tree / "ann"

    def file(number: int) -> Path:
        return home / f"folder{number}" / "inner" / "secret"

    def take(number: int, why: str) -> None:
        as_user(ANN, lambda: done(lambda: file(number).chmod(0o600)))
        score.check(goes(stage, BOB, file(number)) < SOON, f"{why}: it stays")

    take(30, "before")
    before = stage.walked()
    os.kill(stage.program_of(), signal.SIGKILL)
    until, told, answers = time.monotonic() + 3.0, 0, 0
    while time.monotonic() < until:
        shown = stage.shown(BOB)
        answers += b"refused" not in shown
        told += escaped(os.fsencode(file(30))) in shown
    score.check(told == 0, f"after a kill of the program it is told of {told} times")
    score.check(answers > 0, "after a kill of the program nobody is answered")
    score.check(stage.walked() == before, "a kill of the program causes a walk")
    take(31, "after a kill of the program")
    assert stage.helper is not None and stage.turning is not None and stage.process is not None
    stage.helper.kill()
    stage.helper.wait()
    take(32, "without wumpus-watch")
    stage.turning.kill()
    stage.turning.wait()
    as_user(ANN, lambda: done(lambda: file(33).parent.chmod(0o700)))
    stage.help()
    stage.turn()
    score.check(goes(stage, BOB, file(33), LATER) < LATER, "after a kill of the mirror")
    score.check(stage.rests(), "its turn isn't over")
    take(34, "after a kill of the mirror")
    stage.process.kill()
    stage.process.wait()
    stage.start()
    score.check(goes(stage, BOB, file(34), LATER) < LATER, "after a kill of the service")
    wait_for(lambda: stage.sees(BOB, file(39)), LATER)
    score.check(stage.sees(BOB, file(39)), "after a kill of the service a file isn't there")
    score.check(not stage.sees(BOB, file(30)), "after a kill of the service one is there again")
    take(35, "after a kill of the service")


def falls(stage: Stage, score: Score) -> None:
    """What was lost and can't be fed again: nobody is answered before a walk."""
    file = stage.tree / "ann" / "folder36" / "inner" / "secret"
    as_user(ANN, lambda: done(lambda: file.chmod(0o600)))
    score.check(goes(stage, BOB, file) < SOON, "it stays")
    assert stage.turning is not None
    stage.turning.send_signal(signal.SIGSTOP)
    with socket.socket(socket.AF_UNIX, socket.SOCK_STREAM) as control:
        # A save of which the service doesn't know: what it kept isn't to be fed again.
        control.connect(str(stage.sockets / "control"))
        control.sendall(b"ask\tsave\n")
        control.recv(100)
        os.kill(stage.program_of(), signal.SIGKILL)
        time.sleep(1.0)
        score.check(b"refused" in stage.shown(BOB), "it answers by what it may have forgotten")
        control.settimeout(5)
        score.check(control.recv(100) == b"", "a mirror isn't cut off")
    before = stage.walked()
    stage.turning.send_signal(signal.SIGCONT)
    wait_for(lambda: stage.walked() > before and b"refused" not in stage.shown(BOB), LATER)
    shown = stage.shown(BOB)
    score.check(b"refused" not in shown, "no walk came")
    score.check(escaped(os.fsencode(file)) not in shown, "afterwards it is there again")


def overflow(stage: Stage, score: Score) -> None:
    """More events than the kernel keeps: a walk comes at once, and finds what was lost."""
    before = stage.walked()
    file = stage.tree / "ann" / "folder37" / "inner" / "secret"
    score.check(stage.sees(BOB, file), "it isn't there before")
    reading = stage.emptier_of()
    os.kill(reading, signal.SIGSTOP)
    many = stage.tree / "many"
    many.mkdir()
    for number in range(int(QUEUE.read_text()) + 1000):
        descriptor = os.open(many / f"{number}", os.O_CREAT | os.O_WRONLY, 0o600)
        os.fchmod(descriptor, 0o644)
        os.close(descriptor)
    as_user(ANN, lambda: done(lambda: file.chmod(0o600)))
    os.kill(reading, signal.SIGCONT)
    score.check(goes(stage, BOB, file, LATER) < LATER, "what was lost stays")
    wait_for(lambda: stage.walked() > before, LATER)
    score.check(stage.walked() > before, "no walk came")
    score.check(stage.told().get("live", {}).get("lost", 0) > 0, f"{stage.told().get('live')}")
    other = stage.tree / "ann" / "folder39" / "inner" / "secret"
    os.kill(reading, signal.SIGKILL)
    before = stage.walked()
    wait_for(lambda: stage.walked() > before and stage.told()["live"]["why"] is None, LATER)
    score.check(stage.rests(), "no walk came after the process that reads events was killed")
    as_user(ANN, lambda: done(lambda: other.chmod(0o600)))
    score.check(goes(stage, BOB, other) < SOON, "then it stays")


def main() -> int:
    """Runs the test."""
    parser = options(__doc__ or "")
    parser.add_argument("--only")
    given = parser.parse_args()
    needs_root("kills")
    needs_program("kills", given.program)
    score, program = Score("kills"), given.program
    parts: dict[str, Callable[[], None]] = {
        "kills": lambda: on_stage(program, score, kills),
        "falls": lambda: on_stage(program, score, falls),
        "overflow": lambda: on_stage(program, score, overflow),
    }
    for name, part in parts.items():
        if given.only in (None, name):
            print(f"kills: {name}", flush=True)
            part()
    return score.end()


if __name__ == "__main__":
    sys.exit(main())
