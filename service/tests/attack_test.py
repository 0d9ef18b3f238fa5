"""Rights in time: what is taken away is gone soon, whatever one account does to stop that.

In each attack real users do what they can, while ann takes back one right of bob's after the
other, in eight ways, and bob asks all the while. The time from then to the last answer that still
tells him of the file is held below the period of the mirror's turns and ten seconds more. No answer
tells of a file whose right was taken away longer ago than `--stale`; where the mirror hangs,
nothing is answered then. A file of carol's, who does nothing, is in most answers.
"""

import argparse
import json
import os
import re
import signal
import socket
import struct
import subprocess
import sys
import time
from collections import Counter
from collections.abc import Callable
from contextlib import suppress
from dataclasses import dataclass
from pathlib import Path

from attacks import ATTACKS
from field import CAROL, EVE, Attack, Field, take_own_mounts
from harness import (
    SERVICE,
    STAND_IN,
    Score,
    folder_of_own,
    needs_program,
    needs_root,
    options,
    planner_of,
    put_planner,
)
from kernel import User
from service_test import Served, as_user, ask_here, wait_for
from side_by_side import Job, path_of, side_by_side

PERIOD = 2  # seconds between the beginnings of two turns
BOUND = 10.0  # seconds more, after which what was taken away is gone
STALE = 20  # seconds
SLACK = 1.0  # seconds that a clock which is looked at now and then may be late
TAKEN_EVERY = 2.0
LAST = 5  # answers without what was taken away, and a trial is over
LONGEST = 60.0  # seconds in which they have to come after the last right was taken away
SHARED = 3000
ANN = User(1000, (1000, SHARED))
BOB = User(1001, (1001, SHARED))
SECRET = re.compile(rb"/secret(\d+)\t")
QUERY = b'find\t1000\t"secret"'
LIST = struct.pack(
    "<I" + "HHI" * 5,
    *(2, 1, 6, 2**32 - 1, 2, 4, BOB.number, 4, 0, 2**32 - 1, 16, 4, 2**32 - 1, 32, 0, 2**32 - 1),
)
IN_SHARED = ("touching", "mounts")  # attacks in a directory where carol has files too
RESTLESS = "restless"  # the attack of one person's many numbers
ONE_WAITS = 6.0  # seconds between two walks: two that a walk, and the looks, wait for one person
ACCESS = "system.posix_acl_access"
COUNTS = re.compile(r"attack: (\d+) passed, (\d+) failed\n\Z")


class Home:
    """Files of ann's that bob may read, each in a directory of its own."""

    def __init__(self, tree: Path, count: int) -> None:
        self.top = tree / "ann"
        self.count = count
        self.taken: dict[int, float] = {}  # which, and when

    def make(self) -> None:
        """Makes them, as ann."""
        (self.top / "closed").mkdir(mode=0o700)
        for number in range(self.count):
            folder = self.top / f"folder{number}"
            folder.mkdir()
            file = folder / f"secret{number}"
            file.write_text("secret\n")
            if number % 8 == 5:
                file.chmod(0o600)
                os.setxattr(file, ACCESS, LIST)
            elif number % 8 == 6:
                os.chown(file, -1, SHARED)
                file.chmod(0o640)

    def take(self) -> None:
        """Takes the next one away."""
        number = len(self.taken)
        if number < self.count:
            as_user(ANN, lambda: self._take(number))
            self.taken[number] = time.monotonic()

    def _take(self, number: int) -> bytes:
        folder = self.top / f"folder{number}"
        file, closed = folder / f"secret{number}", self.top / "closed"
        match number % 8:
            case 0:
                file.chmod(0o600)
            case 1:
                folder.chmod(0o700)
            case 2:
                file.unlink()
            case 3:
                file.rename(closed / file.name)
            case 4:
                file.write_text("nothing\n")
            case 5:
                os.removexattr(file, ACCESS)
            case 6:
                os.chown(file, -1, ANN.groups[0])
            case 7:
                folder.rename(closed / folder.name)
        return b""


@dataclass
class Answer:
    """What bob was answered: refused with a word, or told of some files."""

    asked: float
    came: float
    refused: str
    told: list[int]
    is_whole: bool  # the file that is never taken away is among them


def keep_asking(sockets: Path, out: Path) -> None:
    """Asks ten times a second, and writes down each answer."""
    with open(out, "w", buffering=1) as lines:
        while True:
            asked = time.monotonic()
            refused, told, whole = "", [], False
            try:
                first, *rest = ask_all(sockets, QUERY)
                fields = first.split(b"\t")
                refused = fields[1].decode() if fields[0] == b"refused" else ""
                told = [int(found[1]) for one in rest if (found := SECRET.search(one))]
                whole = any(b"/steady\t" in one for one in rest)
            except OSError as error:
                refused = f"no answer: {error}"
            print(json.dumps([asked, time.monotonic(), refused, told, whole]), file=lines)
            time.sleep(0.1)


def ask_later(sockets: Path) -> bytes:
    """Asks on a connection half a second after it was made, as a program does that begins."""
    with connected(sockets) as connection:
        time.sleep(0.5)
        connection.sendall(QUERY + b"\n")
        with connection.makefile("rb") as answers:
            return answers.readline()


def connected(sockets: Path) -> socket.socket:
    """A connection to the service."""
    connection = socket.socket(socket.AF_UNIX, socket.SOCK_STREAM)
    connection.settimeout(30)
    connection.connect(str(sockets / "ask"))
    return connection


def ask_all(sockets: Path, query: bytes) -> list[bytes]:
    """All lines of an answer."""
    with connected(sockets) as connection:
        with suppress(BrokenPipeError, ConnectionResetError):
            connection.sendall(query + b"\n")
        with connection.makefile("rb") as answers:
            first = answers.readline()
            if not first.endswith(b"\n"):
                raise OSError("the connection was ended")
            fields = first.split(b"\t")
            count = int(fields[3]) if fields[0] == b"find" else 0
            return [first.rstrip(b"\n"), *(answers.readline().rstrip(b"\n") for _ in range(count))]


class Stage(Served):
    """A service with a mirror that makes turns all the while, and begins again where it ends."""

    def __init__(self, folder: Path, program: str) -> None:
        super().__init__(folder, program)
        self.turning: subprocess.Popen[bytes] | None = None
        self.log = open(folder / "log", "wb")

    def begin(self) -> None:
        """Starts both."""
        words = [
            str(SERVICE / "wumpusd"), "--folder", str(self.store), "--sockets", str(self.sockets),
            "--program", self.program,
        ]  # fmt: skip
        words += ["--stale", str(STALE)]
        self.process = subprocess.Popen(words, stderr=self.log)
        wait_for((self.sockets / "control").exists)
        self.look()

    def look(self) -> None:
        """Starts the mirror where it doesn't run, as a supervisor would."""
        if self.turning is None or self.turning.poll() is not None:
            words = [
                str(SERVICE / "wumpus-mirror"), "--served", "--every", str(PERIOD), "--folder",
                str(self.store), "--sockets", str(self.sockets), str(self.tree),
            ]  # fmt: skip
            self.turning = subprocess.Popen(words, stderr=self.log)

    def finish(self) -> None:
        """Ends both."""
        for process in (self.turning, self.process):
            if process is not None and process.poll() is None:
                process.kill()
                process.wait()
        self.log.close()


class Trial:
    """One attack, and what bob was answered meanwhile."""

    def __init__(self, attack: Attack, folder: Path, program: str, seconds: float) -> None:
        self.attack = attack
        self.seconds = seconds
        self.stage = Stage(folder, program)
        self.home = Home(self.stage.tree, int(seconds / TAKEN_EVERY) + 2)
        self.out = folder / "answers"
        self.field = Field(
            self.stage.tree, self.stage.store, self.stage.sockets, program, self._mirror
        )
        self.answers: list[Answer] = []
        self.root_told: list[bytes] = []  # of her neighbours' files
        self.newcomers_told: list[bytes] = []
        self.walks: set[float] = set()  # when each that was fed began, as the mirror tells

    def _mirror(self) -> int:
        assert self.stage.turning is not None
        return self.stage.turning.pid

    def run(self) -> bool:
        """Makes the attack: whether the first turn came to its end."""
        for user, name in ((ANN, "ann"), (CAROL, "carol"), (EVE, "eve")):
            (self.stage.tree / name).mkdir()
            os.chown(self.stage.tree / name, user.number, user.groups[0])
        (self.stage.tree / "carol" / "steady").write_text("secret\n")
        self.out.touch()
        os.chown(self.out, BOB.number, BOB.groups[0])
        try:
            self.field.as_user(ANN, self.home.make)
            self.attack.prepare(self.field)
            self.stage.begin()
            if not self._is_ready():
                return False
            self._attack()
        finally:
            self.field.end()
            self.stage.finish()
            self.field.unmount()
            subprocess.run(["rm", "-rf", str(self.stage.tree)], check=True)
        return True

    def _is_ready(self) -> bool:
        """Waits for the first turn, until bob is told of all files."""
        due = b"find\t%d" % (self.home.count + 1)
        wait_for(lambda: self.stage.ask(BOB, QUERY).startswith(due), 90)
        return self.stage.ask(BOB, QUERY).startswith(due)

    def _attack(self) -> None:
        self.field.begin(BOB, lambda: keep_asking(self.stage.sockets, self.out))
        self.attack.begin(self.field)
        began = time.monotonic()
        while time.monotonic() < began + self.seconds:
            self.home.take()
            self._wait(TAKEN_EVERY)
        if self.attack.ends_in_stale:
            self._wait(STALE + SLACK)
        else:
            self._wait(LONGEST, self._is_all_gone)
        self.answers = self._read()

    def _read(self) -> list[Answer]:
        """What was written down, but for a line that isn't whole yet."""
        lines = self.out.read_text().split("\n")[:-1]
        return [Answer(*json.loads(line)) for line in lines]

    def _is_all_gone(self) -> bool:
        """Whether the last answers tell of nothing that was taken away."""
        answers = [answer for answer in self._read() if not answer.refused][-LAST:]
        taken, since = set(self.home.taken), max(self.home.taken.values())
        gone = [answer.asked > since and not taken & set(answer.told) for answer in answers]
        return len(gone) == LAST and all(gone)

    def _wait(self, seconds: float, is_over: Callable[[], bool] = lambda: False) -> None:
        """Waits, while which a mirror that ended begins again."""
        until = time.monotonic() + seconds
        while time.monotonic() < until and not is_over():
            self.stage.look()
            if self.attack.name in IN_SHARED:
                self.root_told.append(ask_here(self.stage.sockets, b'count\t"sibling"'))
            if self.attack.name == RESTLESS:
                with suppress(OSError):
                    told = json.loads((self.stage.store / "mirror.status").read_bytes())
                    self.walks.add(told["walk"]["began"])
            if self.attack.name == "connections":
                told = as_user(CAROL, lambda: ask_later(self.stage.sockets))
                self.newcomers_told.append(told)
            time.sleep(0.2)

    # ---- what came of it

    def most(self) -> float:
        """The longest time for which bob was told of what was taken away."""
        times = [
            answer.came - self.home.taken[number]
            for answer in self.answers
            for number in answer.told
            if number in self.home.taken
        ]
        return max(0.0, *times, 0.0)

    def refusals(self) -> Counter[str]:
        """How often he was refused, by the words."""
        return Counter(answer.refused for answer in self.answers if answer.refused)

    def after(self, seconds: float) -> list[Answer]:
        """The answers so long after the first right was taken away."""
        began = min(self.home.taken.values())
        return [answer for answer in self.answers if answer.asked > began + seconds]


def check(trial: Trial, score: Score) -> None:
    """What has to hold in and after an attack."""
    name, most = trial.attack.name, trial.most()
    answered = [answer for answer in trial.answers if not answer.refused]
    slowest = max((answer.came - answer.asked for answer in trial.answers), default=0.0)
    partial = sum(not answer.is_whole for answer in answered)
    refusals = ", ".join(f"{count} {word}" for word, count in trial.refusals().items()) or "none"
    print(
        f"attack: {name}: {len(trial.home.taken)} rights taken away, told of one for at most "
        f"{most:.1f} s after it; {len(answered)} answers, the slowest {slowest:.2f} s, {partial} "
        f"without a file that stayed; refused: {refusals}",
        flush=True,
    )
    few = f"{name}: bob was answered {len(answered)} times: that shows nothing"
    score.check(len(answered) >= LAST, few)
    part = f"{name}: {partial} of {len(answered)} answers were without a file that stayed"
    score.check(partial * 2 <= len(answered), part)
    score.check(most <= STALE + SLACK, f"{name}: an answer that is {most:.1f} s old")
    if trial.attack.ends_in_stale:
        late = [answer.refused for answer in trial.after(STALE + SLACK)]
        stale = bool(late) and set(late) == {"stale"}
        score.check(stale, f"{name}: answers at the end: {Counter(late)}")
        return
    score.check(most <= PERIOD + BOUND, f"{name}: told of a file {most:.1f} s after it was shut")
    refused = len(trial.answers) - len(answered)
    score.check(refused * 4 <= len(answered), f"{name}: refused {refused} times: {refusals}")
    if name in IN_SHARED:
        due = set(trial.root_told) - {b"count\t20\t20"}
        score.check(not due, f"{name}: of her neighbours' files root was told {due}")
    if name == RESTLESS:
        began = sorted(trial.walks)
        most = max((after - before for before, after in zip(began, began[1:])), default=99.0)
        print(f"attack: {name}: {len(began)} walks, the longest time between two {most:.1f} s")
        score.check(most <= ONE_WAITS, f"{name}: turns waited {most:.1f} s for one person")
    if name == "connections":
        newcomers = trial.newcomers_told
        cut = sum(not told.startswith(b"find") for told in newcomers)
        told = f"{name}: {cut} of {len(newcomers)} newcomers were cut off"
        score.check(cut * 4 <= len(newcomers), told)


def main() -> int:
    """Runs the test."""
    parser = options(__doc__ or "")
    parser.add_argument("--only", metavar="NAME", choices=[one.name for one in ATTACKS])
    parser.add_argument("--log", action="store_true", help="show what service and mirror told")
    parser.add_argument("--seconds", type=float, default=8.0, help="of each attack")
    parser.add_argument("--at-once", type=int, default=3, metavar="N", help="so many attacks")
    given = parser.parse_args()
    needs_root("attack")
    signal.signal(signal.SIGPIPE, signal.SIG_IGN)
    score = Score("attack")
    if given.only is not None:
        attack = next(one for one in ATTACKS if one.name == given.only)
        take_own_mounts()
        put_planner(planner_of(given.program))
        one_attack(attack, given, score)
        return score.end()
    needs_program("attack", given.program)
    print(f"attack: a turn begins each {PERIOD} s; --stale is {STALE} s", flush=True)
    left_out = [one for one in ATTACKS if one.only_stand_in and given.program != str(STAND_IN)]
    for attack in left_out:
        print(f"attack: {attack.name}: the stand-in alone can be had to do this, it's left out")
    chosen = [one for one in ATTACKS if one not in left_out]
    with folder_of_own() as name:
        for ended in side_by_side([job_of(one, given, name) for one in chosen], given.at_once):
            count = COUNTS.search(ended.output)
            print(ended.output[: count.start() if count else None], end="", flush=True)
            score.passed += int(count[1]) if count else 0
            score.failed += int(count[2]) if count else 0
            how = f"{ended.job.name}: status {ended.status}"
            score.check(count is not None and (ended.status == 0) == (count[2] == "0"), how)
    return score.end()


def job_of(attack: Attack, given: argparse.Namespace, folder: str) -> Job:
    """This test with one attack, in a folder of its own."""
    own = Path(folder) / attack.name
    own.mkdir(mode=0o755)
    words = [sys.executable, path_of("attack"), "--only", attack.name, "--program", given.program,
             "--seconds", f"{given.seconds}", *(["--log"] if given.log else [])]  # fmt: skip
    return Job(attack.name, words, str(own))


def one_attack(attack: Attack, given: argparse.Namespace, score: Score) -> None:
    """Makes an attack, and checks what has to hold."""
    with folder_of_own() as name:
        trial = Trial(attack, Path(name), given.program, given.seconds)
        print(f"attack: {attack.name}: {attack.about}", flush=True)
        if score.check(trial.run(), f"{attack.name}: the first turn wasn't done in 90 s"):
            check(trial, score)
        if given.log:
            print((Path(name) / "log").read_text(errors="replace"), flush=True)


if __name__ == "__main__":
    sys.exit(main())
