"""Rights that are taken away are gone at once, with turns that come once an hour.

Real users take rights away in each way there is, by names and by handles, while another account
changes as much as it can, and beside file systems that can't be marked or never answer. Where the
kernel doesn't tell, all waits for the turns, and that is told.
"""

import ctypes
import os
import signal
import socket
import struct
import subprocess
import sys
import time
from collections.abc import Callable
from contextlib import suppress
from functools import partial
from pathlib import Path
from unittest import mock

from harness import Score, needs_program, needs_root, options
from kernel import User, become
from service_test import as_user, wait_for
from stage import (  # fmt: skip
    ACCESS, ANN, BOB, EVE, NONE, SOON, Stage, alone, done, goes, make_home, on_stage
)

from wumpus.live import calls, command, narrowing  # isort: skip
from wumpus.live.narrowing import Narrowing  # isort: skip
from wumpus.shared.program import die_with_parent  # isort: skip

BESIDE = 2.0  # seconds, where another account has the kernel tell of as much as it can
_libc = ctypes.CDLL(None, use_errno=True)


def ways(stage: Stage, score: Score) -> None:
    """Each way, with a file beside it that stays."""
    home = stage.tree / "ann"

    def file(number: int) -> Path:
        return home / f"folder{number}" / "inner" / "secret"

    private = home / "private"
    as_user(ANN, lambda: done(lambda: private.write_text("nothing\n")))
    as_user(ANN, lambda: done(lambda: private.chmod(0o600)))
    deeds: tuple[tuple[str, int, Callable[[], object]], ...] = (
        ("a mode", 0, lambda: file(0).chmod(0o600)),
        ("a mode of the directory", 1, lambda: file(1).parent.chmod(0o700)),
        ("a mode of one above", 2, lambda: file(2).parent.parent.chmod(0o700)),
        ("an unlinking", 3, file(3).unlink),
        ("a renaming", 4, lambda: file(4).rename(home / "closed" / "it")),
        ("a list that is gone", 5, lambda: os.removexattr(file(5), ACCESS)),
        ("a list whose mask is less", 6, lambda: file(6).chmod(0o600)),
        ("another group", 7, lambda: os.chown(file(7), -1, ANN.number)),
        ("a directory that moves", 8, lambda: file(8).parent.rename(home / "closed" / "d")),
        ("one above that moves", 9, lambda: file(9).parent.parent.rename(home / "closed" / "e")),
        ("another file in its place", 10, lambda: private.rename(file(10))),
        ("one in its place, closed later", 16, lambda: replaced(home / "open", file(16))),
        ("a list that denies", 11, lambda: os.setxattr(file(11), ACCESS, denying())),
        ("a name beside the roots", 12, lambda: (stage.folder / "aside" / "it").chmod(0o600)),
        ("a swap of directories", 14, lambda: swap(file(14).parent, file(15).parent.parent)),
    )
    slowest = 0.0
    for name, number, deed in deeds:
        other = home / f"folder{20 + number}" / "inner" / "other"
        is_there = {os.fsencode(file(number)), os.fsencode(other)} <= stage.shown(BOB)
        score.check(is_there, f"{name}: it isn't there before")
        score.check(as_user(ANN, partial(done, deed)) == b"done", f"{name}: it failed")
        taken = goes(stage, BOB, file(number))
        slowest = max(slowest, taken)
        score.check(taken < SOON, f"{name}: it is told of for {taken:.1f} s")
        score.check(stage.sees(BOB, other), f"{name}: another file is gone, too")
    print(f"at_once: the slowest of {len(deeds)} ways took {slowest * 1000:.0f} ms", flush=True)


def replaced(fresh: Path, file: Path) -> None:
    """Puts another file, open to all, in a file's place, and closes it some moments later."""
    fresh.write_text("nothing\n")
    fresh.rename(file)
    time.sleep(0.3)
    file.chmod(0o600)


def denying() -> bytes:
    """A list that keeps bob out, where others may read."""
    entries = (1, 6, NONE, 2, 0, BOB.number, 4, 4, NONE, 16, 4, NONE, 32, 4, NONE)
    return struct.pack("<I" + "HHI" * 5, 2, *entries)


def swap(one: Path, other: Path) -> None:
    """Has two directories take one another's place: the kernel's own exchange."""
    exchange = 2
    here = -100
    words = (here, os.fsencode(one), here, os.fsencode(other), exchange)
    if _libc.renameat2(*words) != 0:
        raise OSError(ctypes.get_errno(), "renameat2")


def flood(stage: Stage, score: Score) -> None:
    """Eve creates, renames and sets modes as fast as she can; ann's chmods are in time."""
    home = stage.tree / "ann"
    children = [begin_as(EVE, partial(churn, stage.tree / "eve", one)) for one in range(2)]
    times = []
    try:
        time.sleep(1.0)
        for number in range(20, 30):
            file = home / f"folder{number}" / "inner" / "secret"
            if not stage.sees(BOB, file):
                score.check(False, f"{file} isn't there before")
                continue
            as_user(ANN, partial(done, partial(file.chmod, 0o600)))
            times.append(goes(stage, BOB, file))
            score.check(times[-1] < SOON, f"beside eve it took {times[-1]:.1f} s")
    finally:
        for child in children:
            os.kill(child, signal.SIGKILL)
            os.waitpid(child, 0)
    if times:
        middle, most = sorted(times)[len(times) // 2] * 1000, max(times) * 1000
        print(f"at_once: beside eve {middle:.0f} ms, at most {most:.0f} ms", flush=True)
    lost = stage.told().get("live", {}).get("lost")
    print(f"at_once: events were lost {lost} times", flush=True)


def shared(stage: Stage, score: Score) -> None:
    """Eve changes very many new files where root and ann let her make some: they needn't wait."""
    home = stage.tree / "ann"
    places = [stage.tree / "shared", stage.tree / "also", home / "shared"]
    for place in places:
        place.mkdir()
        place.chmod(0o1777)
    os.chown(places[2], ANN.number, ANN.number)
    files = [(0, stage.tree / f"root{number}") for number in range(4)]
    for _, file in files:
        file.write_text("secret\n")
    files += [(ANN.number, home / f"folder{30 + one}" / "inner" / "secret") for one in range(4)]
    stage.begin()
    score.check(stage.rests(), "a turn")
    child = begin_as(EVE, partial(changing, places))
    try:
        wait_for((stage.tree / "shared" / "done").exists, 60.0)
        time.sleep(2.0)
        for owner, file in files:
            score.check(stage.sees(BOB, file), f"{file} isn't there before")
            file.chmod(0o600)
            taken = goes(stage, BOB, file, BESIDE)
            score.check(taken < BESIDE, f"beside eve's files a file of {owner}: {taken:.1f} s")
    finally:
        os.kill(child, signal.SIGKILL)
        os.waitpid(child, 0)


def changing(places: list[Path]) -> None:
    """Makes new files, and changes their modes without an end."""
    files = [os.fsencode(place / f"{number}") for place in places for number in range(19_000)]
    for file in files:
        os.close(os.open(file, os.O_CREAT | os.O_WRONLY, 0o644))
    (places[0] / "done").touch()
    mode = 0o600
    while True:
        mode ^= 0o044
        for file in files:
            os.chmod(file, mode)


def shared_alone(stage: Stage, score: Score) -> None:
    """The same, on a stage of its own: a walk during it would find what is lost."""
    make_home(stage.tree)
    try:
        shared(stage, score)
    finally:
        stage.finish()


def begin_as(user: User, what: Callable[[], None]) -> int:
    """Runs a function with the ids of a user, until it is killed."""
    child = os.fork()
    if child == 0:
        try:
            become(user)
            die_with_parent()
            what()
        finally:
            os._exit(0)
    return child


def churn(home: Path, one: int) -> None:
    """Changes without an end: new files, known ones, and directories."""
    folder = home / f"churn{one}"
    folder.mkdir(exist_ok=True)
    known = [home / f"known{number}" for number in range(500)]
    number = 0
    while True:
        number += 1
        with suppress(OSError):
            fresh = folder / f"{number % 5000}"
            os.close(os.open(fresh, os.O_CREAT | os.O_WRONLY, 0o644))
            fresh.chmod(0o600)
            fresh.chmod(0o644)
            fresh.rename(folder / f"{number % 3000}-")
            known[number % 500].chmod(0o600 if number % 1000 < 500 else 0o644)


def hanging(stage: Stage, score: Score) -> None:
    """A file system that never answers, at a name of which an event tells, hinders nothing."""
    assert stage.turning is not None
    file = stage.tree / "ann" / "folder38" / "inner" / "secret"
    mine, folder = stage.tree / "eve" / "known0", stage.tree / "eve" / "known"
    stage.turning.send_signal(signal.SIGSTOP)
    mine.unlink()
    mine.write_text("nothing\n")
    folder.chmod(0o700)
    descriptors = [os.open("/dev/fuse", os.O_RDWR) for _ in range(2)]
    places = ((mine, 0o100000), (folder, 0o40000))
    try:
        for descriptor, (place, mode) in zip(descriptors, places):
            words = f"fd={descriptor},rootmode={mode:o},user_id=0,group_id=0,allow_other"
            mount(b"fuse", place, words.encode())
        as_user(ANN, lambda: done(lambda: file.chmod(0o600)))
        stage.turning.send_signal(signal.SIGCONT)
        score.check(goes(stage, BOB, file) < SOON, "beside one that doesn't answer it stays")
    finally:
        for place, _ in places:
            _libc.umount2(os.fsencode(place), 2)
        for descriptor in descriptors:
            os.close(descriptor)


def other_systems(stage: Stage, score: Score) -> None:
    """A second file system, and one that can't be marked beside it."""
    memory, over = stage.tree / "memory", stage.tree / "over"
    for place in (memory, over):
        place.mkdir()
    mount(b"tmpfs", memory, b"mode=755")
    for name in ("lower", "upper", "work"):
        (memory / name).mkdir()
    (memory / "lower" / "file").write_text("secret\n")
    words = ",".join(f"{name}dir={memory / name}" for name in ("lower", "upper", "work"))
    mount(b"overlay", over, words.encode())
    try:
        stage.begin()
        score.check(stage.rests(), "a turn")
        due = {os.fsencode(one) for one in (memory / "lower" / "file", over / "file")}
        score.check(due <= stage.shown(BOB), "they aren't there before")
        (memory / "lower" / "file").chmod(0o600)
        score.check(goes(stage, BOB, memory / "lower" / "file") < SOON, "in memory it stays")
        live = stage.told().get("live", {})
        paths = [one["path"] for one in live.get("unmarked", [])]
        score.check(paths in ([], [str(over)]), f"which can't be marked: {live}")
        print(f"at_once: can't be marked: {live.get('unmarked')}", flush=True)
        subprocess.run(["umount", str(over)], check=True)
        status = subprocess.run(["umount", str(memory)], capture_output=True)
        score.check(status.returncode == 0, f"the mirror hinders a umount: {status.stderr!r}")
    finally:
        stage.finish()
        for place in (over, memory):
            _libc.umount2(os.fsencode(place), 2)


def mount(kind: bytes, place: Path, words: bytes) -> None:
    """Mounts a file system. Raises `OSError`."""
    if _libc.mount(b"wumpus", os.fsencode(place), kind, 0, words) != 0:
        error = ctypes.get_errno()
        raise OSError(error, os.strerror(error))


def unmount(place: Path) -> None:
    """Takes a mount away, also one that somebody uses."""
    _libc.umount2(os.fsencode(place), 2)


def turns_alone(stage: Stage, score: Score, words: tuple[str, ...], why: str) -> None:
    """Without what is live all waits for the next turn, and that is told."""
    file = stage.tree / "file"
    file.write_text("secret\n")
    stage.start()
    stage.turn(*words)
    try:
        score.check(stage.rests() and stage.sees(BOB, file), "a turn")
        live = stage.told().get("live")
        told = "" if live is None else str(live["why"])
        score.check(why in told if why else live is None, f"what is told: {live}")
        file.chmod(0o600)
        time.sleep(SOON)
        score.check(stage.sees(BOB, file), "it is gone without a turn")
        if why:
            said = (stage.folder / "log").read_text(errors="replace")
            score.check("waits for the next turn" in said, f"it isn't told: {said}")
    finally:
        stage.finish()


def without_call(stage: Stage, score: Score) -> None:
    """Where a name can't be opened so that no server has to answer, there are turns alone."""
    watch = mock.Mock()
    beside = Narrowing(mock.Mock(), mock.Mock(), mock.Mock(watch=stage.watch), int)
    with (
        mock.patch.object(narrowing, "Watcher", lambda _: watch),
        mock.patch.object(calls, "open_here", mock.Mock(side_effect=OSError(38, "not here"))),
    ):
        beside._begin_reader()
    told = beside.why or ""
    score.check("not here" in told and beside.reader is None, f"what is told: {told}")
    score.check(not watch.group.called, "a group is made")
    calls.check_open_here()
    with (
        mock.patch.object(calls, "new_group", mock.Mock(side_effect=OSError(1, "refused"))),
        mock.patch.object(command, "Server") as server,
    ):
        command.run(command.parser().parse_args(["--socket", str(stage.watch)]))
        score.check(server.called, "wumpus-watch ends where the kernel refuses")
        with suppress(OSError):
            command.run(command.parser().parse_args(["--check"]))
            score.check(False, "and says that it doesn't")
    stage.log.close()


def helper(stage: Stage, score: Score) -> None:
    """It answers its owner, and nobody and nothing else."""
    stage.help()
    try:
        asked = as_user(EVE, lambda: ask_helper(stage.watch, b"group"))
        score.check(asked == b"", f"a user: {asked!r}")
        stage.watch.chmod(0o666)
        asked = as_user(EVE, lambda: ask_helper(stage.watch, b"group"))
        score.check(asked == b"", f"a user who reaches it: {asked!r}")
        score.check(ask_helper(stage.watch, b"group") == b"ok 1", "its owner")
        for line in (b"", b"mark", b"groups", b"x" * 64):
            told = ask_helper(stage.watch, line)
            score.check(told in (b"failed 22", b""), f"{line!r}: {told!r}")
        with open("/etc/passwd") as one, open("/etc/hosts") as other:
            told = ask_helper(stage.watch, b"mark", [one.fileno(), other.fileno()])
            score.check(told == b"failed 22", f"what is no group: {told!r}")
        score.check(ask_helper(stage.watch, b"group") == b"ok 1", "its owner, afterwards")
    finally:
        stage.finish()


def ask_helper(path: Path, line: bytes, files: list[int] | None = None) -> bytes:
    """Its answer, and how many descriptors came."""
    with socket.socket(socket.AF_UNIX, socket.SOCK_SEQPACKET) as connection:
        connection.settimeout(5)
        try:
            connection.connect(str(path))
            socket.send_fds(connection, [line], files or [])
            answer, came, _, _ = socket.recv_fds(connection, 100, 4)
        except OSError:
            return b""
    for one in came:
        os.close(one)
    return answer + (b" %d" % len(came) if came else b"")


def main() -> int:
    """Runs the test."""
    parser = options(__doc__ or "")
    parser.add_argument("--only")
    given = parser.parse_args()
    needs_root("at_once")
    needs_program("at_once", given.program)
    score, program = Score("at_once"), given.program
    parts: dict[str, Callable[[], None]] = {
        "helper": lambda: alone(program, score, helper),
        "call": lambda: alone(program, score, without_call),
        "ways": lambda: on_stage(program, score, ways),
        "flood": lambda: on_stage(program, score, flood),
        "shared": lambda: alone(program, score, shared_alone),
        "hanging": lambda: on_stage(program, score, hanging),
        "systems": lambda: alone(program, score, other_systems),
        "off": lambda: alone(
            program, score, lambda one, two: turns_alone(one, two, ("--live", "off"), "")
        ),
        "none": lambda: alone(
            program, score, lambda one, two: turns_alone(one, two, (), "doesn't tell")
        ),
    }
    for name, part in parts.items():
        if given.only in (None, name):
            print(f"at_once: {name}", flush=True)
            part()
    return score.end()


if __name__ == "__main__":
    sys.exit(main())
