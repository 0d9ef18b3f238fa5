"""`wumpus-why` over a mirrored tree: each reason, and beside program and kernel for many paths."""

import json
import os
import random
import subprocess
import sys
import time
from collections.abc import Callable
from pathlib import Path

from harness import SERVICE, Score, folder_of_own, needs_program, needs_root, options
from kernel import User, become, opened_by, paths_below
from status_test import of_mirror, of_service
from tree import Changes

from wumpus.mirror.access import Access  # isort: skip
from wumpus.shared.script import unescape  # isort: skip
from wumpus.status.files import read_mirror  # isort: skip
from wumpus.why import users  # isort: skip
from wumpus.why.program import read_tree  # isort: skip
from wumpus.why.verdict import Told, judge  # isort: skip
from wumpus.why.wanted import Wanted  # isort: skip

ANN, BOB, CAROL = 1000, 1001, 1002
SHARED = 3000
ASKERS = (0, ANN, BOB, CAROL, 4294967293)
GROUPS = (SHARED, 2001, 2002, 65534)
NOT_TOLD, TROUBLE = 1, 2


class Place:
    """A tree, what the mirror made of it, and the settings."""

    def __init__(self, folder: Path, program: str) -> None:
        self.folder = folder
        self.program = program
        self.tree = folder / "tree"
        self.store = folder / "store"
        self.tree.mkdir()
        self.store.mkdir(mode=0o700)
        self.settings = folder / "settings"
        self.patterns = folder / "patterns"
        self.patterns.write_text("# Keys.\n\n*.key\n")
        self.set("")

    def set(self, words: str) -> None:
        """Writes the settings of the mirror."""
        self.settings.write_text(f'# What is searched.\nROOTS="{self.tree}"\nMIRROR="{words}"\n')

    def mirror(self, *words: str) -> None:
        """Makes a turn. Raises `CalledProcessError`."""
        command = [
            str(SERVICE / "wumpus-mirror"), "--quiet", "--folder", str(self.store), "--program",
            self.program, "--sockets", "/nonexistent", *words, str(self.tree),
        ]  # fmt: skip
        subprocess.run(command, check=True, timeout=100)

    def tell(self, mirror: dict[str, object], service: dict[str, object]) -> None:
        """Writes the status files: usual ones, but for these fields."""
        now = time.time()
        usual: dict[str, object] = {"shut": [], "left_out": [], "owners": {}}
        told = of_mirror(now) | usual | mirror
        (self.store / "mirror.status").write_text(json.dumps(told))
        (self.store / "service.status").write_text(json.dumps(of_service(now) | service))

    def why(self, path: object, *words: str, user: str = "1001") -> tuple[int, str, str]:
        """Runs the program for a user whose groups are 1001 and 3000."""
        command = [
            str(SERVICE / "wumpus-why"), "--folder", str(self.store), "--settings",
            str(self.settings), "--exclude-from", str(self.patterns), "--groups",
            f"1001,{SHARED}", *words, str(path), user,
        ]  # fmt: skip
        told = subprocess.run(command, capture_output=True, timeout=60)
        return told.returncode, told.stdout.decode(), told.stderr.decode()


def write(path: Path, mode: int, group: int = ANN) -> None:
    """A file of ann's."""
    path.write_text("apple\n")
    os.chown(path, ANN, group)
    path.chmod(mode)


def acl(path: Path, entries: str) -> None:
    """Sets a list by the command of the system."""
    subprocess.run(["setfacl", "-m", entries, str(path)], check=True)


def fill(place: Place) -> None:
    """A file for each reason."""
    tree = place.tree
    open_folders = [(name, 0o755) for name in ("marked", "work.o", "a.key")]
    for name, mode in (("shut", 0o700), ("hidden", 0o711), *open_folders):
        (tree / name).mkdir(mode=mode)
        os.chown(tree / name, ANN, ANN)
        (tree / name).chmod(mode)
        write(tree / name / "file", 0o644)
    write(tree / "open", 0o644)
    write(tree / "mine", 0o600)
    write(tree / "group", 0o640, SHARED)
    write(tree / "listed", 0o600)
    write(tree / "denied", 0o644)
    write(tree / "later", 0o600)
    write(tree / "earlier", 0o644)
    write(tree / "evil\x1b[31m", 0o600)
    acl(tree / "listed", f"u:{BOB}:r")
    acl(tree / "denied", f"u:{BOB}:-")
    (tree / "link").symlink_to("open")
    os.mkfifo(tree / "fifo")
    (tree / "other").mkdir()
    os.link(tree / "shut" / "file", tree / "other" / "second")
    write(tree / "large", 0o644)
    (tree / "large").write_bytes(b"apple " * 3_000_000)
    (tree / "marked" / ".nowumpus").touch()
    place.mirror("--exclude", "*.o", "--exclude", "*.key")
    (tree / "later").chmod(0o644)
    (tree / "earlier").chmod(0o600)


TOLD = (
    ("open", "lets her open it"),
    ("group", "she is in its group, and may read it"),
    ("listed", "she is named in its list, and may read it"),
    ("shut/file", "/other/second"),
    ("large", "no word of it is found"),
    ("earlier", "! She is told of what the kernel doesn't let her open"),
)
UNTOLD = (
    ("mine", "the kernel doesn't let her either: she is one of the others"),
    ("denied", "she is named in its list"),
    ("hidden/file", "it hides its names from her"),
    ("later", "comes with a turn of the mirror"),
    ("link", "symbolic link"),
    ("link/file", "symbolic link"),
    ("fifo", "neither a file nor a directory"),
    ("none", "there is nothing"),
    ("open/file", "there is nothing"),
    ("other", "it is a directory, and only files are told of"),
    ("work.o/file", "excluded by the pattern *.o"),
    ("a.key/file", "excluded by the pattern *.key"),
    ("marked/file", "there is a .nowumpus in "),
    ("evil\x1b[31m", "evil\\x1b[31m"),
    ("../store/mirror.state", "below no root"),
)


def reasons(place: Place, score: Score) -> None:
    """What is told of each file, and the exit status."""
    place.set("--exclude *.o")
    place.tell({}, {})
    for name, due in TOLD:
        status, out, told = place.why(place.tree / name)
        holds = status == 0 and due in out and "She is told of it." in out
        score.check(holds, f"{name}: {status} {out} {told}")
    for name, due in UNTOLD:
        status, out, told = place.why(place.tree / name)
        holds = status == NOT_TOLD and due in out and "She is not told of it." in out
        score.check(holds, f"{name}: {status} {out} {told}")
        score.check("\x1b" not in out, f"{name}: control characters")
    status, out, told = place.why("/proc/version")
    score.check(status == NOT_TOLD and "of kind proc" in out, f"a mount: {out} {told}")
    score.check(place.why(place.tree / "mine", user="0")[0] == 0, "user 0")
    values = json.loads(place.why(place.tree / "denied", "--json")[1])
    last = values["steps"][-1]
    score.check(
        (values["told"], values["opens"], values["agrees"]) == (False, False, True)
        and last["kernel"]["who"] == last["program"]["who"] == "named in its list",
        f"--json: {values}",
    )


def told_by_files(place: Place, score: Score) -> None:
    """What the status files say."""
    tree = place.tree
    write(tree / "young", 0o644)
    shut = [{"path": str(tree / "budget"), "owner": ANN, "why": "budget-names"},
            {"path": str(tree / "open"), "owner": ANN, "why": "pending"}]  # fmt: skip
    left_out = [{"path": str(tree / "left"), "why": "its owner asks for it"}]
    (tree / "left").mkdir()
    write(tree / "left" / "file", 0o644)
    write(tree / "budget", 0o644)
    cases: tuple[tuple[str, dict[str, object], dict[str, object], str], ...] = (
        ("young", {}, {}, "newer than the last walk"),
        ("budget", {"shut": shut}, {}, "it is shut: its owner has too many names"),
        ("left/file", {"left_out": left_out}, {}, "its owner asks for it"),
        ("open", {}, {"stale": True}, "nobody is answered: the rights"),
        ("open", {}, {"ready": False}, "nobody is answered yet"),
    )
    for name, mirror, service, due in cases:
        place.tell(mirror, service)
        status, out, told = place.why(tree / name)
        score.check(status == NOT_TOLD and due in out, f"{name}: {due}: {status} {out} {told}")
    place.tell({}, {})


def trouble(place: Place, score: Score) -> None:
    """What can't be found out, and who may ask."""
    command = [str(SERVICE / "wumpus-why"), "--folder", str(place.store), "/", "no-such-user"]
    told = subprocess.run(command, capture_output=True)
    score.check(told.returncode == TROUBLE and b"no account" in told.stderr, f"{told.stderr!r}")
    for groups in ("x", "-1", "4294967296", ""):
        status, _, said = place.why("/", "--groups", groups)
        score.check(status == TROUBLE and "number" in said, f"groups {groups!r}: {said!r}")
    as_user: Callable[[], None] = lambda: become(User(BOB, (BOB,)))  # noqa: E731
    told = subprocess.run(command, capture_output=True, preexec_fn=as_user)
    score.check(told.returncode == TROUBLE and b"root" in told.stderr, f"{told.stderr!r}")
    (place.store / "mirror.state").rename(place.store / "aside")
    status, _, said = place.why("/")
    score.check(status == TROUBLE and "no mirror" in said, f"without a state: {said!r}")
    (place.store / "aside").rename(place.store / "mirror.state")
    status, out, said = place.why(place.tree / "open", "--settings", "/nonexistent")
    score.check(status == 0, f"without settings: {out} {said}")


def beside_program(folder: Path, program: str, score: Score, draw: random.Random) -> int:
    """Random trees: it says of each path and user what program and kernel say."""
    place = Place(folder, program)
    changes = Changes(os.fsencode(place.tree), draw, list(ASKERS), list(GROUPS), True)
    pairs = 0
    for number in range(6):
        changes.some(120)
        words = ["--unlisted"] if number % 2 else []
        place.mirror(*words)
        place.tell({}, {})
        wanted = Wanted((os.fsencode(place.tree),), (), Access(bool(words)))
        mirror = read_mirror(place.store)
        told = Told(wanted, read_tree(place.store), mirror[0] if mirror else None, None)
        paths = paths_below(os.fsencode(place.tree))
        for asker in ASKERS:
            groups = tuple(draw.sample(GROUPS, 2))
            user = users.User(str(asker), asker, groups[0], frozenset(groups))
            kernels = opened_by(User(asker, groups), paths)
            shown = shown_by(place, user)
            for path in paths:
                verdict = judge(path, user, told)
                pairs += 1
                score.check(verdict.is_told == (path in shown), f"{path!r}, {asker}: {verdict}")
                score.check(bool(verdict.denied) != (path in kernels), f"{path!r}, {asker}")
                score.check(verdict.is_told or bool(verdict.reasons), f"{path!r}: no reason")
    return pairs


def shown_by(place: Place, user: users.User) -> set[bytes]:
    """The paths of the files that the program tells a user of: all of them, where one is open."""
    groups = "\t".join(str(one) for one in sorted(user.groups))
    script = f"user\t{user.number}\t{groups}\npaths\t{user.number}\n".encode()
    ran = subprocess.run(
        [place.program, "run"], input=script, capture_output=True, cwd=place.store, check=True
    )
    lines = ran.stdout.splitlines()[2:]
    open_paths = {unescape(one) or b"" for one in lines}
    files = {(os.stat(path).st_dev, os.stat(path).st_ino) for path in open_paths}
    return {
        path
        for path in paths_below(os.fsencode(place.tree))
        if (os.lstat(path).st_dev, os.lstat(path).st_ino) in files
    }


def main() -> int:
    """Runs the test."""
    given = options(__doc__ or "").parse_args()
    needs_root("why")
    needs_program("why", given.program)
    score = Score("why")
    with folder_of_own() as name:
        for part in ("reasons", "random"):
            (Path(name) / part).mkdir()
        place = Place(Path(name) / "reasons", given.program)
        fill(place)
        for check in (reasons, told_by_files, trouble):
            check(place, score)
        draw = random.Random(given.seed)
        pairs = beside_program(Path(name) / "random", given.program, score, draw)
    print(f"why: {pairs} pairs of path and user beside program and kernel")
    return score.end()


if __name__ == "__main__":
    sys.exit(main())
