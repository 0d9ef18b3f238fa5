"""The mirror by itself: its options, what it leaves out, and what it does after a loss."""

import os
import pty
import re
import shutil
import struct
import subprocess
import sys
import time
from collections.abc import Callable
from pathlib import Path

from harness import SERVICE, Score, folder_of_own, needs_program, options

DAEMON = 1  # an account that each system has
WITHOUT_ACCOUNT = 987
READ_ALL = 1 << 2  # CAP_DAC_READ_SEARCH


class Place:
    """A tree, and a folder for the store."""

    def __init__(self, folder: Path, program: str) -> None:
        self.program = program
        self.tree = folder / "tree"
        self.store = folder / "store"
        self.tree.mkdir()
        self.store.mkdir(mode=0o700)

    def words(self, *words: str) -> list[str]:
        """The words that run the mirror."""
        return [
            str(SERVICE / "wumpus-mirror"), "--folder", str(self.store), "--program",
            self.program, "--sockets", "/nonexistent", *words, str(self.tree),
        ]  # fmt: skip

    def mirror(self, *words: str) -> tuple[int, bytes, str]:
        """Runs the mirror: its status, and what it wrote."""
        told = subprocess.run(self.words(*words), capture_output=True, timeout=300)
        return told.returncode, told.stdout, told.stderr.decode("utf-8", "replace")

    def ask(self, script: bytes) -> list[bytes]:
        """The program's replies over the store as it is."""
        told = subprocess.run(
            [self.program, "run"], input=script, capture_output=True, cwd=self.store, timeout=300
        )
        return told.stdout.splitlines()

    def paths(self) -> list[str]:
        """The paths that user 0 is told, below the tree."""
        top = str(self.tree) + "/"
        lines = self.ask(b"paths\t0\n")[1:]
        return [os.fsdecode(line).removeprefix(top) for line in lines]


def options_of(place: Place, score: Score) -> None:
    """Excludes, a dry run, a turn without a change."""
    for name in ("a", "b.o", "c/d", "c/e.o", ".git/f", "g/.git/h", "keep/x"):
        path = place.tree / name
        path.parent.mkdir(parents=True, exist_ok=True)
        path.write_text(f"apple of {name}\n")
    relative = os.path.relpath(place.program)
    status, out, _ = place.mirror("--dry-run", "--quiet", "--program", relative)
    score.check(status == 0 and b"apple of a\n" in out, f"a dry run: {status}")
    score.check(out.count(b"\ncreate\t") == 7 and out.count(b"\ntext\t") == 7, "its lines")
    score.check(place.paths() == [], "it feeds nothing")
    status, _, told = place.mirror("--exclude", "*.o", "--exclude", "*/.git/*")
    score.check(place.paths() == ["a", "c/d", "keep/x"], f"excludes: {place.paths()}")
    status, _, told = place.mirror("--exclude", ".git", "--exclude", "*/c")
    score.check(place.paths() == ["a", "b.o", "keep/x"], f"other ones: {place.paths()}")
    place.mirror()
    score.check(len(place.paths()) == 7, "none")
    score.check("in 0 batches" in place.mirror()[2], "nothing is sent twice")
    (place.tree / "a").write_text("apple of a\n")
    score.check(" 0 texts" in place.mirror()[2], "a file that was written with the same text")


def declined(place: Place, score: Score) -> None:
    """A directory that says it isn't to be searched; another user can't say so of it."""
    for name in ("own", "others"):
        (place.tree / name / "below").mkdir(parents=True)
        (place.tree / name / "below" / "file").write_text("apple\n")
    place.mirror()
    due = {"own/below/file", "others/below/file"}
    score.check(due <= set(place.paths()), "two directories")
    for name in ("own", "others"):
        (place.tree / name / ".nowumpus").touch()
    if os.geteuid() == 0:
        os.chown(place.tree / "others" / ".nowumpus", DAEMON, DAEMON)
    told = place.mirror()[2]
    left = due & set(place.paths())
    wanted = {"others/below/file"} if os.geteuid() == 0 else set()
    score.check(left == wanted, f"what says that it isn't to be searched: {left}")
    score.check(f"{place.tree / 'own'}: it has a file .nowumpus" in told, f"and is told: {told}")
    for name in ("own", "others"):
        shutil.rmtree(place.tree / name)


def progress(place: Place, score: Score) -> None:
    """Where standard error is a terminal, it tells how far it is: files, bytes, what is left."""
    many = place.tree / "many"
    many.mkdir()
    for number in range(3000):
        (many / f"{number}").write_text("quince\n")
    ours, theirs = pty.openpty()
    words = place.words("--anew")
    child = subprocess.Popen(words, stdout=subprocess.DEVNULL, stderr=theirs)
    os.close(theirs)
    told = b""
    while True:
        try:
            told += os.read(ours, 65536)
        except OSError:
            break
    os.close(ours)
    score.check(child.wait() == 0, f"a turn at a terminal: {told!r}")
    score.check(re.search(rb"\d+ names seen", told) is not None, f"names: {told!r}")
    far = re.search(rb"\r\d+ files looked at, \d+ left, \d+ MiB", told)
    score.check(far is not None, f"how far it is: {told[-500:]!r}")
    shutil.rmtree(many)
    status, _, said = place.mirror()
    score.check(status == 2 and "--force" in said, f"most of all is gone: {said}")
    status, _, said = place.mirror("--force")
    score.check(status == 0 and len(place.paths()) == 7, f"and is taken away: {said}")


def odd_files(place: Place, score: Score) -> None:
    """What has no text, or no place."""
    (place.tree / "large").write_bytes(b"apple " * 3_000_000)
    (place.tree / "binary").write_bytes(b"apple\0apple")
    (place.tree / "late").write_bytes(b"x" * 9000 + b"\0 pomegranate")
    (place.tree / "letters.pdf").write_bytes(b"%PDF-1.4\n~> quince endstream\n")
    (place.tree / "mailed").write_bytes(b"\n" * 1019 + b"%PDF-1.4 quince\n")
    (place.tree / "about").write_bytes(b"\n" * 1020 + b"%PDF-1.4 medlar\n")
    os.mkfifo(place.tree / "fifo")
    (place.tree / "link").symlink_to("a")
    (place.tree / "outside").symlink_to("/etc")
    status, _, told = place.mirror()
    paths = place.paths()
    score.check(status == 0 and {"large", "binary", "late"} <= set(paths), f"paths: {paths}")
    score.check(not {"fifo", "link", "outside"} & set(paths), "links and FIFOs are left out")
    score.check("large: over 16 MiB" in told, f"it warns: {told}")
    count = place.ask(b'count\t0\t"apple"\ncount\t0\t"pomegranate"\n')
    score.check(count == [b"count\t7\t7", b"count\t1\t1"], f"texts: {count}")
    count = place.ask(b'count\t0\t"quince"\ncount\t0\t"medlar"\n')
    score.check(count == [b"count\t0\t0", b"count\t1\t1"], f"PDFs without a NUL: {count}")
    deep = place.tree / "deep"
    deep.mkdir()
    descriptor = os.open(deep, os.O_RDONLY)
    for _ in range(260):
        os.mkdir("d", dir_fd=descriptor)
        below = os.open("d", os.O_RDONLY, dir_fd=descriptor)
        os.close(descriptor)
        descriptor = below
    os.close(descriptor)
    status, _, told = place.mirror()
    score.check(status == 0 and "too deep" in told, f"a deep tree: {told}")
    subprocess.run(["rm", "-rf", str(deep)], check=True)
    score.check(place.mirror()[0] == 0, "and without it")


def losses(place: Place, score: Score) -> None:
    """A lost state, a store in the midst of a batch, and a store of somebody else."""
    due = place.paths()
    (place.store / "mirror.state").unlink()
    status, _, told = place.mirror()
    score.check(status == 2 and "--anew" in told, f"a store without its state: {told}")
    status, _, told = place.mirror("--anew")
    score.check(status == 0 and place.paths() == due, f"fed anew: {told}")
    state = (place.store / "mirror.state").read_text()
    state_at = (place.store / "mirror.state").stat().st_mtime
    serial = state.split('"serial":"')[-1].split('"')[0]
    line = f"rename\t2\tserial-{serial}\t2\tbusy-x\nchmod\t1\t777\n"
    score.check(place.ask(line.encode()) == [b"ok", b"ok"], "a batch that stopped in its midst")
    status, lines, told = place.mirror("--dry-run")
    score.check(status == 0 and b"\ncreate\t" in lines, f"a dry run would feed all: {told}")
    status, _, told = place.mirror("--dry-run", "--anew")
    moved = (place.store / "wumpus-store.old" / "root").stat().st_mtime > state_at
    score.check(status == 0 and not moved, f"and moves nothing aside: {told}")
    status, _, told = place.mirror()
    score.check(status == 0 and "anew" in told, f"it is found: {told}")
    score.check(place.paths() == due, "and all is there again")
    with open(place.store / "mirror.state", "a") as out:
        out.write('{"serial":"7-')
    (place.store / "mirror.next").write_text('{"format":1,"ser')
    for _ in range(2):
        status, _, told = place.mirror()
        score.check(status == 0 and "in 0 batches" in told, f"lines that were cut off: {told}")
    old = place.store / "copy"
    shutil.copytree(place.store / "wumpus-store", old)
    (place.tree / "new").write_text("new\n")
    place.mirror()
    shutil.rmtree(place.store / "wumpus-store")
    old.rename(place.store / "wumpus-store")
    status, _, told = place.mirror()
    score.check(status == 0 and "new" in place.paths(), f"a store that was restored: {told}")
    (place.store / "mirror.state").write_text("{}\n")
    status, _, told = place.mirror()
    score.check(status == 2 and "can't be read" in told, f"a broken state: {told}")
    score.check(place.mirror("--anew")[0] == 0, "and anew")
    status, _, told = place.mirror(str(place.tree / "none"))
    score.check(status == 2 and "none" in told, f"a root that isn't there: {told}")


def other_systems(place: Place, score: Score) -> None:
    """Another file system below the root, and a directory in two places."""
    mounted, twice, odd = (place.tree / name for name in ("mounted", "twice", "od d"))
    for one in (mounted, twice, odd):
        one.mkdir()
    over, under = place.tree / "over", place.tree / "under"
    for one in (over, under):
        one.write_text("hidden\n")
    if subprocess.run(["mount", "-t", "tmpfs", "none", str(mounted)]).returncode != 0:
        print("mirror: no mounts here, one part is skipped")
        return
    try:
        subprocess.run(["mount", "--bind", str(place.tree / "keep"), str(twice)], check=True)
        subprocess.run(["mount", "-t", "proc", "none", str(odd)], check=True)
        (mounted / "m").write_text("m\n")
        subprocess.run(["mount", "--bind", str(mounted / "m"), str(over)], check=True)
        subprocess.run(["mount", "--bind", str(odd / "version"), str(under)], check=True)
        told = place.mirror("--one-file-system")[2]
        paths = place.paths()
        score.check(not {"mounted/m", "over", "under"} & set(paths), "one file system only")
        score.check(f"{mounted}: a file system that is left out (tmpfs)" in told, f"told: {told}")
        told = place.mirror()[2]
        score.check("over" in place.paths(), "a file of another system at a file's place")
        score.check("under" not in place.paths(), "one of the kernel's own")
        score.check(f"{under}: a file system that is left out (proc)" in told, f"a file: {told}")
        paths = place.paths()
        score.check("mounted/m" in paths, "all file systems")
        score.check(f"{odd}: a file system that is left out (proc)" in told, f"the kernel's own: {told}")
        score.check(not any(one.startswith("od d") for one in paths), "its files")
        found = [path for path in paths if path.endswith("/x")]
        score.check(len(found) == 1, f"a directory in two places: {found}")
        long_list(place, score, mounted)
    finally:
        for one in (over, under, mounted, twice, odd):
            subprocess.run(["umount", str(one)], stderr=subprocess.DEVNULL)


def long_list(place: Place, score: Score, folder: Path) -> None:
    """A file, and a directory, whose list no line of the program's has room for: they are shut."""
    none = 0xFFFFFFFF
    named = [(2, 4, 4_000_000_000 + number) for number in range(8000)]
    entries = [(1, 6, none), *named, (4, 4, none), (16, 7, none), (32, 0, none)]
    value = struct.pack("<I", 2) + b"".join(struct.pack("<HHI", *entry) for entry in entries)
    below = folder / "below"
    below.mkdir()
    for path in (folder / "long", below / "file"):
        path.write_text("quince\n")
    for path in (folder / "long", below):
        os.setxattr(path, "system.posix_acl_access", value)
    (folder / "plain").write_text("quince\n")
    status, _, told = place.mirror()
    score.check(status == 0 and "access list can't be told" in told, f"long lists: {told}")
    paths = place.paths()
    due = {"mounted/long", "mounted/below/file", "mounted/plain"}
    score.check(due <= set(paths), f"long lists: {paths}")
    for user, count in ((0, b"2\t2"), (4_000_000_001, b"1\t1")):
        reply = place.ask(b'count\t%d\t"quince"\n' % user)
        score.check(reply == [b"count\t" + count], f"user {user}, long lists: {reply}")


def owner(folder: Path, program: str, score: Score) -> None:
    """Started by root, the mirror becomes the owner of its folder, and keeps one capability."""
    folder.mkdir(mode=0o755)
    place = Place(folder, program)
    secret = place.tree / "secret"
    secret.write_text("quince\n")
    secret.chmod(0o600)
    os.chown(place.store, DAEMON, DAEMON)
    child = subprocess.Popen(place.words("--every", "60", "--quiet"))
    try:
        written = place.store / "mirror.status"
        wait_for(lambda: written.exists() and '"waiting"' in written.read_text())
        status = Path(f"/proc/{child.pid}/status").read_text()
        due = {"Uid": str(DAEMON), "CapEff": f"{READ_ALL:016x}", "CapBnd": f"{READ_ALL:016x}"}
        for name, value in due.items():
            found = re.search(rf"^{name}:\t(\S+)", status, re.MULTILINE)
            score.check(found is not None and found[1] == value, f"{name} of a mirror: {found}")
        owners = {one.name: one.stat().st_uid for one in place.store.iterdir()}
        score.check(set(owners.values()) == {DAEMON}, f"whose its files are: {owners}")
    finally:
        child.terminate()
        child.wait(60)
    place.mirror()
    told = subprocess.run(
        [program, "run"], input=b'count\t0\t"quince"\n', capture_output=True, cwd=place.store,
        user=DAEMON, group=DAEMON,
    )  # fmt: skip
    score.check(told.stdout == b"count\t1\t1\n", f"it reads each file: {told}")
    os.chown(place.store, WITHOUT_ACCOUNT, DAEMON)
    ended, _, why = place.mirror()
    score.check(ended == 2 and "no account" in why, f"an owner without an account: {why}")
    os.chown(place.store, DAEMON, DAEMON)
    place.store.chmod(0o722)
    ended, _, why = place.mirror()
    score.check(ended == 2 and "others may write" in why, f"a folder of everybody: {why}")


def wait_for(holds: Callable[[], bool], seconds: float = 60.0) -> None:
    """Waits until something holds."""
    until = time.monotonic() + seconds
    while not holds() and time.monotonic() < until:
        time.sleep(0.02)


def main() -> int:
    """Runs the test."""
    given = options(__doc__ or "").parse_args()
    needs_program("mirror", given.program)
    score = Score("mirror")
    with folder_of_own() as name:
        place = Place(Path(name), given.program)
        options_of(place, score)
        declined(place, score)
        progress(place, score)
        odd_files(place, score)
        losses(place, score)
        if os.geteuid() == 0:
            other_systems(place, score)
            owner(Path(name) / "owner", given.program, score)
    return score.end()


if __name__ == "__main__":
    sys.exit(main())
