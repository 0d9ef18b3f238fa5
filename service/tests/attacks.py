"""What one account, or a few that work together, do to stop the mirror or to hold the answers up.

Each attack has what is there before the mirror's first turn, and processes that run with the ids
of users from then on. They end when they are killed.
"""

import os
import signal
import socket
import stat
import time
from contextlib import suppress
from functools import partial
from pathlib import Path

from field import ACCOUNTS, CAROL, EVE, SUBORDINATES, Attack, Field, ask_and_wait, asking, nothing
from harness import STAND_IN
from kernel import User

DEPTH = 225
EMPTY = 12_000  # directories
LINKS = 100_000
LINKS_OF_FILE = 20_000
LARGE = 8 << 20  # bytes
SIBLINGS = 20
STORE_SIZE = "48m"


# ---- queries


def big_texts(field: Field) -> None:
    """Texts that make a query slow, where a word of the query doesn't."""
    if field.program != str(STAND_IN):
        line = b" ".join(b"w%d" % one for one in range(1000)) + b"\n"
        for one in range(5):
            write(field.eve / f"big{one}", line * (LARGE * 2 // len(line) - 1))


def slow_query(field: Field) -> bytes:
    """A query that takes far more time than one may."""
    if field.program == str(STAND_IN):
        return b'count\t"standinburn300"\n'
    return b"count\t" + b" + ".join(b"[%d]" % one for one in range(1, 40)) + b"\n"


def lockstep(field: Field) -> None:
    """Six accounts, of which always one has a slow query under way or waiting."""
    for account in ACCOUNTS:
        field.begin(account, lambda: pressed(field, slow_query(field)))


def pressed(field: Field, query: bytes) -> None:
    """A query; after a refusal it waits a little."""
    if ask_and_wait(field, query).startswith(b"refused"):
        time.sleep(0.2)


def dying(field: Field) -> None:
    """Queries in which the program ends, as one would that takes too much memory."""
    for account in ACCOUNTS:
        field.begin(account, lambda: pressed(field, b'count\t"standindie4"\n'))


def connections(field: Field) -> None:
    """One account with 36 subordinate ids: each holds as many connections as it may."""
    for user in (EVE, *SUBORDINATES):
        field.begin(user, lambda: hold(field))


def hold(field: Field) -> None:
    """Holds connections with half a line, and takes new ones for those that are ended."""
    held: list[socket.socket] = []
    while True:
        while len(held) < 16:
            one = socket.socket(socket.AF_UNIX, socket.SOCK_STREAM)
            one.connect(str(field.sockets / "ask"))
            one.sendall(b"cou")
            one.setblocking(False)
            held.append(one)
        for one in list(held):
            with suppress(BlockingIOError):
                if not one.recv(100):
                    one.close()
                    held.remove(one)
        time.sleep(0.02)


def groups(field: Field) -> None:
    """Processes of one user with different groups, which ask by turns."""
    for number in range(8):
        user = User(EVE.number, (EVE.number, 5000 + number))
        field.begin(user, lambda: busy(field))


def busy(field: Field) -> None:
    """Asks as fast as answers come."""
    with asking(field) as connection, connection.makefile("rb") as answers:
        while True:
            connection.sendall(b'count\t"apple"\n')
            if not answers.readline():
                return


# ---- files


def write(path: Path, text: bytes) -> None:
    """Writes a file that everybody may read."""
    path.write_bytes(text)
    path.chmod(0o644)


def large(field: Field) -> None:
    """Twenty files of 8 MiB: each gets a new text, and ten get another mode again and again."""

    def texts() -> None:
        number = 0
        while True:
            for one in range(20):
                number += 1
                line = b"text%d and more of it\n" % number
                write(field.eve / f"large{one}", line * (LARGE // len(line)))
            time.sleep(5)

    def modes() -> None:
        while True:
            for one in range(10):
                (field.eve / f"large{one}").chmod(0o640)
                (field.eve / f"large{one}").chmod(0o644)
            time.sleep(0.5)

    field.begin(EVE, texts)
    field.begin(EVE, modes)


def depth(field: Field) -> None:
    """Empty directories at a great depth: to look at each means to look at all above it."""

    def make() -> None:
        descriptor = os.open(field.eve, os.O_RDONLY)
        for _ in range(DEPTH):
            with suppress(FileExistsError):
                os.mkdir("d", dir_fd=descriptor)
            below = os.open("d", os.O_RDONLY, dir_fd=descriptor)
            os.close(descriptor)
            descriptor = below
        for one in range(EMPTY):
            with suppress(FileExistsError):
                os.mkdir(f"{one}", dir_fd=descriptor)
        time.sleep(3600)

    field.begin(EVE, make)


def crowded(field: Field) -> None:
    """A directory where everybody may make files, for users who have no home here."""
    crowd = field.tree / "crowd"
    crowd.mkdir()
    crowd.chmod(0o1777)
    for user in SUBORDINATES:
        (crowd / f"{user.number}").mkdir()
        os.chown(crowd / f"{user.number}", user.number, user.groups[0])


def restless(field: Field) -> None:
    """Directories and files of twelve subordinate ids, none of which ever stands still."""
    for user in SUBORDINATES[:12]:
        folder = field.tree / "crowd" / f"{user.number}"
        field.begin(user, partial(touch_all, folder))


def touch_all(folder: Path) -> None:
    """Changes a directory, and the files in it, all the while."""
    while True:
        folder.chmod(0o755)
        for one in range(10):
            write(folder / f"{one}", b"apple\n")
            time.sleep(0.004)


def shared_directory(field: Field) -> None:
    """A directory where everybody may make files, and in it directories of another user's."""
    shared = field.tree / "shared"
    shared.mkdir()
    shared.chmod(0o1777)

    def make() -> None:
        for one in range(SIBLINGS):
            (shared / f"carol{one}").mkdir()
            write(shared / f"carol{one}" / "text", b"sibling\n")

    field.as_user(CAROL, make)


def touching(field: Field) -> None:
    """Names come and go in the shared directory all the while."""

    def touch() -> None:
        while True:
            name = field.tree / "shared" / "eve"
            name.touch()
            name.unlink()
            time.sleep(0.001)

    field.begin(EVE, touch)


def links(field: Field) -> None:
    """Links to a few files, which go and come again in great numbers."""

    def relink() -> None:
        for number in range(LINKS // LINKS_OF_FILE):
            folder = field.eve / f"links{number}"
            folder.mkdir(exist_ok=True)
            write(folder / "0", b"x\n")
            for one in range(1, LINKS_OF_FILE):
                with suppress(FileExistsError):
                    os.link(folder / "0", folder / f"{one}")
        for number in range(LINKS // LINKS_OF_FILE):
            folder = field.eve / f"links{number}"
            for one in range(1, LINKS_OF_FILE, 4):
                os.unlink(folder / f"{one}")

    field.begin(EVE, relink)


def small_disk(field: Field) -> None:
    """The store's folder is on a small disk of its own."""
    field.mount(field.store, "tmpfs", f"size={STORE_SIZE},mode=700")


def disk(field: Field) -> None:
    """New texts, far more than the store's disk has room for."""

    def fill() -> None:
        number = 0
        while True:
            for one in range(60):
                number += 1
                line = b"fill%d\n" % number
                write(field.eve / f"fill{one}", line * (LARGE // 4 // len(line)))

    field.begin(EVE, fill)


def mounts(field: Field) -> None:
    """Files and a directory in the shared one, where eve has put file systems.

    One lets nobody but her in; two others let everybody wait for an answer that never comes.
    """
    for name, kind, words in (
        ("mine", stat.S_IFREG, ""),
        ("file", stat.S_IFREG, ",allow_other"),
        ("folder", stat.S_IFDIR, ",allow_other"),
    ):
        place = field.tree / "shared" / name
        if kind == stat.S_IFDIR:
            place.mkdir()
        else:
            write(place, b"apple\n")
        os.chown(place, EVE.number, EVE.groups[0])
        descriptor = os.open("/dev/fuse", os.O_RDWR)
        numbers = f"user_id={EVE.number},group_id={EVE.groups[0]}"
        field.mount(place, "fuse", f"fd={descriptor},rootmode={kind:o},{numbers}{words}")
        field.begin(EVE, lambda: time.sleep(3600))  # it holds the descriptor
        os.close(descriptor)


def stopped(field: Field) -> None:
    """The mirror is stopped, as one that waits for a disk which never answers."""
    process = field.mirror()
    os.kill(process, signal.SIGSTOP)
    field.stopped.append(process)


ATTACKS = (
    Attack("none", "nobody attacks: what is usual here", nothing, nothing),
    Attack("lockstep", "slow queries of six accounts", big_texts, lockstep),
    Attack("dying", "queries in which the program ends", nothing, dying, only_stand_in=True),
    Attack("large", "large files, new texts and modes", nothing, large),
    Attack("restless", "files of twelve subordinate ids change all the while", crowded, restless),
    Attack("depth", f"{EMPTY} empty directories {DEPTH} deep", nothing, depth),
    Attack("touching", "a shared directory is touched in a loop", shared_directory, touching),
    Attack("links", f"{LINKS} hard links that come and go", nothing, links),
    Attack("disk", f"texts for a store of {STORE_SIZE}", small_disk, disk),
    Attack("connections", "an account and 36 subordinate ids", nothing, connections),
    Attack("groups", "one user with eight sets of groups", nothing, groups),
    Attack("mounts", "file systems that never answer", shared_directory, mounts),
    Attack("stopped", "a mirror that hangs", nothing, stopped, ends_in_stale=True),
)
