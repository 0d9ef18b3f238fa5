"""The server of workers: what goes between it, its clients and its workers, and to the next one.

Hostile clients and hostile workers; marks that a worker leaves for the next one; documents of ten
users; a server that is killed, stopped, missing, or begins anew; and that it reads no document.
"""

import ctypes
import gzip
import os
import random
import resource
import signal
import socket
import subprocess
import sys
import time
from collections.abc import Callable, Iterator
from contextlib import contextmanager, suppress
from dataclasses import dataclass
from pathlib import Path
from unittest import mock

from deeds import become, call
from extracting import EXTRACT, PROGRAM, Extracting, has, made, text
from harness import Pace, Score, folder_of_own, needs_root, options

from wumpus.extract import command, samples, server  # isort: skip
from wumpus.extract.client import Extractor  # isort: skip
from wumpus.extract.documents import Document  # isort: skip
from wumpus.extract.frames import HEAD, Output  # isort: skip
from wumpus.extract.kinds import BUILT_IN, table_of  # isort: skip
from wumpus.extract.own import OwnWorkers  # isort: skip
from wumpus.extract.packets import Offer, Request  # isort: skip
from wumpus.extract.reasons import Reason, Way  # isort: skip
from wumpus.extract.texts import Failed, text_of  # isort: skip
from wumpus.extract.walls import Allowance, Walls  # isort: skip
from wumpus.extract.worker import CodeTask, Filter, Task  # isort: skip

PAGE = "page.html"
ALLOWED = Allowance(2, 256)


def is_fine(extractor: Extractor) -> bool:
    """Tells whether a page is made text."""
    return text(extractor, PAGE, b"<p>apple").strip() == "apple"


def hostile_clients(extracting: Extracting, score: Score) -> None:
    """What isn't a request parts with its client alone, and nothing is begun for it."""
    for what, packet, descriptors in _bad_requests():
        with socket.socket(socket.AF_UNIX, socket.SOCK_SEQPACKET) as client:
            client.settimeout(60)
            client.connect(str(extracting.path))
            client.recv(1 << 14)
            socket.send_fds(client, [packet], descriptors)
            score.check(is_parted_with(client), f"{what}: the connection ends")
        for number in descriptors:
            os.close(number)
    silent = [socket.socket(socket.AF_UNIX, socket.SOCK_SEQPACKET) for _ in range(12)]
    for one in silent:
        one.connect(str(extracting.path))
    score.check(is_fine(extracting.extractor()), "others are served beside silent clients")
    for one in silent:
        one.close()


def is_parted_with(client: socket.socket) -> bool:
    """Tells whether the server ends a connection without an answer."""
    try:
        return client.recv(100) == b""
    except ConnectionResetError:
        return True


def _bad_requests() -> Iterator[tuple[str, bytes, list[int]]]:
    """Requests that aren't right, with their descriptors."""

    def both() -> list[int]:
        reading, writing = os.pipe()
        os.close(reading)
        with Document.of(b"W") as document:
            return [os.dup(document.descriptor), writing]

    good = Request(0, ALLOWED, 1).packed()
    yield "a short packet", good[:-1], both()
    yield "a long packet", good + b"x", both()
    yield "no descriptors", good, []
    yield "one descriptor", good, both()[:1]
    yield "a kind that isn't there", Request(999, ALLOWED, 1).packed(), both()
    yield "no time", Request(0, Allowance(0, 256), 1).packed(), both()
    yield "too much time", Request(0, Allowance(60_000, 256), 1).packed(), both()
    yield "too much memory", Request(0, Allowance(2, 1 << 20), 1).packed(), both()
    unsealed = os.memfd_create("unsealed", os.MFD_ALLOW_SEALING)
    yield "a document that isn't sealed", good, [unsealed, both()[1]]
    yield "a file", good, [os.open(PROGRAM, os.O_RDONLY), both()[1]]
    yield "a file for a pipe", good, [both()[0], os.open("/dev/null", os.O_WRONLY)]


def client_goes_away(extracting: Extracting, score: Score) -> None:
    """A worker ends with the client for whom it works, so that others don't wait for it."""
    leaving = extracting.extractor()
    with Document.of(b"<" * 3_000_000) as document:
        run = leaving.begin("html", document, Allowance(60, 256))
        time.sleep(0.3)
        began = time.monotonic()
        leaving.close()
        score.check(is_fine(extracting.extractor()), "the next client is served")
        score.check(time.monotonic() - began < 10, "and soon")
        os.close(run.output)


def late_worker(extracting: Extracting, score: Score) -> None:
    """A worker that takes no time of the processor and doesn't end is ended by the clock."""
    extractor = extracting.extractor()
    with Document.of(b"<" * 3_000_000) as document:
        run = extractor.begin("html", document, Allowance(1, 256))
        began = time.monotonic()
        while not (workers := _children_of(extracting.process)) and time.monotonic() - began < 2:
            time.sleep(0.01)
        for one in workers:
            os.kill(one, signal.SIGSTOP)
        told = run.end()
    score.check(told.way is Way.LATE, f"a worker that stands still: {told}")
    score.check(is_fine(extractor), "and the next document is made")


def _children_of(process: int) -> list[int]:
    """The children of a process."""
    told = Path(f"/proc/{process}/task/{process}/children").read_text()
    return [int(one) for one in told.split()]


def bad_places(extracting: Extracting, folder: Path, score: Score) -> None:
    """The mirror hands nothing to a socket that somebody else could have put there."""
    others = folder / "others"
    others.mkdir()
    (others / "socket").symlink_to(extracting.path)
    table = extracting.table
    score.check(Extractor(table, others / "socket").reach(), "root's folder and link")
    os.chmod(others, 0o777)
    score.check(not Extractor(table, others / "socket").reach(), "a folder that others may change")
    os.chmod(others, 0o755)
    os.chown(others, EXTRACT, EXTRACT)
    score.check(not Extractor(table, others / "socket").reach(), "another's folder")
    os.chown(others, 0, 0)
    os.chown(others / "socket", EXTRACT, EXTRACT, follow_symlinks=False)
    score.check(not Extractor(table, others / "socket").reach(), "another's socket")
    absent = Extractor(table, folder / "absent")
    score.check(not absent.reach() and "absent" in absent.trouble, absent.trouble)
    told = made(absent, PAGE, b"<p>apple")
    right = isinstance(told, Failed) and told.reason is Reason.NO_SERVER and not told.reason.final
    score.check(right, f"without a server: {told}")


@dataclass(frozen=True)
class Saying:
    """A worker that was taken over, and writes what it likes."""

    walls: Walls
    say: Callable[[], object]

    def run(self) -> None:
        """Writes it."""
        self.say()


def say(what: bytes, size: int, data: bytes = b"", times: int = 1) -> Callable[[], None]:
    """Writes frames with this head."""

    def write() -> None:
        piece = (HEAD.pack(what, size) + data) * min(times, 1000)
        for _ in range(max(1, times // 1000)):
            os.write(1, piece)

    return write


def hostile_workers(score: Score) -> None:
    """What a worker writes costs its client no more than is due, and a wrong frame is told."""
    walls = Walls.for_code()
    table = table_of("hostile magic W code html")
    document = Document.of(b"W")
    limit = 16 + 65536
    cases: list[tuple[str, Callable[[], object], Reason | None]] = [
        ("a wrong frame", say(b"X", 3, b"abc"), Reason.HOSTILE),
        ("no frame", lambda: None, None),
        ("a wrong why", say(b"!", 1, b"?"), Reason.HOSTILE),
        ("a long why", say(b"!", 1000), Reason.HOSTILE),
        ("a long hint", say(b"H", 17), Reason.HOSTILE),
        ("half a frame", say(b"T", 100, b"abc"), Reason.HOSTILE),
        ("half a head", lambda: os.write(1, b"T\0"), Reason.HOSTILE),
        ("a huge text", say(b"T", 0xFFFFFFFF), Reason.TEXT),
        ("a text over its bound", say(b"T", limit + 1), Reason.TEXT),
        ("texts over their bound", say(b"T", 1000, bytes(1000), 1000), Reason.TEXT),
        ("many small texts", say(b"T", 1, b"a", 10_000), Reason.HOSTILE),
        ("hints for ever", say(b"H", 0, b"", 1_000_000), Reason.HOSTILE),
        ("a huge document within", say(b"D", 0xFFFFFFFF), Reason.WITHIN),
        ("many documents within", say(b"D", 1, b"a", 1000), Reason.WITHIN),
        ("silence", lambda: time.sleep(30), Reason.LATE),
    ]
    for what, write, due in cases:
        workers = OwnWorkers({"hostile": Saying(walls, write)})
        with mock.patch("wumpus.extract.texts.SECONDS", 1):
            told = text_of(workers, table, b"", document)
        reason = told.reason if isinstance(told, Failed) else None
        score.check(reason is due, f"{what}: {told}")
        workers.close()
    document.close()


class Marks:
    """Ways to leave something for the next worker, and to find it."""

    def __init__(self, folder: Path) -> None:
        self.folder = folder
        self.left = False  # in memory

    def leaving(self, name: str) -> Filter:
        """A filter that leaves a mark."""
        return lambda *_: getattr(self, f"leave_{name}")() and None

    def finding(self, name: str) -> Filter:
        """A filter that says whether it finds one."""
        return lambda _, output: output.line("found" if getattr(self, f"find_{name}")() else "")

    @classmethod
    def names(cls) -> list[str]:
        """The names of the ways."""
        return [name[6:] for name in dir(cls) if name.startswith("leave_")]

    def leave_memory(self) -> None:
        self.left = True

    def find_memory(self) -> bool:
        return self.left

    def leave_environment(self) -> None:
        os.environ["MARK"] = "x"

    def find_environment(self) -> bool:
        return "MARK" in os.environ

    def leave_descriptor(self) -> None:
        os.dup2(0, 20)

    def find_descriptor(self) -> bool:
        return os.lseek(20, 0, os.SEEK_CUR) >= 0

    def leave_place(self) -> None:
        """Of the document's descriptor, whose place both ends share."""
        os.lseek(0, 1, os.SEEK_SET)

    def find_place(self) -> bool:
        return os.lseek(0, 0, os.SEEK_CUR) == 1

    def leave_file(self) -> None:
        (self.folder / "mark").write_bytes(b"x")

    def find_file(self) -> bool:
        return (self.folder / "mark").exists()

    def leave_shared_file(self) -> None:
        Path("/dev/shm/wumpus-mark").write_bytes(b"x")

    def find_shared_file(self) -> bool:
        return Path("/dev/shm/wumpus-mark").exists()

    def leave_shared_memory(self) -> None:
        call("shmget", 77_001, 4096, 0o1666)

    def find_shared_memory(self) -> bool:
        return call("shmget", 77_001, 4096, 0) >= 0  # the first one is number 0

    def leave_queue(self) -> None:
        call("msgget", 77_002, 0o1666)

    def find_queue(self) -> bool:
        return call("msgget", 77_002, 0) >= 0

    def leave_posix_queue(self) -> None:
        call("mq_open", b"wumpus-mark", os.O_CREAT | os.O_RDWR, 0o666, 0)

    def find_posix_queue(self) -> bool:
        return call("mq_open", b"wumpus-mark", os.O_RDWR, 0, 0) > 0

    def leave_key(self) -> None:
        call("add_key", b"user", b"wumpus-mark", b"x", 1, -4)

    def find_key(self) -> bool:
        return call("request_key", b"user", b"wumpus-mark", None, -4) > 0

    def leave_directory(self) -> None:
        os.chdir("/usr")

    def find_directory(self) -> bool:
        return os.getcwd() == "/usr"

    def leave_mask(self) -> None:
        os.umask(0o123)

    def find_mask(self) -> bool:
        return os.umask(0) == 0o123

    def leave_limit(self) -> None:
        resource.setrlimit(resource.RLIMIT_STACK, (1 << 20, 1 << 20))

    def find_limit(self) -> bool:
        return resource.getrlimit(resource.RLIMIT_STACK)[1] == 1 << 20

    def leave_signal(self) -> None:
        os.kill(os.getppid(), signal.SIGWINCH)

    def find_signal(self) -> bool:
        return signal.SIGWINCH in signal.sigpending()


@contextmanager
def serving(folder: Path, filters: dict[str, Filter]) -> Iterator[Extractor]:
    """A server whose filters were replaced."""
    path = folder / "replaced"
    listener = socket.socket(socket.AF_UNIX, socket.SOCK_SEQPACKET)
    listener.bind(str(path))
    listener.listen()
    process = os.fork()
    if process == 0:
        become(EXTRACT)
        walls = Walls.for_code()
        tasks: dict[str, Task] = {name: CodeTask(walls, one) for name, one in filters.items()}
        offers = {name: Offer(name, False, "-") for name in tasks}
        server.Server(listener, tasks, offers).serve()
    listener.close()
    table = table_of(*(f"{name} magic {name}\\x20 code html" for name in filters))
    extractor = Extractor(table, path)
    extractor.reach()
    try:
        yield extractor
    finally:
        extractor.close()
        os.kill(process, signal.SIGKILL)
        os.waitpid(process, 0)
        path.unlink()


def marks(folder: Path, score: Score) -> None:
    """A worker leaves a mark by each way, and the worker of the next document finds none."""
    drop = folder / "drop"
    drop.mkdir()
    drop.chmod(0o777)
    ways = Marks(drop)
    names = Marks.names()
    filters = {f"leave{place}": ways.leaving(name) for place, name in enumerate(names)}
    filters |= {f"find{place}": ways.finding(name) for place, name in enumerate(names)}
    with serving(folder, filters) as extractor:
        for place, name in enumerate(names):
            made(extractor, "x", f"leave{place} ".encode())
            found = text(extractor, "x", f"find{place} ".encode())
            score.check("found" not in found, f"a worker finds {name}: {found!r}")
    reached = frozenset(_reached(ways))
    due = frozenset(Marks.names())
    score.check(reached == due, f"without walls and in one process all are found: {due - reached}")


def _reached(ways: Marks) -> list[str]:
    """Which marks are found where there are no walls, and one process does both."""
    told, tells = os.pipe()
    process = os.fork()
    if process == 0:
        try:
            become(EXTRACT)
            _find_here(ways, tells)
        finally:
            os._exit(0)
    os.close(tells)
    with os.fdopen(told) as names:
        found = names.read().split()
    os.waitpid(process, 0)
    Path("/dev/shm/wumpus-mark").unlink(missing_ok=True)
    return found


def _find_here(ways: Marks, tells: int) -> None:
    document = Document.of(b"abc")
    os.dup2(document.descriptor, 0)
    signal.pthread_sigmask(signal.SIG_BLOCK, {signal.SIGWINCH})
    with mock.patch("os.getppid", os.getpid):
        for name in Marks.names():
            getattr(ways, f"leave_{name}")()
    found = [name for name in Marks.names() if getattr(ways, f"find_{name}")()]
    os.write(tells, " ".join(found).encode())
    for kind, key in (("shm", 77_001), ("msg", 77_002)):
        number = call(f"{kind}get", key, 4096 if kind == "shm" else 0, 0)
        call(f"{kind}ctl", number, 0, 0)
    call("mq_unlink", b"wumpus-mark")
    call("keyctl", 21, call("request_key", b"user", b"wumpus-mark", None, -4))


def hidden_memory(extracting: Extracting, score: Score) -> None:
    """Another process of the server's user reads nothing of it, and can't trace it."""
    extracting.extractor()
    told, tells = os.pipe()
    process = os.fork()
    if process == 0:
        become(EXTRACT)
        for name in ("mem", "maps", "fd/3"):
            with suppress(OSError):
                os.close(os.open(f"/proc/{extracting.process}/{name}", os.O_RDONLY))
                os.write(tells, name.encode())
        with suppress(OSError):
            call("ptrace", 0x4206, extracting.process, 0, 0)
            os.write(tells, b"trace")
        os._exit(0)
    os.close(tells)
    with os.fdopen(told) as found:
        reached = found.read()
    os.waitpid(process, 0)
    score.check(reached == "", f"a process of the same user reaches: {reached}")


def ten_users(extracting: Extracting, count: int, score: Score) -> None:
    """Documents of ten users, each with words of its own: no text has another's word."""
    extractor = extracting.extractor()
    chance = random.Random(1)
    pace = Pace("server", count, "documents")
    wrong = 0
    for number in range(count):
        word = f"user{chance.randrange(10)}word{number}"
        name, data = _document_of(word, number)
        told = text(extractor, name, data)
        others = set(told.split()) - {word, "Sheet", "Subject:"}
        wrong += word not in told or any("word" in other for other in others)
        pace.tell(number)
    score.check(wrong == 0, f"{wrong} of {count} texts have another's word, or not their own")


def _document_of(word: str, number: int) -> tuple[str, bytes]:
    """A document of one of some kinds that says a word."""
    kinds: list[tuple[str, bytes]] = [
        ("a.docx", samples.docx(f"<w:p><w:r><w:t>{word}</w:t></w:r></w:p>")),
        ("a.xlsx", samples.xlsx(f"<si><t>{word}</t></si>", '<row><c t="s"><v>0</v></c></row>')),
        ("a.odt", samples.opendocument(f"<text:p>{word}</text:p>")),
        ("a.html", f"<p>{word}".encode()),
        ("a.eml", samples.mail(word)),
        ("a.gz", gzip.compress(f"{word}\n".encode(), mtime=0)),
        ("a.txt", word.encode("utf-16")),
        ("a.pdf", samples.pdf(word)),
    ]
    return kinds[number % len(kinds)]


def reads_nothing(extracting: Extracting, folder: Path, score: Score) -> None:
    """The server itself makes no call that reads a document or its pipe."""
    if not has("strace"):
        return
    told = folder / "strace"
    words = ["strace", "-o", str(told), "-p", str(extracting.process)]
    extractor = extracting.extractor()
    watching = subprocess.Popen(words, stderr=subprocess.PIPE)
    assert watching.stderr is not None
    watching.stderr.readline()
    for number in range(100):
        made(extractor, *_document_of("apple", number))
    watching.terminate()
    watching.wait()
    calls = {line.partition("(")[0] for line in told.read_text().splitlines()}
    read = calls & {"read", "pread64", "readv", "mmap", "write", "sendfile", "splice", "lseek"}
    # Memory of the interpreter's own comes by mmap too, but without a file.
    files = [line for line in told.read_text().splitlines() if line.startswith("mmap(")]
    if all("MAP_ANONYMOUS" in line for line in files):
        read.discard("mmap")
    score.check("recvmsg" in calls and not read, f"the server's calls: {sorted(calls)}")
    score.check(is_fine(extractor), "after that it serves")


def missing(extracting: Extracting, score: Score) -> None:
    """Without a server what is told isn't final, and takes no time."""
    extractor = extracting.extractor()
    extracting.end()
    extracting.listener.close()
    began = time.monotonic()
    told = [made(extractor, PAGE, b"<p>apple") for _ in range(100)]
    right = all(isinstance(one, Failed) and not one.reason.final for one in told)
    score.check(right, f"a server that is missing: {told[0]}")
    score.check(time.monotonic() - began < 10, "no time is lost with one that is missing")


def stopped(extracting: Extracting, score: Score) -> None:
    """A server that is stopped holds a turn up once."""
    extractor = extracting.extractor()
    score.check(is_fine(extractor), "before it is stopped")
    extracting.kill(signal.SIGSTOP)
    began = time.monotonic()
    with mock.patch("wumpus.extract.texts.SECONDS", 1):
        told = [made(extractor, PAGE, b"<p>apple") for _ in range(20)]
    right = all(isinstance(one, Failed) and not one.reason.final for one in told)
    score.check(right, f"while it is stopped: {told}")
    score.check(time.monotonic() - began < 20, f"{time.monotonic() - began:.0f} s are lost")
    score.check(not extractor.reach(), "and the next turn knows at once")
    extracting.kill(signal.SIGCONT)
    score.check(extractor.reach() and is_fine(extractor), "when it goes on it serves again")


def killed(extracting: Extracting, score: Score) -> None:
    """A server that is killed in the midst, and begun again by what holds its socket."""
    extractor = extracting.extractor()
    score.check(is_fine(extractor), "before it is killed")
    extracting.end()
    extracting.start()
    score.check(is_fine(extractor), "a document right after that")


def renewal(folder: Path, score: Score) -> None:
    """The server begins anew after some documents, and after a crash, and loses none."""
    for what, name, value, crash in (
        ("after 20 documents", "FORKS_MAX", 20, False),
        ("after a crash", "CRASHED_SECONDS", 0, True),
    ):
        path = folder / "renewed"
        listener = socket.socket(socket.AF_UNIX, socket.SOCK_SEQPACKET)
        listener.bind(str(path))
        listener.listen()
        process = os.fork()
        if process == 0:
            become(EXTRACT)
            with mock.patch.object(server, name, value):
                _serve_patched(listener, crash)
        extractor = Extractor(table_of(BUILT_IN), path)
        while not extractor.reach():
            time.sleep(0.1)
        before = Path(f"/proc/{process}/maps").read_text()
        crashed = made(extractor, "a.xz", samples.OF_FILTER["xz"]) if crash else None
        told = [is_fine(extractor) for _ in range(50)]
        score.check(all(told), f"{what}: {told.count(False)} of 50 documents are lost")
        score.check(Path(f"/proc/{process}/maps").read_text() != before, f"{what}: new addresses")
        if crash:
            right = isinstance(crashed, Failed) and crashed.reason is Reason.CRASHED
            score.check(right, f"a crash: {crashed}")
        os.kill(process, signal.SIGKILL)
        os.waitpid(process, 0)
        listener.close()
        path.unlink()


def crash_at_once(*_: object) -> None:
    """A filter that crashes."""
    ctypes.string_at(0)


def _serve_patched(listener: socket.socket, crash: bool) -> None:
    """Serves as the program does, and becomes the program when it begins anew."""
    tasks, offers = command.prepared(Path("/nonexistent"))
    if crash:
        tasks["xz"] = CodeTask(Walls.for_code(), crash_at_once)
    sys.orig_argv = [sys.executable, "-I", PROGRAM]
    try:
        server.Server(listener, tasks, offers).serve()
    except server.Renew:
        command.begin_anew(listener)


def main() -> int:
    """Runs the test."""
    parser = options(__doc__ or "")
    parser.add_argument("--documents", type=int, default=1000)
    given = parser.parse_args()
    needs_root("server")
    score = Score("server")
    with folder_of_own() as name:
        folder = Path(name)
        extracting = Extracting(folder)
        hostile_clients(extracting, score)
        client_goes_away(extracting, score)
        late_worker(extracting, score)
        bad_places(extracting, folder, score)
        hostile_workers(score)
        marks(folder, score)
        hidden_memory(extracting, score)
        ten_users(extracting, given.documents, score)
        reads_nothing(extracting, folder, score)
        stopped(extracting, score)
        killed(extracting, score)
        renewal(folder, score)
        missing(extracting, score)
    return score.end()


if __name__ == "__main__":
    sys.exit(main())
