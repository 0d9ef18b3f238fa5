"""Documents in the mirror: none is made without need, and no right that is gone waits for one.

A server of workers makes the texts, as in earnest; where it matters how long that takes, something
that sleeps stands in its place.
"""

import gzip
import json
import os
import random
import signal
import subprocess
import sys
import threading
import time
from collections.abc import Callable, Iterator
from contextlib import contextmanager
from dataclasses import replace
from pathlib import Path
from unittest import mock

from extracting import Extracting, has
from harness import SERVICE, Score, folder_of_own, needs_program, needs_root, options
from trial import person_of

from wumpus.extract import samples, texts  # isort: skip
from wumpus.extract.client import Extractor  # isort: skip
from wumpus.extract.documents import Document  # isort: skip
from wumpus.extract.kinds import BUILT_IN, table_of  # isort: skip
from wumpus.extract.texts import Failed, Made  # isort: skip
from wumpus.mirror import due, look, pending, turn  # isort: skip
from wumpus.mirror.budget import Budget  # isort: skip
from wumpus.mirror.documents import Documents  # isort: skip
from wumpus.mirror.limits import Limits  # isort: skip
from wumpus.mirror.reach import Direct  # isort: skip
from wumpus.mirror.state import read_state  # isort: skip
from wumpus.mirror.turn import Mirror, Report, Wish  # isort: skip
from wumpus.shared.progress import Progress  # isort: skip

ANN, BOB = 1000, 1001
MANY = 60
RACE_SECONDS = 8.0
MIXED, MIXED_USER = 100, 3000  # documents, and the first of the ten users
TABLE = table_of(BUILT_IN)


class Counted(Extractor):
    """Notes of which files text is made. The fingerprints of the kinds in `other` are new ones."""

    def __init__(self, path: Path) -> None:
        super().__init__(TABLE, path)
        self.names: list[bytes] = []
        self.other: set[str] = set()

    @property
    def fingerprints(self) -> dict[str, str]:
        """What is made, and by what."""
        found = super().fingerprints
        return {name: one + "x" * (name in self.other) for name, one in found.items()}

    def text_of(self, name: bytes, document: Document) -> Made | Failed:
        """Makes a text."""
        self.names.append(name)
        return super().text_of(name, document)


class Sleeping(Extractor):
    """Makes of each document the word that its name is: in so many seconds, or when it may."""

    def __init__(self, seconds: float) -> None:
        super().__init__(TABLE)
        self.seconds = seconds
        self.names: list[bytes] = []
        self.may = threading.Event()
        self.may.set()

    def reach(self) -> bool:
        """It is there."""
        return True

    @property
    def fingerprints(self) -> dict[str, str]:
        """It makes pages."""
        return {"html": "1"}

    def text_of(self, name: bytes, document: Document) -> Made | Failed:
        """Makes a text."""
        self.names.append(name)
        time.sleep(self.seconds)
        self.may.wait(60)
        return Made(name.partition(b".")[0], "html", 0, 0.0)


class Echo(Sleeping):
    """Makes of each document its bytes."""

    def text_of(self, name: bytes, document: Document) -> Made | Failed:
        """Makes a text."""
        self.names.append(name)
        text = os.pread(document.descriptor, document.size, 0)
        self.may.wait(60)
        return Made(text, "html", 0, 0.0)


class Noted(Progress):
    """Keeps the warnings."""

    def __init__(self) -> None:
        super().__init__("test", True)
        self.noted: list[str] = []

    def warn(self, text: str) -> None:
        """Keeps one."""
        self.noted.append(text)


class Trial:
    """A tree, and a mirror over it."""

    def __init__(self, folder: Path, program: str, extractor: Extractor | None) -> None:
        self.tree = folder / "tree"
        self.store = folder / "store"
        self.tree.mkdir(parents=True)
        self.store.mkdir(mode=0o700)
        self.reach = Direct(program, self.store)
        self.extractor = extractor
        self.budget = Budget()
        self.table = TABLE
        self.noted = Noted()
        self.begin()

    def begin(self) -> None:
        """A new mirror over what is kept."""
        documents = Documents(self.extractor)
        self.mirror = Mirror(self.reach, self.store, self.noted, documents=documents)
        self.mirror.begin(False)

    def write(self, name: str, data: bytes, owner: int = ANN, mode: int = 0o644) -> Path:
        """A file of an owner's."""
        path = self.tree / name
        path.parent.mkdir(parents=True, exist_ok=True)
        path.write_bytes(data)
        path.chmod(mode)
        os.chown(path, owner, owner)
        return path

    @property
    def wish(self) -> Wish:
        """What is mirrored."""
        roots = (os.fsencode(self.tree),)
        return Wish(roots, Limits(), {}, self.budget, person_of, table=self.table)

    def turn(self) -> Report:
        """A whole turn, as if all files were old."""
        with mock.patch.object(look, "SETTLED", 0):
            return self.mirror.turn(self.wish)

    def walk(self) -> None:
        """Names and rights alone."""
        self.mirror.walk(self.wish)

    def look(self) -> bool:
        """A slice of looks, or of documents."""
        with mock.patch.object(look, "SETTLED", 0):
            return self.mirror.look(self.wish, 20.0)

    def count(self, word: str, user: int = BOB) -> int:
        """In how many files a user is told of a word."""
        told = self.reach.ask(b'count\t%d\t"%s"\n' % (user, word.encode()))
        return int(told.split(b"\t")[2])

    def made(self) -> list[bytes]:
        """Of which files text was made since the last time."""
        assert isinstance(self.extractor, Counted | Sleeping)
        names = list(self.extractor.names)
        self.extractor.names.clear()
        return names

    def close(self) -> None:
        """Ends the program."""
        self.reach.abandon()


def page(*words: str) -> bytes:
    """A page with these words, and with marks that are no words of it."""
    return "".join(f"<p><em>{word}</em>\n" for word in words).encode()


# ---- what is found


def words(trial: Trial, score: Score) -> None:
    """Each kind is found by its words, by who may read it; and made once."""
    due_words = {
        "a.html": page("apple"), "b.docx": samples.docx("<w:p><w:t>apple</w:t></w:p>"),
        "c.gz": gzip.compress(b"apple\n"), "d.txt": "apple\n".encode("utf-16"),
        "e.eml": samples.mail("apple"), "f.odt": samples.opendocument("<text:p>apple</text:p>"),
    }  # fmt: skip
    if has("pdftotext"):
        due_words["g.pdf"] = samples.pdf("apple")
    for name, data in due_words.items():
        trial.write(name, data)
    trial.write("own.html", page("secret"), ANN, 0o600)
    trial.write("plain.txt", b"apple\n")
    report = trial.turn()
    count = trial.count("apple")
    score.check(count == len(due_words) + 1, f"found in {count} files: {report}")
    score.check(report.documents == len(due_words) + 1, f"made: {report}")
    score.check(trial.count("em") == 0, "marks of a page are no words")
    told = trial.count("secret", ANN), trial.count("secret")
    score.check(told == (1, 0), f"a page of Ann's own: {told}")
    trial.made()
    report = trial.turn()
    score.check(trial.made() == [] and report.batches == 0, f"again: {report}")


def mixed(trial: Trial, score: Score) -> None:
    """Of many documents of ten users each has its own word, and no other one's."""
    makers: tuple[tuple[str, Callable[[str], bytes]], ...] = (
        ("html", page),
        ("docx", lambda word: samples.docx(f"<w:p><w:t>{word}</w:t></w:p>")),
        ("gz", lambda word: gzip.compress(word.encode())),
        ("eml", samples.mail),
    )
    for number in range(MIXED):
        kind, make = makers[number % len(makers)]
        data = make(f"word{number}own")
        trial.write(f"mixed/{number}.{kind}", data, MIXED_USER + number % 10, 0o600)
    report = trial.turn()
    score.check(report.documents == MIXED, f"made: {report}")
    wrong = []
    for number in range(MIXED):
        owner = MIXED_USER + number % 10
        other = MIXED_USER + (number + 1) % 10
        found = [trial.count(f"word{number}own", user) for user in (owner, other, 0)]
        wrong += [] if found == [1, 0, 1] else [(number, found)]
    score.check(wrong == [], f"words of other documents: {wrong[:3]}")
    trial.made()


def raw(folder: Path, program: str, score: Score) -> None:
    """Without a server documents are names alone, and a PDF is never fed raw."""
    trial = Trial(folder / "raw", program, None)
    trial.write("letters.pdf", b"%PDF-1.4\n~> quince endstream\n")
    trial.write("a.html", page("apple"))
    for table in (TABLE, table_of(BUILT_IN, "pdf off"), TABLE):
        trial.table = table
        trial.turn()
        score.check(trial.count("quince") == 0, "a PDF in letters is fed raw")
        score.check(trial.count("apple") == 0, "a page is fed raw")
    trial.close()


def needless(trial: Trial, score: Score) -> None:
    """New modes, names, links and owners: no worker. New bytes: one each."""
    paths = [trial.write(f"many/{number}.html", page(f"n{number}")) for number in range(MANY)]
    trial.turn()
    score.check(len(trial.made()) == MANY, "each is made once")
    for number, path in enumerate(paths):
        path.chmod(0o640)
        os.chown(path, BOB, BOB)
        paths[number] = path.rename(path.with_name(f"new{number}.html"))
        os.link(paths[number], path.with_name(f"link{number}.html"))
    (trial.tree / "many").rename(trial.tree / "moved")
    report = trial.turn()
    made = trial.made()
    score.check(made == [] and report.looked == MANY, f"without need: {len(made)} made, {report}")
    score.check(trial.count("n7") == 1, f"it is still found: {trial.count('n7')}")
    moved = trial.tree / "moved"
    for number in range(3):
        (moved / f"new{number}.html").write_bytes(page(f"other{number}"))
    copy = moved / "copy"
    copy.write_bytes(page("n7"))
    copy.rename(moved / "new7.html")
    os.unlink(moved / "link7.html")
    trial.turn()
    made = trial.made()
    score.check(len(made) == 3, f"after three changes: {made}")
    told = [trial.count(word) for word in ("other1", "n1", "n7")]
    score.check(told == [1, 0, 1], f"after them: {told}")
    (moved / "new8.html").rename(moved / "new8.txt")
    os.unlink(moved / "link8.html")
    trial.turn()
    score.check(trial.made() == [] and trial.count("em") == 1, "by another name it is plain text")
    (moved / "new8.txt").rename(moved / "new8.html")
    trial.turn()
    score.check(len(trial.made()) == 1 and trial.count("em") == 0, "and a page again")


def changed(trial: Trial, score: Score) -> None:
    """A document that changed has no text before its new one is there; its copy has to be true."""
    path = trial.write("changed.html", page("before"))
    trial.turn()
    path.write_bytes(page("after"))
    trial.walk()
    score.check(trial.count("before") == 0, "it is shut until it was looked at")
    trial.look()
    found = [trial.count(word, 0) for word in ("before", "after")]
    score.check(found == [0, 0], f"before the new text is made: {found}")
    path.write_bytes(page("never"))  # as long as it was
    while trial.look():
        pass
    found = [trial.count(word, 0) for word in ("before", "after", "never")]
    score.check(found == [0, 0, 0], f"other bytes than were looked at: {found}")
    trial.turn()
    found = [trial.count(word, 0) for word in ("after", "never")]
    score.check(found == [0, 1], f"in the next turn: {found}")


def narrow(trial: Trial, score: Score) -> None:
    """A document at a path that is asked for at once is found without a walk over all."""
    trial.turn()
    path = trial.write("narrow/a.html", page("rowan"))
    trial.turn()
    path.write_bytes(page("sorrel"))
    trial.table = table_of(BUILT_IN)  # as it is read anew in each turn
    asked = replace(trial.wish, first=(os.fsencode(path),))
    with mock.patch.object(look, "SETTLED", 0):
        score.check(trial.mirror.narrow(asked), "all has to be walked")
        while trial.mirror.look(asked, 20.0):
            pass
    found = [trial.count(word) for word in ("rowan", "sorrel")]
    score.check(found == [0, 1], f"asked for at once: {found}")
    trial.made()


# ---- filters


def anew(trial: Trial, score: Score) -> None:
    """Where something else makes a kind, it alone is made anew, and none is shut meanwhile."""
    assert isinstance(trial.extractor, Counted)
    trial.write("anew/a.html", page("apricot"))
    trial.write("anew/b.gz", gzip.compress(b"apricot\n"))
    trial.turn()
    trial.made()
    trial.extractor.other.add("gz")
    trial.mirror.documents.ask(TABLE)
    trial.mirror.documents.settle(10)
    trial.walk()
    score.check(trial.count("apricot") == 2, "none is shut")
    while trial.look():
        score.check(trial.count("apricot") == 2, "none is shut, nor emptied")
    made = trial.made()
    score.check(b"b.gz" in made and b"a.html" not in made, f"what is made anew: {made}")
    trial.turn()
    score.check(trial.made() == [], "and once")
    trial.extractor.other.clear()
    trial.turn()
    trial.turn()
    trial.made()


def away(trial: Trial, extracting: Extracting, score: Score) -> None:
    """The server is gone, and comes back: what didn't change keeps its text, as it is."""
    kept = trial.write("away/a.html", page("cherry"))
    other = trial.write("away/b.html", page("cherry"))
    trial.turn()
    trial.made()
    extracting.listener.close()
    extracting.path.unlink()
    extracting.end()
    other.write_bytes(page("damson"))
    kept.chmod(0o664)
    began = time.monotonic()
    trial.turn()
    trial.turn()
    spent = time.monotonic() - began
    told = trial.count("cherry"), trial.count("damson")
    score.check(told == (1, 0) and spent < 5, f"without it: {told} in {spent:.1f} s")
    trouble = trial.mirror.documents.trouble
    score.check(trouble is not None and "socket" in trouble, f"why: {trouble}")
    extracting.listen()
    extracting.start()
    extracting.extractor().close()
    trial.made()
    trial.turn()  # it is asked beside this walk, or was before it
    trial.turn()
    made = trial.made()
    told = trial.count("cherry"), trial.count("damson")
    score.check(told == (1, 1) and made == [b"b.html"], f"with it again: {told}, {made}")
    score.check(trial.mirror.documents.trouble is None, "no trouble")


def tables(trial: Trial, score: Score) -> None:
    """Kinds that are off, and on again: files of them alone change, and none is shut meanwhile."""
    names = [b"of-table.html", b"of-table.gz", b"of-table.odd"]
    for name, data in zip(names, (page("elder"), gzip.compress(b"elder\n"), page("elder"))):
        trial.write(f"table/{os.fsdecode(name)}", data)
    trial.turn()
    before = trial.count("elder")
    trial.made()
    rows: tuple[tuple[str, int, list[bytes]], ...] = (
        ("html off", 2, []),
        ("", 1, names[:1]),
        ("html suffix html odd code html", 0, names[2:]),
        ("", 1, []),
    )
    for line, marks, due_names in rows:
        trial.table = table_of(BUILT_IN, line)
        trial.walk()
        score.check(trial.count("elder") == before, f"{line!r}: shut while it is looked at")
        while trial.look():
            pass
        made = [name for name in trial.made() if name in names]
        score.check(made == due_names, f"{line!r}: made are {made}")
        found = trial.count("em")
        is_right = found > 1 if marks > 1 else found == marks
        score.check(is_right, f"{line!r}: marks of pages as words in {found} files")
        state = read_state(trial.mirror.feeder.files.path)
        is_kept = state is not None and state[0].known == trial.table.known
        score.check(is_kept and not trial.mirror.state.unsorted, f"{line!r}: it isn't kept")
        again = trial.turn()
        score.check(again.looked == 0, f"{line!r}: looked at again: {again}")


def older(trial: Trial, score: Score) -> None:
    """A state of the second format: documents are found out, and nothing is shut meanwhile."""
    trial.write("older/a.html", page("fig"))
    trial.write("older/b.txt", b"fig\n")
    trial.turn()
    path = trial.mirror.feeder.files.path
    trial.mirror.feeder.save()
    head, *lines = map(json.loads, path.read_text().splitlines())
    head["format"] = 2
    del head["known"]
    for line in lines:
        line[3] = [node[:11] for node in line[3]]
    path.write_text("".join(json.dumps(one) + "\n" for one in (head, *lines)))
    trial.made()
    trial.begin()
    trial.walk()
    score.check(trial.count("fig") == 2, "nothing is shut")
    while trial.look():
        pass
    score.check(trial.count("fig") == 2 and b"a.html" in trial.made(), "it is made")
    score.check(trial.mirror.state.unsorted == set(), "all were looked at")


# ---- who waits for what


def stopped(trial: Trial, extracting: Extracting, score: Score) -> None:
    """A server that doesn't go on: turns do, rights count at once, and it is tried again later."""
    path = trial.write("stopped/a.html", page("grape"))
    victim = trial.write("stopped/victim.txt", b"medlar\n")
    extracting.kill(signal.SIGSTOP)
    with mock.patch.object(texts, "SECONDS", 1), mock.patch.object(due, "PAUSE", 0.1):
        trial.walk()
        while trial.mirror.documents.making is None and trial.look():
            pass
        victim.chmod(0o600)
        began = time.monotonic()
        trial.walk()
        spent = time.monotonic() - began
        told = trial.count("medlar")
        score.check(told == 0 and spent < 2, f"a right that was taken away: {told}, {spent:.1f} s")
        while trial.look():
            pass
        score.check(trial.count("grape") == 0, "nothing was made")
        extracting.kill(signal.SIGCONT)
        time.sleep(1)
        trial.turn()
        trial.turn()
    score.check(trial.count("grape") == 1, f"later it is: {path} {trial.noted.noted[-2:]}")
    trial.made()


def raced(folder: Path, program: str, score: Score) -> None:
    """A document that is secret while only its owner may read it, and public else."""
    trial = Trial(folder / "raced", program, Echo(0.0))
    path = trial.write("a.html", b"public")
    stop = threading.Event()

    def change() -> None:
        draw = random.Random(1)
        with open(path, "r+b", buffering=0) as file:
            while not stop.is_set():
                for text, mode in ((b"secret", 0o600), (b"public", 0o644)):
                    if text == b"secret":
                        os.fchmod(file.fileno(), mode)
                    os.pwrite(file.fileno(), text, 0)
                    os.fchmod(file.fileno(), mode)
                    time.sleep(draw.choice((0.0, 0.002, 0.06, 0.12)))

    changes = threading.Thread(target=change)
    changes.start()
    shown = leaked = 0
    until = time.monotonic() + RACE_SECONDS
    while time.monotonic() < until:
        trial.mirror.turn(trial.wish)
        shown += trial.count("public")
        leaked += trial.count("secret")
    stop.set()
    changes.join()
    score.check(leaked == 0, f"what only its owner may read was shown {leaked} times")
    score.check(shown > 0, "the public text never was")
    trial.close()


def revoked(folder: Path, program: str, score: Score) -> None:
    """While a text is being made, a right that was taken away counts as soon as ever."""
    extractor = Sleeping(0.0)
    trial = Trial(folder / "revoked", program, extractor)
    extractor.may.clear()
    trial.write("bomb.html", page("x"))
    victim = trial.write("victim.txt", b"medlar\n", BOB)
    with mock.patch.object(turn, "DOCUMENT_SECONDS", 0.2):
        trial.walk()
        for _ in range(3):
            trial.look()
        score.check(extractor.names == [b"bomb.html"], f"it is under way: {extractor.names}")
        score.check(trial.count("medlar", ANN) == 1, "the file is found")
        victim.chmod(0o600)
        fresh = trial.write("fresh.txt", b"nectarine\n", BOB)
        began = time.monotonic()
        trial.walk()
        gone = trial.count("medlar", ANN) == 0
        trial.look()
        spent = time.monotonic() - began
        score.check(gone and spent < 2, f"a right that was taken away: {gone} in {spent:.1f} s")
        score.check(trial.count("nectarine") == 1, f"a plain file is fed meanwhile: {fresh}")
        extractor.may.set()
        trial.turn()
    score.check(trial.count("bomb") == 1 and extractor.names == [b"bomb.html"], "it is made then")
    trial.close()


def overtaken(folder: Path, program: str, score: Score) -> None:
    """A text is fed for the bytes of which it was made alone, and not where others came since."""
    extractor = Echo(0.0)
    trial = Trial(folder / "overtaken", program, extractor)
    extractor.may.clear()
    path = trial.write("a.html", b"first")
    with mock.patch.object(turn, "DOCUMENT_SECONDS", 0.2):
        trial.walk()
        for _ in range(3):
            trial.look()
        score.check(extractor.names == [b"a.html"], f"it is under way: {extractor.names}")
        path.write_bytes(b"second")
        trial.walk()
        trial.look()
        extractor.may.set()
        for _ in range(3):
            trial.look()
            score.check(trial.count("first") == 0, "a text of other bytes is fed")
    trial.turn()
    told = [trial.count(word) for word in ("first", "second")]
    score.check(told == [0, 1], f"afterwards: {told}")
    trial.close()


def fair(folder: Path, program: str, score: Score) -> None:
    """Persons in turn by their time, each with as much of a minute as a budget says."""
    extractor = Sleeping(0.05)
    trial = Trial(folder / "fair", program, extractor)
    trial.budget = Budget(documents=0.5)
    for number in range(40):
        trial.write(f"ann/{number}.html", page("x"))
    trial.write("bob/late.html", page("x"), BOB)
    trial.write("bob/later.html", page("x"), BOB)
    report = trial.turn()
    made = trial.made()
    place = made.index(b"late.html") if b"late.html" in made else 99
    score.check(place <= 1, f"the other one's comes as number {place}")
    score.check(b"later.html" in made and 5 < len(made) < 20, f"{len(made)} made: {report}")
    score.check(not trial.mirror.look(trial.wish, 5.0), "she has no time left in this minute")
    trial.mirror.documents.queue.end = 0.0
    trial.turn()
    more = trial.made()
    score.check(5 < len(more) < 20 and not set(more) & set(made), f"{len(more)} in the next one")
    trial.close()


def between(folder: Path, program: str, score: Score) -> None:
    """A document waits for some slices of looks, and not until no file has to be looked at."""
    extractor = Sleeping(0.0)
    trial = Trial(folder / "between", program, extractor)
    trial.turn()
    trial.write("late.html", page("x"), BOB)
    trial.walk()
    trial.look()
    for number in range(MANY * 20):
        trial.write(f"ann/{number}.txt", b"medlar\n")
    trial.walk()
    for _ in range(10):
        trial.mirror.look(trial.wish, 0.001)
    left = trial.mirror.pending.files
    score.check(left > 0 and trial.count("late") == 1, f"beside {left} files: {extractor.names}")
    trial.close()


def room(folder: Path, program: str, path: Path, score: Score) -> None:
    """A text counts by its own length, and what is too much is told, and tried again."""
    extractor = Counted(path)
    trial = Trial(folder / "room", program, extractor)
    trial.budget = Budget(text_bytes=50_000)
    trial.write("a.gz", gzip.compress(b"melon " * 5_000))
    trial.write("b.gz", gzip.compress(b"melon " * 5_000 + b"x"))
    trial.turn()
    score.check(trial.count("melon") == 1, f"one has room: {trial.count('melon')}")
    noted = [one for one in trial.noted.noted if "too much text" in one]
    score.check(len(noted) == 1 and "tried again" in noted[0], f"told: {noted}")
    trial.budget = Budget()
    with mock.patch("time.monotonic", _in_a_while()):
        trial.turn()
    score.check(trial.count("melon") == 2, "both have")
    trial.close()


def _in_a_while() -> Callable[[], float]:
    real = time.monotonic
    return lambda: real() + 100.0


def final(trial: Trial, score: Score) -> None:
    """What has no text for good isn't tried again, also by a new mirror; and is told."""
    trial.write("final/a.docx", b"PK\x03\x04 nothing")
    trial.write("final/b.gz", gzip.compress(b"W " * (1 << 20), mtime=0))
    report = trial.turn()
    score.check(report.failed == {"broken": 1, "text": 1}, f"{report}")
    score.check(sorted(trial.made()) == [b"a.docx", b"b.gz"], "both were tried")
    trial.turn()
    trial.begin()
    trial.turn()
    score.check(trial.made() == [], "and not again")


def limits(trial: Trial, score: Score) -> None:
    """Windows of large files are small, and files beyond the bounds have no text."""
    large = trial.write("limits/a.html", b"")
    os.truncate(large, 65 << 20)
    trial.write("limits/b.html", b"").write_bytes(page("kiwi") * (1 << 20))
    trial.write("limits/c.txt", b"kiwi " * (4 << 20))
    trial.turn()
    trial.made()
    score.check(trial.count("kiwi") == 0, "none has a text")
    noted = " ".join(trial.noted.noted)
    told = [one for one in ("64 MiB", "16 MiB", "too much text") if one not in noted]
    score.check(told == [], f"not told: {told}")
    assert pending.BYTES_OF_WINDOW < 2 << 20
    for name in ("a.html", "b.html", "c.txt"):
        (trial.tree / "limits" / name).unlink()


def command(folder: Path, program: str, extracting: Extracting, score: Score) -> None:
    """The mirror by its command line: a dry run, a turn, and a table that can't be read."""
    place = folder / "command"
    tree, store, table = place / "tree", place / "store", place / "documents"
    tree.mkdir(parents=True)
    store.mkdir(mode=0o700)
    (tree / "a.html").write_bytes(page("olive"))
    (tree / "b.odd").write_bytes(page("olive"))

    def mirror(*words: str) -> tuple[int, bytes, str]:
        told = subprocess.run(
            [
                str(SERVICE / "wumpus-mirror"), "--folder", str(store), "--program", program,
                "--sockets", "/nonexistent", "--extract", str(extracting.path), "--documents",
                str(table), *words, str(tree),
            ],
            capture_output=True, timeout=120,
        )  # fmt: skip
        return told.returncode, told.stdout, told.stderr.decode()

    status, out, told = mirror("--dry-run")
    is_made = b"\n olive\n" in out and b"<p><em>olive" in out
    score.check(status == 0 and is_made, f"a dry run: {status} {out!r} {told}")
    for _ in range(2):
        status, _, told = mirror()
        score.check(status == 0, f"a turn: {told}")
        if "1 documents made" not in told:
            score.check("documents" not in told, f"nothing more is made: {told}")
    table.write_text("html suffix html odd code html\n")
    status, _, told = mirror()
    score.check(status == 0 and "1 documents made" in told, f"another table: {told}")
    table.write_text("html by heart\n")
    status, _, told = mirror()
    score.check(status == 2 and "line 1" in told, f"a table that isn't understood: {told}")
    table.unlink()
    elsewhere = mirror("--extract", str(place / "none"))[2]
    score.check("no text of documents" not in elsewhere, f"none waits for a text: {elsewhere}")
    (tree / "c.html").write_bytes(page("olive"))
    elsewhere = mirror("--extract", str(place / "none"))[2]
    is_told = "no text of documents is made: " in elsewhere and "1 due" in elsewhere
    score.check(is_told, f"without a server: {elsewhere}")


@contextmanager
def server(folder: Path) -> Iterator[Extracting]:
    """A server of workers."""
    below = folder / "server"
    below.mkdir()
    extracting = Extracting(below)
    extracting.extractor().close()
    try:
        yield extracting
    finally:
        extracting.close()


def main() -> int:
    """Runs the test."""
    given = options(__doc__ or "").parse_args()
    needs_root("documents")
    needs_program("documents", given.program)
    score = Score("documents")
    with folder_of_own() as name, server(Path(name)) as extracting:
        folder = Path(name)
        trial = Trial(folder / "main", given.program, Counted(extracting.path))
        parts = (words, mixed, needless, changed, narrow, anew, tables, older, final, limits)
        for part in parts:
            part(trial, score)
        raw(folder, given.program, score)
        raced(folder, given.program, score)
        revoked(folder, given.program, score)
        overtaken(folder, given.program, score)
        fair(folder, given.program, score)
        between(folder, given.program, score)
        room(folder, given.program, extracting.path, score)
        command(folder, given.program, extracting, score)
        stopped(trial, extracting, score)
        away(trial, extracting, score)
        trial.close()
    return score.end()


if __name__ == "__main__":
    sys.exit(main())
