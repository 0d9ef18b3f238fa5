"""Documents through the whole: mirror, service and client, with users beside each other.

What is found in a document is shown with its page, paragraph or line, made as the user who asks. A
user's documents tell others nothing, and take neither their answers nor their rights away, also
where they are made to take time.
"""

import gzip
import json
import os
import signal
import subprocess
import sys
import time
from collections.abc import Callable
from pathlib import Path
from typing import Any

import bombs
from client_test import Told, words_of_client
from extracting import Extracting, has
from harness import SERVICE, Score, folder_of_own, needs_program, needs_root, options
from kernel import User, become
from service_test import Served, as_user, ask_here

from wumpus.extract import samples, system  # isort: skip
from wumpus.extract.calls import Action, Rule, program_of  # isort: skip
from wumpus.web.answers import Answers  # isort: skip

ANN, BOB, EVE = User(1000, (1000,)), User(1001, (1001,)), User(1002, (1002,))
LATER = 60.0  # seconds in which a document is found, beside others
AT_ONCE = 8.0  # in which a new file and a right that is gone count, with a turn each second
MADE_MAX = 10  # documents whose lines are made for a question
ANSWERED = 5.0  # in which one is answered, on a machine with other work too
QUERIES = (
    b'count\t"quince"', b"count\tfile", b'find\t10\tfile > "apple"',
    b"rank\t10\tfile\tapple quince", b"paths",
    b"terms\t10\tqui", b"top\t10\tapp", b'find\t10\tline > "quince"',
)  # fmt: skip


class Whole:
    """A service, a mirror with a turn each second, and what makes text of documents."""

    def __init__(self, folder: Path, program: str) -> None:
        below = folder / "server"
        below.mkdir()
        self.extracting = Extracting(below)
        self.extracting.extractor().close()
        self.served = Served(folder, program)
        self.served.start()
        self.tree = self.served.tree
        self.table = folder / "documents"
        self.table.touch()
        self.mirror = subprocess.Popen(
            [
                str(SERVICE / "wumpus-mirror"), "--quiet", "--served", "--every", "1", "--folder",
                str(self.served.store), "--sockets", str(self.served.sockets), "--extract",
                str(self.extracting.path), "--documents", str(self.table), str(self.tree),
            ]
        )  # fmt: skip

    def write(self, name: str, data: bytes, owner: User, mode: int = 0o644) -> Path:
        """A file of a user's, which takes its name when it is whole."""
        path = self.tree / name
        new = self.served.folder / "new"
        new.write_bytes(data)
        new.chmod(mode)
        os.chown(new, owner.number, owner.number)
        return new.rename(path)

    def count(self, user: User, word: str) -> int:
        """In how many files a user is told of a word; -1 where she isn't answered."""
        told = self.served.ask(user, f'count\t"{word}"'.encode()).split(b"\t")
        return int(told[2]) if told[0] == b"count" else -1

    def waits(self, holds: Callable[[], bool], seconds: float = LATER) -> float | None:
        """How long it takes until something holds; None where it takes too long."""
        began = time.monotonic()
        while not holds():
            if time.monotonic() - began > seconds:
                return None
            time.sleep(0.05)
        return time.monotonic() - began

    def ask(self, user: User, *words: str, without_walls: bool = False) -> Told:
        """Runs the client as a user, in a pipe."""

        def begin() -> None:
            become(user)
            if without_walls:
                system.forbid_new_privileges()
                rules = [Rule("landlock_create_ruleset", Action.NOT_KNOWN)]
                system.filter_calls(program_of(rules, Action.ALLOW))

        command = words_of_client(self.served, *words)
        told = subprocess.run(command, capture_output=True, timeout=60, preexec_fn=begin)
        return Told(told.returncode, told.stdout.decode(), told.stderr.decode())

    def close(self) -> None:
        """Ends all."""
        self.mirror.terminate()
        self.mirror.wait(60)
        self.served.end(signal.SIGTERM)
        self.extracting.close()


def shown(whole: Whole, score: Score) -> None:
    """Lines, pages and paragraphs, as text and as JSON; and where no walls can be put up, none."""
    top = whole.tree
    documents = {
        "a.html": (b"<p>one\n<b>the</b> apricot", "2", None),
        "b.docx": (samples.docx("<w:p><w:t>one</w:t></w:p><w:p><w:t>the apricot</w:t></w:p>"),
                   "par. 2", None),
        "c.gz": (gzip.compress(b"one\ntwo\nthe apricot\n"), "3", None),
        "d.pptx": (samples.pptx("<a:p><a:t>the apricot</a:t></a:p>"), "p. 1", 1),
    }  # fmt: skip
    if has("pdftotext"):
        documents["e.pdf"] = (samples.pdf("the apricot"), "p. 1", 1)
    for name, (data, _, _) in documents.items():
        whole.write(name, data, ANN)
    found = whole.waits(lambda: whole.count(BOB, "apricot") == len(documents))
    score.check(found is not None, f"{whole.count(BOB, 'apricot')} documents are found")
    told = whole.ask(BOB, "apricot")
    due = {f"{top}/{name}:{place}:the apricot" for name, (_, place, _) in documents.items()}
    score.check(set(told.lines()) == due and not told.error, f"lines: {told}")
    told = whole.ask(BOB, "-L", "the apricot")
    score.check(set(told.lines()) == due and not told.error, f"-L: {told}")
    rows = [json.loads(line) for line in whole.ask(BOB, "--json", "apricot").lines()]
    pages = {row["path"].rpartition("/")[2]: row["lines"][0].get("page") for row in rows}
    due_pages = {name: page for name, (_, _, page) in documents.items()}
    score.check(pages == due_pages, f"--json: {rows}")
    told = whole.ask(BOB, "apricot", without_walls=True)
    is_told = told.status == 0 and not told.out and "no lines of it are made here" in told.error
    score.check(is_told, f"without walls: {told}")
    told = whole.ask(BOB, "-L", "the apricot", without_walls=True)
    score.check(len(told.lines()) == len(documents), f"without walls, as indexed: {told}")


def on_page(whole: Whole, score: Score) -> None:
    """The page shows the same places, in the results and in a file that is opened."""

    def asked() -> bytes:
        answers = Answers(whole.served.sockets / "ask")
        told = answers.ask({"query": "apricot", "number": 100})
        opened = [answers.file({"file": one["file"]}) for one in told["files"]]
        answers.close()
        places = [_places(one) for one in told["files"]], [_places(one) for one in opened]
        return json.dumps(places).encode()

    told = as_user(BOB, asked)
    results, opened = json.loads(told or b"[[], []]")
    due = {"2", "par. 2", "3", "p. 1"}
    score.check(set(results) == due and set(opened) == due, f"on the page: {told!r}")


def _places(value: dict[str, Any]) -> str:
    """Where a file of an answer of the page has the word."""
    rows = [row for row in value["lines"] if "apricot" in row["text"]]
    return " ".join(row["place"] for row in rows)


def many(whole: Whole, score: Score) -> None:
    """Of more than ten documents the first ten are made text for who asks."""
    for number in range(MADE_MAX + 3):
        whole.write(f"many{number}.html", b"<p>blackberry", ANN)
    whole.waits(lambda: whole.count(BOB, "blackberry") == MADE_MAX + 3)
    told = whole.ask(BOB, "blackberry")
    left = told.error.count("no lines of it are made here")
    score.check((len(told.lines()), left) == (MADE_MAX, 3), f"more than ten: {told}")


def apart(whole: Whole, score: Score) -> None:
    """Bob's answers are the same bytes with Ann's own documents and without."""
    whole.write("both.html", b"<p>apple quince", ANN)
    whole.waits(lambda: whole.count(BOB, "quince") == 1)
    before = [_whole_answer(whole, BOB, query) for query in QUERIES]
    word = "quince " * 50
    mine = {
        "own.html": f"<p>{word}apple".encode(), "own.gz": gzip.compress(word.encode()),
        "own.docx": samples.docx(f"<w:p><w:t>{word}quinces</w:t></w:p>"),
    }  # fmt: skip
    for name, data in mine.items():
        whole.write(name, data, ANN, 0o600)
    found = whole.waits(lambda: whole.count(ANN, "quince") == 1 + len(mine))
    score.check(found is not None, f"Ann finds {whole.count(ANN, 'quince')}")
    after = [_whole_answer(whole, BOB, query) for query in QUERIES]
    for query, one, other in zip(QUERIES, before, after):
        score.check(one == other and one != b"", f"{query!r}: {one[:200]!r}, {other[:200]!r}")


def _whole_answer(whole: Whole, user: User, query: bytes) -> bytes:
    """All lines of an answer."""

    def asked() -> bytes:
        words = [*words_of_client(whole.served), "--json", "-n", "100", "apple OR quince"]
        if query == QUERIES[0]:
            return subprocess.run(words, capture_output=True, timeout=60).stdout
        return ask_here(whole.served.sockets, query)

    return as_user(user, asked)


def hostile(whole: Whole, score: Score) -> None:
    """Beside documents that take all the time they can: rights, answers, and others' documents."""
    for number in range(3):
        whole.write(f"bomb{number}.html", b"<" * bombs.MANY, EVE)
        whole.write(f"bomb{number}.docx", bombs.zeros_of_zip(), EVE)
        whole.write(f"bomb{number}.gz", bombs.deep(6, b"W\n"), EVE)
    time.sleep(2.5)
    slowest = 0.0
    for number in range(4):
        victim = whole.write(f"victim{number}.txt", b"medlar\n", BOB)
        found = whole.waits(lambda: whole.count(ANN, "medlar") == 1)
        is_soon = found is not None and found < AT_ONCE
        score.check(is_soon, f"a new file is found {found} s later, beside bombs")
        victim.chmod(0o600)
        gone = whole.waits(lambda: whole.count(ANN, "medlar") == 0)
        score.check(gone is not None and gone < AT_ONCE, f"a right counts {gone} s later")
        began = time.monotonic()
        whole.count(ANN, "apple")
        slowest = max(slowest, time.monotonic() - began)
        victim.unlink()
    score.check(slowest < ANSWERED, f"an answer after {slowest:.1f} s")
    late = whole.write("late.html", b"<p>nectarine", BOB)
    found = whole.waits(lambda: whole.count(ANN, "nectarine") == 1)
    score.check(found is not None, f"{late} isn't found, beside bombs")


def tables(whole: Whole, score: Score) -> None:
    """A kind that is off in a mirror that runs; a table that isn't understood keeps nothing up."""
    whole.write("off.html", b"<p>onemark", BOB)
    whole.waits(lambda: whole.count(ANN, "onemark") == 1)
    for text in ("html off\n", "html by heart\n"):
        whole.table.write_text(text)
        victim = whole.write("victim.txt", b"medlar\n", BOB)
        found = whole.waits(lambda: whole.count(ANN, "medlar") == 1)
        score.check(found is not None, f"{text!r}: a new file isn't found")
        victim.chmod(0o600)
        gone = whole.waits(lambda: whole.count(ANN, "medlar") == 0)
        score.check(gone is not None and gone < AT_ONCE, f"{text!r}: a right counts {gone} s later")
        raw = whole.waits(lambda: whole.served.ask(ANN, b'count\t"p" .. "onemark"')[-1:] == b"1")
        score.check(raw is not None, f"{text!r}: the page is as it is")
        victim.unlink()
    whole.table.write_text("")
    made = whole.waits(lambda: whole.served.ask(ANN, b'count\t"p" .. "onemark"')[-1:] == b"0")
    score.check(made is not None, "the page's text is made again")


def main() -> int:
    """Runs the test."""
    given = options(__doc__ or "").parse_args()
    needs_root("whole")
    needs_program("whole", given.program)
    score = Score("whole")
    with folder_of_own() as name:
        whole = Whole(Path(name), given.program)
        try:
            for part in (shown, on_page, many, apart, tables, hostile):
                part(whole, score)
        finally:
            whole.close()
    return score.end()


if __name__ == "__main__":
    sys.exit(main())
