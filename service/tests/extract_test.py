"""The texts of documents: words, lines, pages and signs of each kind, and what is left out.

The samples are made here, by the interpreter's own modules; and where they are there, by groff and
ghostscript.
"""

import base64
import bz2
import gzip
import lzma
import os
import random
import subprocess
import sys
import threading
import time
from collections import Counter
from contextlib import suppress
from pathlib import Path
from unittest import mock

from extracting import EXTRACT, Extracting, has, made, text
from harness import Score, folder_of_own, needs_root, options

from wumpus.extract import asker, samples, system  # isort: skip
from wumpus.extract.calls import Action, Rule, program_of  # isort: skip
from wumpus.extract.client import Extractor  # isort: skip
from wumpus.extract.documents import Document  # isort: skip
from wumpus.extract.frames import HEAD, HINT, TEXT, WITHIN  # isort: skip
from wumpus.extract.kinds import BUILT_IN, BadTable, table_of  # isort: skip
from wumpus.extract.reasons import Ended, Reason, Way  # isort: skip
from wumpus.extract.tidy import tidied  # isort: skip
from wumpus.extract.texts import Failed, Made, text_of  # isort: skip
from wumpus.extract.walls import Allowance  # isort: skip
from wumpus.shared.words import words_of  # isort: skip

WORDS = (
    "budget Größe Übermaß naïve žluťoučký kůň Ελληνικά λόγος русский ёлка 日本語 検索 résumé"
).split()
OPEN_SHEET = "application/vnd.oasis.opendocument.spreadsheet"
OPEN_SLIDES = "application/vnd.oasis.opendocument.presentation"
XML = {"&": "&amp;", "<": "&lt;"}


class Source:
    """Lines of words, each word once."""

    def __init__(self, seed: int, lines: int) -> None:
        chance = random.Random(seed)
        self.lines = [
            " ".join(f"{chance.choice(WORDS)}{line}x{place}" for place in range(8))
            for line in range(lines)
        ]

    @property
    def whole(self) -> str:
        """All lines."""
        return "\n".join(self.lines) + "\n"


def share(source: str, told: str) -> float:
    """The share of the words of a source that a text has, by number."""
    due = Counter(words_of(source.encode()))
    lacking = due - Counter(words_of(told.encode()))
    return 1 - lacking.total() / due.total()


def office(source: Source) -> dict[str, bytes]:
    """A document of each kind of office file with these lines."""
    lines = source.lines
    shared = "".join(f"<si><t>{line}</t></si>" for line in lines)
    rows = "".join(f'<row><c t="s"><v>{place}</v></c></row>' for place in range(len(lines)))
    paragraphs = "".join(f"<text:p>{line}</text:p>" for line in lines)
    cells = "".join(
        "<table:table-row>"
        + "".join(f"<table:table-cell><text:p>{word}</text:p></table:table-cell>" for word in line)
        + "</table:table-row>"
        for line in map(str.split, lines)
    )
    runs = "".join(
        "<w:p>" + "".join(f"<w:r><w:t>{word} </w:t></w:r>" for word in line.split()) + "</w:p>"
        for line in lines
    )
    slides = "".join(f"<a:p><a:r><a:t>{line}</a:t></a:r></a:p>" for line in lines)
    return {
        "a.docx": samples.docx(runs),
        "a.xlsx": samples.xlsx(shared, rows),
        "a.pptx": samples.pptx(slides),
        "a.odt": samples.opendocument(paragraphs),
        "a.ods": samples.opendocument(f"<table:table>{cells}</table:table>", OPEN_SHEET),
        "a.odp": samples.opendocument(f"<draw:page>{paragraphs}</draw:page>", OPEN_SLIDES),
        "a.epub": samples.epub(*(f"<p>{line}</p>" for line in lines)),
    }


def packings(source: str) -> dict[str, bytes]:
    """A text, packed by each way, and in wide characters."""
    data = source.encode()
    wide = {
        f"{coding}.txt": source.encode(coding)
        for coding in ("utf-16", "utf-32", "utf-16-le", "utf-16-be")
        if source.isascii() or coding in ("utf-16", "utf-32")
    }
    return wide | {
        "a.gz": gzip.compress(data),
        "two.gz": gzip.compress(data[:100]) + gzip.compress(data[100:]),
        "a.xz": lzma.compress(data),
        "a.bz2": bz2.compress(data),
    }


def words(extractor: Extractor, score: Score) -> None:
    """Each kind has the words of its source."""
    source = Source(1, 100)
    documents = office(source) | packings(source.whole)
    documents["a.html"] = "".join(f"<p>{line}</p>\n" for line in source.lines).encode()
    documents["a.eml"] = samples.mail(source.whole)
    box = b"".join(
        b"From a@b Mon Jan  1 00:00:00 2024\n" + samples.mail(line) + b"\n\n"
        for line in source.lines
    )
    documents["a.mbox"] = box
    for name, data in documents.items():
        told = text(extractor, name, data)
        kept = share(source.whole, told)
        score.check(kept >= 0.999, f"{name}: {kept:.4f} of the words: {told[:100]!r}")
        score.check(told == text(extractor, name, data), f"{name}: made twice it is another text")
    if has("zstd"):
        packed = subprocess.run(["zstd", "-q"], input=source.whole.encode(), capture_output=True)
        told = text(extractor, "a.zst", packed.stdout)
        score.check(told == source.whole, f"zst: {told[:100]!r}")


def portable(extractor: Extractor, score: Score) -> None:
    """PDFs: pages, the words of groff, and what is no PDF."""
    if not has("pdftotext"):
        return
    told = text(extractor, "a", samples.pdf("quiet apples"))
    score.check(told == "quiet apples\n\n\f", f"a small PDF: {told!r}")
    told = text(extractor, "a", samples.pdf("a <pre> & more", "Titel <b>"))
    score.check(told == "Titel <b>\na <pre> & more\n\n\f", f"a PDF with a title: {told!r}")
    score.check(text(extractor, "a.gz", gzip.compress(samples.pdf("apple")))[:5] == "apple", "gz")
    broken = made(extractor, "a.pdf", b"%PDF-1.4 nothing")
    right = isinstance(broken, Failed) and broken.reason.final
    score.check(right, f"a broken PDF: {broken}")
    if not has("groff") or not has("gs"):
        return
    chance = random.Random(2)
    source = " ".join(f"{chance.choice(['ancient', 'flat', 'office'])}{n}" for n in range(3000))
    paper = subprocess.run(
        ["groff", "-Tps", "-ms", "-dpaper=a4"], input=f".PP\n{source}\n.PP\nthe \\[lq]end\\[rq]\n",
        capture_output=True, text=True,
    )  # fmt: skip
    pdf = subprocess.run(
        ["gs", "-q", "-sDEVICE=pdfwrite", "-o", "-", "-"], input=paper.stdout.encode(),
        capture_output=True,
    ).stdout  # fmt: skip
    told = text(extractor, "a.pdf", pdf)
    kept = share(source, told)
    score.check(kept >= 0.99, f"groff's PDF: {kept:.4f} of the words")
    score.check('"end"' in told, "its quotes are those of ASCII")
    score.check(told.count("\f") > 3 and told.endswith("\f"), f"{told.count(chr(12))} pages")


def signs(score: Score) -> None:
    """The signs of a text."""
    for written, due in (
        ("\u201cbudget\u201d \u2018no\u2019 \u00abja\u00bb", "\"budget\" 'no' \"ja\""),
        ("no\u2212pull a\u2013b c\u2014d e\u2010f", "no-pull a-b c-d e-f"),
        ("a\u00a0b\u202fc\u2009d\u3000e\u2028f", "a b c d e f"),
        ("soft\u00adhyphen word\u2060joiner \ufeffmark", "softhyphen wordjoiner mark"),
        ("\ufb01ne o\ufb03ce", "fine office"),
        ("e\u0301te\u0301 A\u030a", "\u00e9t\u00e9 \u00c5"),
        ("\u65e5\u672c\u3002\u691c\u7d22\uff01", "\u65e5\u672c \u691c\u7d22!"),
        ("wait\u2026 \u2603 \U0001f600 \uf0b7 \U0001d4b3", "wait...       \U0001d4b3"),
        ("a\r\nb\rc\td\x00e\x7ff\x85g", "a\nb c\td e f g"),
        ("na\u00efve \u5b57 don't", "na\u00efve \u5b57 don't"),
    ):
        score.check(tidied(written) == due, f"{written!r}: {tidied(written)!r}")


def lines(extractor: Extractor, score: Score) -> None:
    """The lines of pages, packed texts and wide characters are those of the file."""
    source = Source(3, 50)
    page = ["<!-- a comment", "of two lines -->", "<script>", "if (a < b) {", "}", "</script>"]
    for line in source.lines:
        page += [f"<p class='x'\n  title='about'>{line}", "</p>", "<br", ">&amp;&#10;"]
    written = "\n".join(page)
    told = text(extractor, "a.html", written.encode())
    score.check(_lines_of(told, source) == _lines_of(written, source), "html")
    score.check("if (a" not in told and "comment" not in told, "scripts and comments are no text")
    score.check(told.count("\n") <= written.count("\n"), "no line feed is added")
    told = text(extractor, "b.html", written.replace("\n", "\r\n").encode())
    score.check(_lines_of(told, source) == _lines_of(written, source), "html with CR LF")
    for name, data in packings(source.whole).items():
        score.check(text(extractor, name, data) == source.whole, f"{name}: the same lines")
    told = text(extractor, "a.bin", b"\xff\xfe" + bytes(range(256)) * 4)
    score.check(told == "[BROKEN]", f"no text, though it begins like one: {told!r}")
    for coding in ("utf-16-le", "utf-16-be"):
        plain = "plain words\nand others\n" * 20
        told = text(extractor, "a.txt", plain.encode(coding))
        score.check(told == plain, f"{coding} without a mark: {told[:40]!r}")


def _lines_of(told: str, source: Source) -> dict[str, int]:
    """The line of each word of a source."""
    wanted = set(source.whole.split())
    return {
        word: number
        for number, line in enumerate(told.split("\n"))
        for word in line.replace("<", " ").replace(">", " ").split()
        if word in wanted
    }


def left_out(extractor: Extractor, score: Score) -> None:
    """What is shown, and what isn't."""
    deleted = (
        "<w:p><w:r><w:t>kept</w:t></w:r><w:del><w:r><w:delText>gone</w:delText></w:r></w:del>"
        "<w:moveFrom><w:r><w:t>moved</w:t></w:r></w:moveFrom><w:r><w:instrText>field</w:instrText>"
        "</w:r></w:p>"
    )
    score.check(text(extractor, "a.docx", samples.docx(deleted)) == "kept\n", "docx: deletions")
    deleted = (
        "<text:tracked-changes><text:p>gone</text:p></text:tracked-changes>"
        "<text:p>ke<text:span>pt</text:span><text:s/>on<text:tab/>it</text:p>"
    )
    told = text(extractor, "a.odt", samples.opendocument(deleted))
    score.check(told == "kept on\tit\n", f"odt: deletions: {told!r}")
    page = (
        "<title>head</title><style>css</style><meta name=keywords content='key'>"
        "<p>H<sub>2</sub>O <b>bo</b>ld<td>one<td>two<img alt='pic' src=hidden><p>&eacute;"
    )
    told = " ".join(text(extractor, "a.html", page.encode()).split())
    score.check(told == "head key H2O bold one two pic \u00e9", f"a page: {told}")
    for coding in ("iso-8859-1", "utf-8", "windows-1251", "shift_jis"):
        word = {"windows-1251": "русский", "shift_jis": "日本語"}.get(coding, "Größe")
        page = f"<meta charset='{coding}'><p>{word}"
        told = text(extractor, "a.html", page.encode(coding)).strip()
        score.check(told == word, f"a page in {coding}: {told!r}")
    about = '<m xmlns:dc="urn:dc"><dc:title>Titel</dc:title><dc:creator>Autor</dc:creator></m>'
    whole = samples.zipped({
        "_rels/.rels": samples.relations(officeDocument="word/document.xml"),
        "docProps/core.xml": about,
        "word/document.xml": "<d><p><r><t>body</t></r></p></d>",
        "word/footnotes.xml": "<d><p><r><t>note</t></r></p></d>",
    })  # fmt: skip
    told = text(extractor, "a.docx", whole)
    score.check(told == "Titel\nAutor\nbody\nnote\n", f"title and notes: {told!r}")


MAIL = """From: =?utf-8?q?J=C3=BCrgen?= <j@example.org>
Subject: Re: =?iso-8859-1?Q?Gr=F6=DFe?=
Content-Type: multipart/mixed; boundary=m

--m
Content-Type: multipart/alternative; boundary=a

--a
Content-Type: text/plain; charset=utf-8

See it in a reader of pages.
--a
Content-Type: text/html; charset=utf-8

<p>The letter itself, which is longer than that.</p>
--a--
--m
Content-Type: application/octet-stream; name="table.xlsx"
Content-Transfer-Encoding: base64

%s
--m
Content-Type: application/octet-stream; name="broken.docx"
Content-Transfer-Encoding: base64

%s
--m
Content-Type: message/rfc822

Subject: the mail below

its words
--m
Content-Type: image/png
Content-Transfer-Encoding: base64

%s
--m--
"""

SAID_BY_MAIL = ("Re: Größe", "Jürgen", "letter itself", "cell", "the mail below", "its words")


def within(extractor: Extractor, score: Score) -> None:
    """Documents within others: attachments, mails within mails, and packed ones."""
    sheet = samples.xlsx("<si><t>cell</t></si>", '<row><c t="s"><v>0</v></c></row>')
    coded = [base64.encodebytes(one).decode() for one in (sheet, b"PK\x03\x04 no", b"png")]
    whole = (MAIL % tuple(coded)).encode()
    for name, data in (("a.eml", whole), ("new.1:2,S", b"Return-Path: <a@b>\n" + whole)):
        letter = made(extractor, name, data)
        assert isinstance(letter, Made), letter
        shown = letter.text.decode()
        lacking = [one for one in SAID_BY_MAIL if one not in shown]
        score.check(lacking == [] and "reader of pages" not in shown, f"{name}: lacks {lacking}")
        score.check(letter.left_out == 1, f"{name}: {letter.left_out} are left out")
    packed = gzip.compress(samples.docx("<w:p><w:t>deep</w:t></w:p>"))
    score.check(text(extractor, "a.docx.gz", packed) == "deep\n", "a packed docx, by its name")
    told = text(extractor, "a.gz", packed)
    score.check(told == "", f"one whose name doesn't say what it is: {told!r}")
    told = text(extractor, "a.gz", gzip.compress(b"\0\1\2"))
    score.check(told == "", f"no text within: {told!r}")
    told = text(extractor, "a.gz", gzip.compress("Gr\u00f6\u00dfe".encode("latin-1")))
    score.check(told == "Gr\u00f6\u00dfe", f"a packed text in Latin-1: {told!r}")
    broken = made(extractor, "a.docx.gz", gzip.compress(b"PK\x03\x04 no"))
    score.check(isinstance(broken, Failed), f"what is packed is broken: {broken}")
    told = text(extractor, "a.txt", b"From here on there is a story\nand its end\n")
    score.check(told.startswith("From here on"), f"a text that begins like a box: {told!r}")


def kinds(score: Score) -> None:
    """What is known by what, and how the table is changed."""
    table = table_of(BUILT_IN)
    office_front = b"PK\x03\x04" + bytes(26) + b"[Content_Types].xml"
    for name, front, due in (
        (b"a.docx", office_front, "docx"), (b"A.DOCX", office_front, "docx"),
        (b"a.docx", b"no zip", None), (b"a.zip", office_front, None), (b"a.docx", b"", None),
        (b"a", samples.OF_FILTER["odf"], "odf"), (b"a", samples.OF_FILTER["epub"], "epub"),
        (b"a.txt", b"\n" * 1019 + b"%PDF-", "pdf"), (b"a.txt", b"\n" * 1020 + b"%PDF-", None),
        (b"a.htm", b"x", "html"), (b"html", b"x", "html"), (b"a.html5", b"x", None),
        (b"a", b"\x1f\x8b\x08", "gz"), (b"a", b"BZh9", None), (b"a.bz2", b"BZh9", "bz2"),
        (b"a", b"\xff\xfea\0", "wide"), (b"a", b"a\0" * 16, "wide"), (b"a", b"a\0" * 15, None),
        (b"a", b"a\0b\1" * 16, None), (b"a", b"plain text", None),
        (b"a.txt", b"Received: 3 apples", None), (b"a", b"Received: from a", "mail"),
    ):  # fmt: skip
        kind = table.kind_of(name, front)
        score.check((kind.name if kind else None) == due, f"{name!r} {front[:20]!r}: {kind}")
    changes = "html off\n# a remark\nsmall suffix Small \\\n or magic \\x41 code html"
    own = table_of(BUILT_IN, changes)
    score.check(own.kind_of(b"a.html", b"x") is None, "a kind that is off")
    score.check(own.kind_of(b"a.SMALL", b"x") is not None, "a kind of one's own")
    score.check(own.kind_of(b"a", b"A") is not None, "and by the other condition")
    for bad in (
        "x", "x foo", "x code html", "x suffix code html", "x magic a or code html",
        "x suffix x code none", "x suffix x program cat", "plain off", "x at a b code html",
        "X off", "x suffix x code html \\",
    ):  # fmt: skip
        try:
            table_of(BUILT_IN, bad)
            score.check(False, f"a bad table is taken: {bad}")
        except BadTable:
            score.check(True, "")


def programs(folder: Path, score: Score) -> None:
    """A program of root's own table makes a kind, behind the walls of programs."""
    table = folder / "documents"
    own = "small suffix small program /usr/bin/cat\ngone suffix gone program /usr/bin/gone -\n"
    table.write_text(own)
    below = folder / "below"
    below.mkdir()
    extracting = Extracting(below, "--documents", str(table))
    extracting.table = table_of(BUILT_IN, own)
    extractor = extracting.extractor()
    told = text(extractor, "a.small", "\u201capple\u201d".encode())
    score.check(told == '"apple"', f"by a program: {told!r}")
    gone = made(extractor, "a.gone", b"apple")
    right = isinstance(gone, Failed) and gone.reason is Reason.NOT_MADE
    score.check(right, f"a program that isn't there: {gone}")
    whole = (MAIL % ("YXBwbGU=", "", "")).replace("xlsx", "gone").encode()
    letter = made(extractor, "a.eml", whole)
    right = isinstance(letter, Made) and letter.left_out == 1 and b"letter itself" in letter.text
    score.check(right, f"a mail with such a document: {letter}")
    score.check("gone" not in extractor.fingerprints, "it isn't offered")
    score.check("gone" in extracting.told.read_text(), "the server tells of it")
    extracting.close()


class Slow:
    """Workers that rest for a while, and then write what is given: a box, and texts within it."""

    def __init__(self, within: int, seconds: float) -> None:
        frames = b"".join(
            HEAD.pack(HINT, 3) + b"htm" + HEAD.pack(WITHIN, 1) + b"W" for _ in range(within)
        )
        self.written = {"mail": frames, "html": HEAD.pack(TEXT, 2) + b"W\n"}
        self.seconds = seconds

    def is_program(self, kind: str) -> bool | None:
        """It makes boxes and pages."""
        return False if kind in self.written else None

    def begin(self, kind: str, _: Document, allowed: Allowance) -> "SlowRun":
        """Begins one."""
        return SlowRun(self.written[kind], self.seconds, allowed.patience)


class SlowRun:
    """One of them. It takes nothing of the processor."""

    def __init__(self, written: bytes, seconds: float, patience: float) -> None:
        self.output, writing = os.pipe()
        self.patience = patience

        def write() -> None:
            time.sleep(seconds)
            with suppress(BrokenPipeError):
                os.write(writing, written)
            os.close(writing)

        threading.Thread(target=write).start()

    def end(self) -> Ended:
        """It ends well."""
        os.close(self.output)
        return Ended(Way.EXIT)


def by_the_clock(score: Score) -> None:
    """A file with all that is within it is late by the clock, also where each worker is in time."""
    for within, due in ((2, Made), (40, Failed)):
        with Document.of(b"W") as document:
            began = time.monotonic()
            told = text_of(Slow(within, 0.3), table_of(BUILT_IN), b"a.eml", document, 1)
            spent = time.monotonic() - began
        why = told.reason if isinstance(told, Failed) else None
        right = isinstance(told, due) and why in (None, Reason.LATE) and spent < 6
        score.check(right, f"{within} within: {told} in {spent:.1f} s")


def asking(folder: Path, score: Score) -> None:
    """A user's own texts: lines, pages and paragraphs, at most ten documents a question."""
    documents = {
        "a.html": (b"<p>one\n<p>apple", "2"),
        "a.docx": (samples.docx("<w:p><w:t>one</w:t></w:p><w:p><w:t>apple</w:t></w:p>"), "par. 2"),
        "a.gz": (gzip.compress(b"one\ntwo\napple\n"), "3"),
        "a.pptx": (samples.pptx("<a:p><a:t>apple</a:t></a:p>"), "p. 1"),
        "a.pdf": (samples.pdf("apple"), "p. 1"),
    }
    for name, (data, _) in documents.items():
        (folder / name).write_bytes(data)
    for user in (EXTRACT, 0):
        told, tells = os.pipe()
        process = os.fork()
        if process == 0:
            os.setresuid(user, user, user)
            asks = asker.Asker(table_of(BUILT_IN))
            for name in documents:
                os.write(tells, (_place(asks, folder / name) + "\n").encode())
            left = [_place(asks, folder / "a.html") for _ in range(10)].count("-")
            os.write(tells, f"{left}\n".encode())
            os._exit(0)
        os.close(tells)
        with os.fdopen(told) as places:
            found = places.read().split("\n")
        os.waitpid(process, 0)
        due = [place for _, place in documents.values()] + [str(len(documents)), ""]
        score.check(found == due, f"user {user}: {found}")


def asking_together(folder: Path, score: Score) -> None:
    """After as much time as all may take together none is made, until the next question."""
    with mock.patch.object(asker, "TOGETHER", 0.0):
        asks = asker.Asker(table_of(BUILT_IN))
        found = [_place(asks, folder / "a.html") for _ in range(2)]
        asks.begin()
        found.append(_place(asks, folder / "a.html"))
    score.check(found[0] == found[2] != "-" and found[1] == "-", f"together: {found}")


def asking_without(folder: Path, score: Score) -> None:
    """Where the kernel has no Landlock a user is shown no line; nor after one that takes long."""
    told, tells = os.pipe()
    process = os.fork()
    if process == 0:
        os.setresuid(EXTRACT, EXTRACT, EXTRACT)
        asks = asker.Asker(table_of(BUILT_IN))
        slow = _place(asks, folder / "slow.html") + _place(asks, folder / "a.html")
        system.forbid_new_privileges()
        rules = [Rule("landlock_create_ruleset", Action.NOT_KNOWN)]
        system.filter_calls(program_of(rules, Action.ALLOW))
        behind = _place(asker.Asker(table_of(BUILT_IN)), folder / "a.html")
        os.write(tells, (slow + behind).encode())
        os._exit(0)
    os.close(tells)
    with os.fdopen(told) as places:
        found = places.read()
    os.waitpid(process, 0)
    score.check(found == "---", f"without Landlock, and after a slow one: {found}")


def _place(asks: asker.Asker, path: Path) -> str:
    """Where a file has the word, as it is shown."""
    descriptor = os.open(path, os.O_RDONLY)
    told = asks.lines_of(os.fsencode(path.name), descriptor)
    os.close(descriptor)
    if told is None:
        return "-"
    found = [number for number, line in enumerate(told.lines, 1) if b"apple" in line]
    return " ".join(told.place(number) for number in found)


def main() -> int:
    """Runs the test."""
    options(__doc__ or "").parse_args()
    score = Score("extract")
    signs(score)
    kinds(score)
    by_the_clock(score)
    needs_root("extract")
    with folder_of_own() as name:
        folder = Path(name)
        extracting = Extracting(folder)
        extractor = extracting.extractor()
        for part in (words, portable, lines, left_out, within):
            part(extractor, score)
        programs(folder, score)
        asking(folder, score)
        (folder / "slow.html").write_bytes(b"<" * 3_000_000)
        asking_together(folder, score)
        asking_without(folder, score)
        extracting.close()
    return score.end()


if __name__ == "__main__":
    sys.exit(main())
