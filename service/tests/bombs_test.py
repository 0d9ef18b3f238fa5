"""Hostile documents: none takes more than its bounds, and the server goes on after each.

None adds more to the store than 16 times its own size and 64 KiB, nor more than 16 MiB.
"""

import bz2
import gzip
import lzma
import sys
import time
from collections.abc import Callable, Iterator
from pathlib import Path
from unittest import mock

import bombs
from extracting import Extracting, made, text
from harness import Pace, Score, folder_of_own, needs_root, options

from wumpus.extract import samples, texts  # isort: skip
from wumpus.extract.reasons import Reason  # isort: skip
from wumpus.extract.texts import Failed, text_limit  # isort: skip

SECONDS = 2  # of the processor for a document, in this test
SMALL = 200
# What has to come of some: so no bound is reached by another one.
DUE = {
    "blanks.gz": "TEXT",
    "zeros.gz": "WITHIN",
    "window.xz": "MEMORY",
    "window.zst": "BROKEN",
    "deep.gz": "WITHIN",
    "deep4.gz": "W",
    "zeros.docx": "WITHIN",
    "laughs.docx": "BROKEN",
    "outside.docx": "BROKEN",
    "entries.docx": "WITHIN",
    "paths.docx": "",
    "elements.docx": "TEXT",
    "angles.html": "TIME",
    "declared.html": "W\u00ff",
    "parts.eml": "WITHIN",
    "charset.eml": "W\u00ff",
    "launch.pdf": "W",
    "nothing.pdf": "PROGRAM",
    "nothing.docx": "BROKEN",
    "nothing.gz": "BROKEN",
}


def small_bombs(count: int) -> Iterator[tuple[str, bytes]]:
    """Many of each packing, around the bound: those below it are found, those above aren't."""
    for number in range(count):
        size = 1000 << number // 8 % 14
        line = b"W " * size
        body = "W " * size
        makers: list[tuple[str, Callable[[], bytes]]] = [
            ("a.gz", lambda: gzip.compress(line, mtime=0)),
            ("a.xz", lambda: lzma.compress(line, preset=0)),
            ("a.bz2", lambda: bz2.compress(line)),
            ("a.docx", lambda: samples.docx(f"<w:p><w:t>{body}</w:t></w:p>")),
            ("a.odt", lambda: samples.opendocument(f"<text:p>{body}</text:p>")),
            ("a.xlsx", lambda: samples.xlsx(f"<si><t>{body}</t></si>", _cells(size))),
            ("a.epub", lambda: samples.epub(f"<p>{body}")),
            ("a.eml", lambda: bombs.mail_of(3, gzip.compress(line, mtime=0))),
        ]
        name, make = makers[number % len(makers)]
        yield name, make()


def _cells(count: int) -> str:
    return '<row><c t="s"><v>0</v></c></row>' * (count // 1000)


def within_bounds(extracting: Extracting, score: Score) -> None:
    """Each text is within the bound of its document, and some are there."""
    extractor = extracting.extractor()
    failed = over = 0
    for name, data in small_bombs(SMALL):
        told = made(extractor, name, data)
        if isinstance(told, Failed):
            failed += 1
        else:
            over += len(told.text) > text_limit(len(data))
    score.check(over == 0, f"{over} texts are over their bounds")
    score.check(20 < failed < SMALL - 20, f"{failed} of {SMALL} fail: the bound isn't tried")


def large_bombs(extracting: Extracting, score: Score) -> None:
    """Each ends in time, as it has to; and a good document comes after it."""
    extractor = extracting.extractor()
    pace = Pace("bombs", 50, "documents")
    with mock.patch.object(texts, "SECONDS", SECONDS):
        for place, (name, data) in enumerate(bombs.bombs()):
            began = time.monotonic()
            told = made(extractor, name, data)
            spent = time.monotonic() - began
            score.check(spent < 3 * SECONDS + 10, f"{name}: {spent:.0f} s of the clock")
            score.check(told.seconds < SECONDS + 1.5, f"{name}: {told.seconds} s of the processor")
            if isinstance(told, Failed):
                # On a machine with other work any may be late.
                due = [*DUE.get(name, told.reason.name).split(), Reason.LATE.name]
                right = told.reason.name in due
            else:
                right = len(told.text) <= text_limit(len(data))
                right &= name not in DUE or told.text.decode().strip() == DUE[name]
            score.check(right, f"{name}: {str(told)[:200]}")
            fine = text(extractor, "a.html", b"<p>apple").strip() == "apple"
            score.check(fine, f"after {name} a page isn't read")
            pace.tell(place)


def main() -> int:
    """Runs the test."""
    options(__doc__ or "").parse_args()
    needs_root("bombs")
    score = Score("bombs")
    with folder_of_own() as name:
        extracting = Extracting(Path(name))
        within_bounds(extracting, score)
        large_bombs(extracting, score)
        extracting.close()
    return score.end()


if __name__ == "__main__":
    sys.exit(main())
