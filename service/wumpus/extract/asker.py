"""Texts of documents for a user who asks: with her own rights, and behind the same walls.

A search mustn't run a hostile document of somebody else with the rights of its user.
"""

import os
import time

from ..shared.lines import Lines
from .documents import DOCUMENT_MAX, Document
from .kinds import LINES_OF_FILE, PAGED, Table
from .own import OwnWorkers
from .reasons import Reason
from .tasks import load, tasks_of
from .texts import Failed, Made, text_of
from .walls import Missing

MADE_MAX = 10  # documents for one question
SECONDS = 2  # of the processor for one of them: who asks waits
TOGETHER = 4.0  # seconds of the clock for all of them: after it none is begun
_PIECE = 1 << 20


def lines_of(made: Made) -> Lines:
    """The lines of a text."""
    lines = made.text.split(b"\n")
    if not lines[-1].strip(b"\f"):
        lines.pop()
    pages = []
    if made.kind in PAGED and b"\f" in made.text:
        page = 1
        for line in lines:
            page += line.count(b"\f")
            pages.append(page)
    return Lines([line.strip(b"\f") for line in lines], pages, made.kind in LINES_OF_FILE)


class Asker:
    """Makes the texts of at most ten documents, and of none after those that took too long."""

    def __init__(self, table: Table) -> None:
        self.begin()
        self.workers: OwnWorkers | None = None
        self.is_ready = False
        self.table = table

    def begin(self) -> None:
        """Another question: as many documents once more, and as much time."""
        self.left = MADE_MAX
        self.spent = 0.0  # seconds

    def lines_of(self, name: bytes, descriptor: int) -> Lines | None:
        """The lines of a document's file that is open for reading, from its beginning.

        None where there are none, or where the walls can't be put up here: then nothing of the file
        itself is to be shown either.
        """
        if not self._is_ready() or self.left == 0 or self.workers is None:
            return None
        self.left -= 1
        began = time.monotonic()
        with Document() as document:
            try:
                if not _fill(document, descriptor):
                    return None
                made = text_of(self.workers, self.table, name, document, SECONDS)
            except OSError:
                return None
            finally:
                self.spent += time.monotonic() - began
        if self.spent >= TOGETHER:
            self.left = 0
        if isinstance(made, Failed):
            if made.reason in (Reason.TIME, Reason.LATE):
                self.left = 0
            return None
        return lines_of(made)

    def _is_ready(self) -> bool:
        """Loads the filters, the first time, which takes some hundredths of a second."""
        if not self.is_ready:
            self.is_ready = True
            try:
                load()
                self.workers = OwnWorkers(tasks_of(self.table))
            except (Missing, OSError):
                self.workers = None
        return self.workers is not None


def _fill(document: Document, descriptor: int) -> bool:
    """Copies a file into a document: whether it isn't too large."""
    place = 0
    while piece := os.pread(descriptor, _PIECE, place):
        document.add(piece)
        place += len(piece)
        if place > DOCUMENT_MAX:
            return False
    document.seal()
    return True
