"""A batch as a file: lines and texts, each of which is to be answered `ok`."""

import os
import shutil
import tempfile
from pathlib import Path
from typing import IO

from ..shared.script import TEXT_MAX, spell
from .nodes import CLOSED, MARK, ROOT

CLOSED_NAME = b".wumpus-mirror"
SAVE = b"save\n"


class Texts:
    """The texts of a batch, gathered in a file without a name while files are looked at."""

    def __init__(self, folder: Path) -> None:
        self.file: IO[bytes] = tempfile.TemporaryFile(dir=folder)
        self.count = 0
        self.size = 0
        self.text_bytes = 0  # of the texts alone

    def add(self, number: int, text: bytes) -> None:
        """A file's new text. Its length is counted here, so a body is never read as lines."""
        if len(text) > TEXT_MAX:
            raise ValueError("a text over 16 MiB")
        head = spell(b"text", number, len(text))
        self.file.write(head)
        self.file.write(text)
        self.file.write(b"\n")
        self.count += 1
        self.size += len(head) + len(text) + 1
        self.text_bytes += len(text)

    def close(self) -> None:
        """Gives the file back to the system."""
        self.file.close()


def name_of(word: str, serial: str) -> bytes:
    """The name of the mark: `serial` and the batch after which the program stands, or `busy`."""
    return f"{word}-{serial}".encode("ascii")


def begin(before: str, serial: str) -> list[bytes]:
    """The lines that begin a batch: from them on the mark tells that it is under way."""
    busy = name_of("busy", serial)
    if before:
        return [spell(b"rename", CLOSED, name_of("serial", before), CLOSED, busy)]
    return [
        spell(b"mkdir", CLOSED, ROOT, CLOSED_NAME, 0, 0, b"000"),
        spell(b"mkdir", MARK, CLOSED, busy, 0, 0, b"000"),
    ]


def end(serial: str) -> list[bytes]:
    """The lines that end a batch and save it."""
    busy, done = name_of("busy", serial), name_of("serial", serial)
    return [spell(b"rename", CLOSED, busy, CLOSED, done), SAVE]


def question(serial: str) -> bytes:
    """A line that is answered `ok` exactly where the program stands after this batch."""
    name = name_of("serial", serial)
    return spell(b"rename", CLOSED, name, CLOSED, name)


class Batch:
    """A batch, or a piece of one, in a file without a name, and how many replies are due."""

    def __init__(
        self, folder: Path, head: list[bytes], texts: Texts | None, tail: list[bytes]
    ) -> None:
        self.due = len(head) + len(tail)
        self.file: IO[bytes] = tempfile.TemporaryFile(dir=folder)
        self.file.writelines(head)
        if texts is not None:
            self.due += texts.count
            texts.file.seek(0)
            shutil.copyfileobj(texts.file, self.file, 1 << 20)
        self.file.writelines(tail)
        self.file.flush()
        self.size = self.file.tell()
        os.lseek(self.file.fileno(), 0, os.SEEK_SET)

    def close(self) -> None:
        """Gives the file back to the system."""
        self.file.close()
