"""The lines of a file that was found, as the user who asks may read it."""

import os
import stat
from enum import Enum
from typing import TYPE_CHECKING

from ..extract.documents import DOCUMENT_MAX
from ..extract.kinds import BadTable, Table, table_here
from ..shared.lines import Lines
from ..shared.script import TEXT_MAX
from ..shared.texts import FRONT

if TYPE_CHECKING:
    from ..extract.asker import Asker

_FLAGS = os.O_RDONLY | os.O_NOFOLLOW | os.O_NONBLOCK | os.O_NOCTTY | os.O_CLOEXEC
_WAY = os.O_PATH | os.O_DIRECTORY | os.O_NOFOLLOW | os.O_CLOEXEC


class Lack(Enum):
    """Why there are no lines; the value is what is told of it."""

    CHANGED = "changed since it was indexed"
    UNMADE = "no lines of it are made here"


class Reader:
    """Reads files, and has the lines of documents made behind walls: of ten for a question."""

    def __init__(self) -> None:
        self.asker: "Asker | None" = None
        try:
            self.table = table_here()
        except (BadTable, OSError):
            self.table = Table(())

    def begin(self) -> None:
        """Another question."""
        if self.asker is not None:
            self.asker.begin()

    def lines_of(self, path: bytes) -> Lines | Lack:
        """The lines, or why there are none.

        The file may have changed since then, or be something else that was put in its place.
        """
        try:
            descriptor = _opened(path)
        except OSError:
            return Lack.CHANGED
        with open(descriptor, "rb") as file:
            status = os.fstat(descriptor)
            if not stat.S_ISREG(status.st_mode) or status.st_size > DOCUMENT_MAX:
                return Lack.CHANGED
            name = path.rpartition(b"/")[2]
            try:
                if self.table.kind_of(name, os.pread(descriptor, FRONT, 0)) is not None:
                    return self._lines_of_document(name, descriptor)
                text = file.read(TEXT_MAX) if status.st_size <= TEXT_MAX else b""
            except OSError:
                return Lack.CHANGED
        lines = text.split(b"\n")
        return Lines(lines if lines[-1] else lines[:-1])

    def _lines_of_document(self, name: bytes, descriptor: int) -> Lines | Lack:
        """The lines of a document's text. What makes it is loaded with the first one."""
        if self.asker is None:
            from ..extract.asker import Asker

            self.asker = Asker(self.table)
        return self.asker.lines_of(name, descriptor) or Lack.UNMADE


def _opened(path: bytes) -> int:
    """A descriptor of the file at an absolute path. Raises `OSError`.

    No link is followed on the way: who owns a directory there may have put one that leads to files
    of the user's own. A pipe isn't opened, whose other end would be told so.
    """
    _, *above, name = path.split(b"/")
    directory = os.open(b"/", _WAY)
    try:
        for one in above:
            before, directory = directory, os.open(one, _WAY, dir_fd=directory)
            os.close(before)
        if not stat.S_ISREG(os.stat(name, dir_fd=directory, follow_symlinks=False).st_mode):
            raise FileNotFoundError
        return os.open(name, _FLAGS, dir_fd=directory)
    finally:
        os.close(directory)
