"""The members of a zip, as office files and books are."""

import posixpath
import zipfile
from collections.abc import Iterator
from io import BytesIO

from .reasons import Reason, Refusal

ENTRIES_MAX = 20_000
UNPACKED_MAX = 256 << 20  # bytes of all members that are read, whatever the directory says
# Long pieces: expat begins an attribute anew with each.
_PIECE = 1 << 22
_METHODS = (zipfile.ZIP_STORED, zipfile.ZIP_DEFLATED)
_ENCRYPTED = 1


class Archive:
    """Members are read by their names and never written, so that a name is data and no path."""

    def __init__(self, data: bytes) -> None:
        self.file = zipfile.ZipFile(BytesIO(data))
        entries = self.file.infolist()
        if len(entries) > ENTRIES_MAX:
            raise Refusal(Reason.WITHIN)
        self.members = {entry.filename: entry for entry in entries}
        self.unpacked = 0

    def pieces(self, name: str) -> Iterator[bytes]:
        """A member in pieces; none where it isn't there."""
        entry = self.members.get(name)
        if entry is None:
            return
        if entry.flag_bits & _ENCRYPTED:
            raise Refusal(Reason.ENCRYPTED)
        if entry.compress_type not in _METHODS:
            raise Refusal(Reason.BROKEN)
        with self.file.open(entry) as member:
            while piece := member.read(_PIECE):
                self.unpacked += len(piece)
                if self.unpacked > UNPACKED_MAX:
                    raise Refusal(Reason.WITHIN)
                yield piece

    def whole(self, name: str) -> bytes:
        """A member; empty where it isn't there."""
        return b"".join(self.pieces(name))

    def named(self, *beginnings: str) -> list[str]:
        """The names of members with one of these beginnings and the suffix `.xml`, by number."""
        found = [
            name for name in self.members if name.startswith(beginnings) and name.endswith(".xml")
        ]
        return sorted(found, key=lambda name: (len(name), name))


def beside(part: str, target: str) -> str:
    """The name of a member that another one calls by a path."""
    if target.startswith("/"):
        return posixpath.normpath(target[1:])
    return posixpath.normpath(posixpath.join(posixpath.dirname(part), target))
