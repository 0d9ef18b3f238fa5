"""Looking at files: rights and text of each file that changed, read through descriptors.

Files are read in windows, as directories are in a walk, several in one. A file's status before and
after must agree, and be that of the file which the walk saw.
"""

import hashlib
import os
import stat
import time
from collections import deque
from collections.abc import Callable, Iterable, Iterator
from dataclasses import dataclass

from ..extract.documents import DOCUMENT_MAX
from ..extract.kinds import Table
from ..shared.script import TEXT_MAX
from ..shared.texts import FRONT, is_text
from .access import Access, BadList
from .budget import Account, Accounts
from .nodes import Node, Origin, Rights, identity_of
from .pending import Place
from .reasons import Reason
from .remarks import path_of
from .walk import ATTEMPTS
from .way import Restless, Torn, Ways

FILE_FLAGS = os.O_RDONLY | os.O_NOFOLLOW | os.O_NONBLOCK | os.O_NOCTTY | os.O_CLOEXEC
SETTLED = 40_000_000_000  # nanoseconds in which a mapped file may change under one ctime
PIECE = 1 << 20
OPEN_AT_MOST = 512  # directories in a window, but for the last way


@dataclass(slots=True)
class Looked:
    """A file that was looked at: its node, and its text where there is one.

    Of a document no text is made here: it has an origin, and the empty text.
    """

    place: Place
    node: Node
    text: bytes


@dataclass(slots=True)
class Failed:
    """A file that couldn't be looked at."""

    place: Place
    why: Reason


class Changed(Exception):
    """The file changed while it was read: it may be read again."""


Outcome = Looked | Failed | None  # None: it didn't stand still in this window


def digest_of(text: bytes) -> bytes:
    """What tells a text from another one; empty for the empty text."""
    return digest_of_pieces([text]) if text else b""


def digest_of_pieces(pieces: Iterable[bytes]) -> bytes:
    """What tells the bytes that some pieces are together from others."""
    digest = hashlib.blake2b(digest_size=20)
    for piece in pieces:
        digest.update(piece)
    return digest.digest()


class Looker:
    """Looks at files, between two walks. `warn` is told of what has no text, and why.

    The table tells which files are documents.
    """

    def __init__(
        self,
        accounts: Accounts,
        access: Access,
        table: Table,
        warn: Callable[[str, bytes], None],
    ) -> None:
        self.accounts = accounts
        self.access = access
        self.table = table
        self.ways = Ways(accounts, access)
        self.warn = warn

    def close(self) -> None:
        """Closes all that is open."""
        self.ways.close()

    def look(self, places: list[Place]) -> list[Looked | Failed]:
        """Looks at files of one person, and again at each that didn't stand still."""
        began = time.monotonic()
        found: list[Looked | Failed] = []
        waiting = deque(places)
        while waiting:
            found += [self._until_still(place, seen) for place, seen in self._window(waiting)]
        if found:
            owner = found[0].place.file.owner
            self.accounts.of_owner(owner).seconds -= time.monotonic() - began
        return found

    def _until_still(self, place: Place, outcome: Outcome) -> Looked | Failed:
        """The same outcome, or what comes of looking again, as long as there is patience."""
        for _ in range(ATTEMPTS - 1):
            account = self._account(place)
            if outcome is not None or not self.accounts.is_patient(account):
                break
            began = time.monotonic()
            ((_, outcome),) = self._window(deque([place]))
            self.accounts.wait(account, time.monotonic() - began)
        return Failed(place, Reason.TORN) if outcome is None else outcome

    def _account(self, place: Place) -> Account:
        """The account to which the time of a file that doesn't stand still counts."""
        if place.file.owner:
            return self.accounts.of_owner(place.file.owner)
        return self.ways.account_of(place.directory)

    def _window(self, waiting: deque[Place]) -> list[tuple[Place, Outcome]]:
        """What is seen, in one window, of the first files that wait."""
        seen: list[tuple[Place, Outcome]] = []
        while waiting and len(self.ways.steps) < OPEN_AT_MOST:
            place = waiting.popleft()
            seen.append((place, self._outcome(place)))
        self.ways.look()
        held = [(place, self._held(place, outcome)) for place, outcome in seen]
        self.ways.keep(seen[-1][0].directory)
        return held

    def _held(self, place: Place, outcome: Outcome) -> Outcome:
        """The outcome, where the window held on the way to the file."""
        step = self.ways.steps.get(place.directory)
        stood_still = step is not None and step.cause is None
        return outcome if stood_still or isinstance(outcome, Failed) else None

    def _outcome(self, place: Place) -> Outcome:
        """What is seen of a file, if the window holds."""
        try:
            directory = self.ways.reach(place.directory).descriptor
            return self._read(place, directory)
        except (Torn, Restless, FileNotFoundError, BlockingIOError):
            return Failed(place, Reason.TORN)
        except Changed:
            return None
        except BadList:
            return Failed(place, Reason.LIST)
        except OSError:
            return Failed(place, Reason.UNREADABLE)

    def _read(self, place: Place, directory: int) -> Looked:
        """Reads the file once. Raises `Changed`, `Restless`, `BadList`, and `OSError`."""
        descriptor = os.open(place.name, FILE_FLAGS, dir_fd=directory)
        try:
            status = self.ways.settled(descriptor)
            _check(place, status)
            rights = self.access.of_file(descriptor, status)
            known = self._as_known(descriptor, status, place)
            if known is not None:
                return Looked(place, known, b"")
            text, origin = self._content(descriptor, status, place)
            after = os.fstat(descriptor)
        finally:
            os.close(descriptor)
        if _what_tells(status) != _what_tells(after):
            raise Changed
        return Looked(place, _node_of(place, status, rights, text, origin), text)

    def _as_known(self, descriptor: int, status: os.stat_result, place: Place) -> Node | None:
        """The known node of a file that was to be looked at for its kind, and is of the known one.

        So not all of it is read.
        """
        known = place.file.known
        if known is None or status.st_ctime_ns != known.changed:
            return None
        front = os.pread(descriptor, FRONT, 0)
        kind = self.table.kind_of(place.name, front)
        if kind is not None:
            return known if known.kind == kind.name else None
        return known if not known.kind and (not known.digest or is_text(front)) else None

    def _content(
        self, descriptor: int, status: os.stat_result, place: Place
    ) -> tuple[bytes, Origin | None]:
        """The file's bytes as its text: empty where they are too many, or aren't text.

        Of a document it is its origin. Raises `Changed` where the file has another size than its
        status says.
        """
        size = status.st_size
        if size > DOCUMENT_MAX:
            self._warn("over 64 MiB, its path is kept without its text", place)
            return b"", None
        if size and os.lseek(descriptor, 0, os.SEEK_HOLE) < size:
            # Its holes take no room of its owner's, and would take it of the store's.
            self._warn("has holes, its path is kept without its text", place)
            return b"", None
        os.lseek(descriptor, 0, os.SEEK_SET)
        first = os.read(descriptor, min(size + 1, PIECE))
        kind = self.table.kind_of(place.name, first[:FRONT])
        if kind is not None:
            return b"", Origin(kind.name, digest_of_pieces(_pieces(descriptor, first, size)))
        if size > TEXT_MAX:
            self._warn("over 16 MiB, its path is kept without its text", place)
            return b"", None
        if not is_text(first):
            return b"", None
        return b"".join(_pieces(descriptor, first, size)), None

    def _warn(self, sentence: str, place: Place) -> None:
        self.warn(sentence, path_of(place.directory, place.name))


def _check(place: Place, status: os.stat_result) -> None:
    """Raises `Torn` where this isn't the file that was walked by.

    One with several names must have stayed as it was: the other names aren't looked at again.
    """
    file = place.file
    if identity_of(status) != file.identity or not stat.S_ISREG(status.st_mode):
        raise Torn(place.directory)
    if file.names > 1 and status.st_ctime_ns != file.changed:
        raise Torn(place.directory)


def _what_tells(status: os.stat_result) -> tuple[int, ...]:
    """What has to be the same before and after a reading."""
    return (
        status.st_ctime_ns,
        status.st_mtime_ns,
        status.st_size,
        status.st_mode,
        status.st_uid,
        status.st_gid,
    )


def _pieces(descriptor: int, first: bytes, size: int) -> Iterator[bytes]:
    """The bytes of a file of which the first were read. Raises `Changed` where it isn't so long."""
    yield first
    count = len(first)
    while count <= size and (piece := os.read(descriptor, PIECE)):
        count += len(piece)
        yield piece
    if count != size:
        raise Changed


def _node_of(
    place: Place, status: os.stat_result, rights: Rights, text: bytes, origin: Origin | None
) -> Node:
    """The node of a file that was read."""
    settled = time.time_ns() - status.st_ctime_ns > SETTLED
    changed = status.st_ctime_ns if settled else -status.st_ctime_ns
    file, size = place.file, status.st_size
    return Node(
        file.number, False, rights, digest_of(text), file.identity, changed, size, origin
    )
