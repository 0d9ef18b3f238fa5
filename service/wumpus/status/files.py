"""The files `mirror.status` and `service.status`, read as what somebody else wrote.

Who reads them may be root, and who writes them isn't: so no link is followed, nothing is waited
for, sizes are bounded, and each value is of the type that is due.
"""

import argparse
import json
import os
import stat
from dataclasses import dataclass
from pathlib import Path
from typing import Any

from ..shared.store import FOLDER, MIRROR_FOLDER

MIRROR = "mirror.status"
SERVICE = "service.status"
FORMAT = 1
SIZE_MAX = 64 << 20
SECONDS_MAX = 1e11
WHOLE_MAX = 1 << 63


class BadStatus(Exception):
    """A file isn't one that mirror or service wrote, or can't be read; the text says why."""


class Fields:
    """An object of a file, whose fields are asked by name and type. Each raises `BadStatus`."""

    def __init__(self, value: object, where: str) -> None:
        if not isinstance(value, dict):
            raise BadStatus(f"{where} isn't an object")
        self.values: dict[str, Any] = value
        self.where = where

    def _of(self, name: str, kinds: tuple[type, ...]) -> Any:
        value = self.values.get(name)
        if not isinstance(value, kinds) or (isinstance(value, bool) and bool not in kinds):
            raise BadStatus(f"{self.where}: {name} is {value!r:.60}")
        return value

    def seconds(self, name: str) -> float:
        """A time, which is neither negative nor past all calendars."""
        value = float(self._of(name, (int, float)))
        if not 0 <= value < SECONDS_MAX:
            raise BadStatus(f"{self.where}: {name} is {value}")
        return value

    def seconds_or_none(self, name: str) -> float | None:
        """A time that there may not be."""
        return None if self.values.get(name) is None else self.seconds(name)

    def whole(self, name: str) -> int:
        """A whole number that isn't negative."""
        number: int = self._of(name, (int,))
        if not 0 <= number < WHOLE_MAX:
            raise BadStatus(f"{self.where}: {name} is out of its range")
        return number

    def truth(self, name: str) -> bool:
        """Whether something is so."""
        value: bool = self._of(name, (bool,))
        return value

    def text(self, name: str) -> str:
        """A text."""
        value: str = self._of(name, (str,))
        return value

    def text_or_none(self, name: str) -> str | None:
        """A text that there may not be."""
        return None if self.values.get(name) is None else self.text(name)

    def object(self, name: str) -> "Fields":
        """An object."""
        return Fields(self._of(name, (dict,)), f"{self.where}: {name}")

    def objects(self, name: str) -> list["Fields"]:
        """A list of objects."""
        return [Fields(one, f"{self.where}: {name}") for one in self._of(name, (list,))]

    def texts(self, name: str) -> list[str]:
        """A list of texts."""
        return [str(one) for one in self._of(name, (list,))]

    def counts(self, name: str) -> dict[str, int]:
        """Whole numbers by words."""
        found = self.object(name)
        return {word: found.whole(word) for word in found.values}


@dataclass(frozen=True)
class Walk:
    """The last walk whose names and rights the program has. Moments are seconds since 1970."""

    began: float
    seconds: float
    names: int
    fed: float | None


@dataclass(frozen=True)
class Owner:
    """What one user owns, and how much of it is shut by which word."""

    names: int
    bytes: int
    shut: dict[str, int]


@dataclass(frozen=True)
class Shut:
    """A path that is shown to nobody but user 0."""

    path: str
    owner: int
    why: str


@dataclass(frozen=True)
class LeftOut:
    """A path that isn't mirrored."""

    path: str
    why: str


@dataclass(frozen=True)
class Documents:
    """How many there are, of how many no text was made yet, and why none is, where that is so."""

    all: int
    unmade: int
    trouble: str | None


@dataclass(frozen=True)
class Looks:
    """Looks at what changed, and how much of it was left to the turns."""

    count: int
    left: int


@dataclass(frozen=True)
class Live:
    """What is done beside the turns: `why` tells why it isn't, and `unmarked` where it can't be.

    `looks` is None where rights are taken away, and all else waits for the turns.
    """

    why: str | None
    unmarked: list[LeftOut]
    narrowed: int
    batches: int
    lost: int
    looks: Looks | None = None


@dataclass(frozen=True)
class MirrorStatus:
    """What the mirror tells. `live` is None where there are turns alone."""

    written: float
    state: str
    trouble: str | None
    walk: Walk | None
    pending_files: int
    pending_bytes: int
    owners: dict[int, Owner]
    shut: list[Shut]
    left_out: list[LeftOut]
    held: str | None
    documents: Documents | None = None
    live: Live | None = None

    def shut_by_reason(self) -> dict[str, int]:
        """How much is shut by each word, of all owners."""
        counts: dict[str, int] = {}
        for owner in self.owners.values():
            for word, count in owner.shut.items():
                counts[word] = counts.get(word, 0) + count
        return counts


@dataclass(frozen=True)
class Slow:
    """A user whose queries wait, since one of them took long."""

    user: int
    until: float


@dataclass(frozen=True)
class ServiceStatus:
    """What the service tells. `fed_age`, in seconds, is that of the rights by which it answers.

    `heard_age` is that of what the kernel took away; None where a walk has to tell.
    """

    written: float
    started: float
    fed_age: float | None
    is_stale: bool
    is_ready: bool
    starts: int
    why: list[str]
    memory: int
    answered: int
    refused: dict[str, int]
    connections: int
    waiting: int
    slow: list[Slow]
    fed: int
    failed: int
    heard_age: float | None = None


@dataclass(frozen=True)
class Folders:
    """Where service and mirror keep what they have."""

    service: Path
    mirror: Path


def add_folders(options: argparse.ArgumentParser) -> None:
    """The options that say where they are."""
    add = options.add_argument
    add("--folder", metavar="DIR", help=f"of the service ({FOLDER})")
    add("--mirror-folder", metavar="DIR",
        help=f"of the mirror ({MIRROR_FOLDER}; where --folder is given, the same)")  # fmt: skip


def folders_of(given: argparse.Namespace) -> Folders:
    """Where they are."""
    service = given.folder or FOLDER
    usual = given.folder or MIRROR_FOLDER
    return Folders(Path(service), Path(given.mirror_folder or usual))


def _values_of(path: Path) -> dict[str, Any] | None:
    """The object in a file; None where there is no file. Raises `BadStatus`."""
    try:
        flags = os.O_RDONLY | os.O_NOFOLLOW | os.O_NONBLOCK | os.O_CLOEXEC
        with open(os.open(path, flags), "rb") as file:
            status = os.fstat(file.fileno())
            if not stat.S_ISREG(status.st_mode) or status.st_size > SIZE_MAX:
                raise BadStatus(f"{path}: it is no file, or larger than one can be")
            values: object = json.loads(file.read(SIZE_MAX))
    except FileNotFoundError:
        return None
    except PermissionError as error:
        raise BadStatus(f"{path}: it needs root") from error
    except OSError as error:
        raise BadStatus(f"{path}: {error.strerror}") from error
    except (ValueError, RecursionError) as error:
        raise BadStatus(f"{path}: it can't be read: {error}") from error
    if not isinstance(values, dict) or values.get("format") != FORMAT:
        raise BadStatus(f"{path}: another format")
    return values


def read_mirror(folder: Path) -> tuple[MirrorStatus, dict[str, Any]] | None:
    """What the mirror told last, and as it stands there. Raises `BadStatus`."""
    path = folder / MIRROR
    values = _values_of(path)
    return None if values is None else (_mirror_of(Fields(values, str(path))), values)


def read_service(folder: Path) -> tuple[ServiceStatus, dict[str, Any]] | None:
    """What the service told last, and as it stands there. Raises `BadStatus`."""
    path = folder / SERVICE
    values = _values_of(path)
    return None if values is None else (_service_of(Fields(values, str(path))), values)


def _mirror_of(told: Fields) -> MirrorStatus:
    pending = told.object("pending")
    owners = told.object("owners")
    return MirrorStatus(
        written=told.seconds("written"),
        state=told.text("state"),
        trouble=told.text_or_none("trouble"),
        walk=_walk_of(told),
        pending_files=pending.whole("files"),
        pending_bytes=pending.whole("bytes"),
        owners={_user_of(owners, user): _owner_of(owners.object(user)) for user in owners.values},
        shut=[
            Shut(one.text("path"), one.whole("owner"), one.text("why"))
            for one in told.objects("shut")
        ],
        left_out=[LeftOut(one.text("path"), one.text("why")) for one in told.objects("left_out")],
        held=told.text_or_none("held"),
        documents=_documents_of(told),
        live=None if told.values.get("live") is None else _live_of(told.object("live")),
    )


def _documents_of(told: Fields) -> Documents | None:
    """What is told of documents; None by a mirror that knows none."""
    if told.values.get("documents") is None:
        return None
    of = told.object("documents")
    return Documents(of.whole("all"), of.whole("unmade"), of.text_or_none("trouble"))


def _live_of(told: Fields) -> Live:
    unmarked = [LeftOut(one.text("path"), one.text("why")) for one in told.objects("unmarked")]
    counts = (told.whole("narrowed"), told.whole("batches"), told.whole("lost"))
    looks = None
    if told.values.get("full") is not None:
        full = told.object("full")
        looks = Looks(full.whole("looks"), full.whole("left"))
    return Live(told.text_or_none("why"), unmarked, *counts, looks)


def _user_of(owners: Fields, word: str) -> int:
    if not word.isdecimal() or len(word) > 10:
        raise BadStatus(f"{owners.where}: {word!r:.60} is no number of a user")
    return int(word)


def _walk_of(told: Fields) -> Walk | None:
    """The last walk; None where none was done yet."""
    if told.values.get("walk") is None:
        return None
    walk = told.object("walk")
    if not walk.values.get("began"):
        return None
    fed = walk.seconds_or_none("fed")
    return Walk(walk.seconds("began"), walk.seconds("seconds"), walk.whole("names"), fed)


def _owner_of(told: Fields) -> Owner:
    return Owner(told.whole("names"), told.whole("bytes"), told.counts("shut"))


def _service_of(told: Fields) -> ServiceStatus:
    program, queries = told.object("program"), told.object("queries")
    batches = told.object("batches")
    return ServiceStatus(
        written=told.seconds("written"),
        started=told.seconds("started"),
        fed_age=told.seconds_or_none("fed_age"),
        is_stale=told.truth("stale"),
        is_ready=told.truth("ready"),
        starts=program.whole("starts"),
        why=program.texts("why"),
        memory=program.whole("memory"),
        answered=queries.whole("answered"),
        refused=queries.counts("refused"),
        connections=told.whole("connections"),
        waiting=told.whole("waiting"),
        slow=[Slow(one.whole("uid"), one.seconds("until")) for one in told.objects("slow")],
        fed=batches.whole("fed"),
        failed=batches.whole("failed"),
        heard_age=told.seconds_or_none("heard_age"),
    )
