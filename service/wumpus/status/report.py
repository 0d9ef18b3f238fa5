"""The report for people."""

import pwd
import time
from collections.abc import Iterator

from ..shared.progress import plain
from .files import Live, MirrorStatus, Owner, ServiceStatus

FIRST = 20  # owners, and paths, that are told where not all are wanted
_UNITS = ("bytes", "kB", "MB", "GB", "TB")


def report(
    mirror: MirrorStatus | None, service: ServiceStatus | None, needed: list[str], whole: bool
) -> Iterator[str]:
    """The lines of the report: what needs attention comes first."""
    yield from (f"! {plain(one)}" for one in needed)
    if service is not None:
        yield from _of_service(service)
    if mirror is not None:
        yield from _of_mirror(mirror)
        yield from _of_owners(mirror, whole)
        yield from _of_paths(mirror, whole)


def size(count: int) -> str:
    """Bytes in words."""
    value, unit = float(count), 0
    while value >= 1000 and unit < len(_UNITS) - 1:
        value, unit = value / 1000, unit + 1
    return f"{value:.1f} {_UNITS[unit]}" if unit else f"{count} bytes"


def moment(seconds: float) -> str:
    """A moment in local time."""
    return time.strftime("%Y-%m-%d %H:%M:%S", time.localtime(seconds))


def user(number: int) -> str:
    """A user's name and number."""
    try:
        return f"{plain(pwd.getpwuid(number).pw_name)} ({number})"
    except (KeyError, OverflowError):
        return f"{number}"


def counts(told: dict[str, int]) -> str:
    """Counts by their words, the greatest first."""
    order = sorted(told.items(), key=lambda one: (-one[1], one[0]))
    return ", ".join(f"{count} {plain(word)}" for word, count in order) or "none"


def _of_service(service: ServiceStatus) -> Iterator[str]:
    age = "none was fed" if service.fed_age is None else f"{service.fed_age:.0f} s old"
    heard = service.heard_age
    taken = "" if heard is None else f", what is taken away at once: {heard:.0f} s"
    yield f"service    since {moment(service.started)}; rights: {age}{taken}"
    yield f"  program  starts: {service.starts}; {size(service.memory)}"
    yield from (f"           ended: {plain(one)}" for one in service.why)
    yield f"  queries  {service.answered} answered; refused: {counts(service.refused)}"
    yield f"  clients  {service.connections} connections, {service.waiting} queries wait"
    for slow in service.slow[:FIRST]:
        yield f"           {user(slow.user)} waits until {moment(slow.until)}: her queries are slow"
    yield f"  batches  {service.fed} fed, {service.failed} failed"


def _of_mirror(mirror: MirrorStatus) -> Iterator[str]:
    yield f"mirror     {plain(mirror.state)}, told at {moment(mirror.written)}"
    if mirror.walk is not None:
        walk = mirror.walk
        yield f"  walk     began {moment(walk.began)}, {walk.seconds:.1f} s, {walk.names} names"
        yield f"           fed {'not yet' if walk.fed is None else moment(walk.fed)}"
    pending = size(mirror.pending_bytes)
    yield f"  to look  {mirror.pending_files} files, {pending}"
    documents = mirror.documents
    if documents is not None and documents.all:
        why = f": {plain(documents.trouble)}" if documents.unmade and documents.trouble else ""
        yield f"  to read  {documents.unmade} of {documents.all} documents have no text yet{why}"
    yield from _of_live(mirror.live)


def _of_live(live: Live | None) -> Iterator[str]:
    """What is taken away beside the turns, and what is looked at."""
    if live is None or live.why is not None:
        why = "" if live is None else f": {plain(live.why or '')}"
        yield f"  live     no: what is taken away waits for the next turn{why}"
        return
    yield f"  live     {live.narrowed} taken away in {live.batches} batches; lost: {live.lost}"
    if live.looks is not None:
        yield f"           {live.looks.count} looks at changes; left to turns: {live.looks.left}"
    for one in live.unmarked:
        yield f"           not {plain(one.path)}, which waits for the next turn: {plain(one.why)}"


def _of_owners(mirror: MirrorStatus, whole: bool) -> Iterator[str]:
    """The owners of most, and all of whom something is shut."""

    def weight(told: Owner) -> tuple[int, int]:
        return (sum(told.shut.values()), told.names)

    order = sorted(mirror.owners.items(), key=lambda one: weight(one[1]), reverse=True)
    if order:
        yield "owners     names, bytes, and what is shut"
    for number, told in order if whole else order[:FIRST]:
        shut = f"; shut: {counts(told.shut)}" if told.shut else ""
        yield f"  {user(number)}: {told.names}, {size(told.bytes)}{shut}"
    yield from _more(len(order), whole, "owners")


def _of_paths(mirror: MirrorStatus, whole: bool) -> Iterator[str]:
    shut = [f"  {plain(one.path)}: {plain(one.why)}, of {user(one.owner)}"
            for one in mirror.shut[: None if whole else FIRST]]  # fmt: skip
    left_out = [f"  {plain(one.path)}: {plain(one.why)}"
                for one in mirror.left_out[: None if whole else FIRST]]  # fmt: skip
    yield from ["shut       shown to nobody but user 0", *shut] if shut else []
    yield from _more(len(mirror.shut), whole, "paths that are shut")
    yield from ["left out   not mirrored", *left_out] if left_out else []
    yield from _more(len(mirror.left_out), whole, "paths that are left out")


def _more(count: int, whole: bool, what: str) -> Iterator[str]:
    if not whole and count > FIRST:
        yield f"  {count - FIRST} more {what}: --all tells them"
