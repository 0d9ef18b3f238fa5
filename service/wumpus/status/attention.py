"""What an administrator has to look at."""

from collections.abc import Iterator

from .files import MirrorStatus, ServiceStatus

SILENT = 60.0  # seconds after which a service that tells nothing doesn't run, or hangs


def attention(
    mirror: MirrorStatus | None, service: ServiceStatus | None, now: float, old: float
) -> Iterator[str]:
    """What needs attention, in words. `old` is how many seconds ago the last walk may be."""
    if service is None:
        yield "the service has told nothing: does wumpusd run?"
    else:
        yield from _of_service(service, now)
    if mirror is None:
        yield "the mirror has told nothing: does wumpus-mirror run?"
    else:
        yield from _of_mirror(mirror, now, old)


def _of_service(service: ServiceStatus, now: float) -> Iterator[str]:
    if now - service.written > SILENT:
        yield f"the service has told nothing for {now - service.written:.0f} s: does wumpusd run?"
    if service.is_stale:
        yield "nobody is answered: what the mirror told last is too long ago (stale)"
    elif not service.is_ready:
        yield "nobody is answered yet: the mirror's first turn isn't done"


def _of_mirror(mirror: MirrorStatus, now: float, old: float) -> Iterator[str]:
    if mirror.state == "failed":
        yield f"the mirror failed: {mirror.trouble or 'it says no more'}"
    elif mirror.trouble:
        yield f"the mirror: {mirror.trouble}"
    if mirror.held:
        yield f"held until --force: {mirror.held}"
    if mirror.walk is not None and now - mirror.walk.began > old:
        yield f"the last walk that was fed began {now - mirror.walk.began:.0f} s ago"
