"""The numbers for a monitoring system, in the text format that `node_exporter` reads."""

import os
import re
from collections.abc import Iterator
from dataclasses import dataclass
from pathlib import Path

from .files import MirrorStatus, ServiceStatus

_WORD = re.compile(r"[a-z0-9-]{1,40}")


@dataclass(frozen=True)
class Metric:
    """One name with its values: by the value of a label, or one with an empty label."""

    name: str
    kind: str
    about: str
    label: str
    values: dict[str, float]

    def lines(self) -> Iterator[str]:
        """As they stand in the file."""
        yield f"# HELP wumpus_{self.name} {self.about}"
        yield f"# TYPE wumpus_{self.name} {self.kind}"
        for value, number in self.values.items():
            label = f'{{{self.label}="{value}"}}' if self.label else ""
            yield f"wumpus_{self.name}{label} {number:.17g}"


def _gauge(name: str, about: str, value: float) -> Metric:
    return Metric(name, "gauge", about, "", {"": value})


def _known(counts: dict[str, int]) -> dict[str, float]:
    """Counts by words that may stand in a label."""
    return {word: count for word, count in counts.items() if _WORD.fullmatch(word)}


def of_service(service: ServiceStatus) -> Iterator[Metric]:
    """The service's."""
    yield _gauge("service_written_seconds", "When the service told this.", service.written)
    yield _gauge("stale", "Whether nobody is answered since rights are too old.", service.is_stale)
    yield _gauge("ready", "Whether the mirror's first turn is done.", service.is_ready)
    if service.fed_age is not None:
        yield _gauge("rights_age_seconds", "How old the rights are.", service.fed_age)
    if service.heard_age is not None:
        about = "How old what is taken away at once is."
        yield _gauge("taken_age_seconds", about, service.heard_age)
    yield _gauge("program_memory_bytes", "Memory of the program.", service.memory)
    yield _gauge("connections", "Connections of users.", service.connections)
    yield _gauge("queries_waiting", "Queries that wait.", service.waiting)
    yield _gauge("slow_users", "Users whose queries wait since they are slow.", len(service.slow))
    about = "How often the program was started."
    yield Metric("program_starts_total", "counter", about, "", {"": service.starts})
    about = "Queries that were answered."
    yield Metric("queries_answered_total", "counter", about, "", {"": service.answered})
    about = "Queries that were refused."
    yield Metric("queries_refused_total", "counter", about, "word", _known(service.refused))
    batches = {"fed": float(service.fed), "failed": float(service.failed)}
    yield Metric("batches_total", "counter", "Batches of the mirror.", "result", batches)


def of_mirror(mirror: MirrorStatus) -> Iterator[Metric]:
    """The mirror's."""
    yield _gauge("mirror_written_seconds", "When the mirror told this.", mirror.written)
    yield _gauge("mirror_failed", "Whether the mirror failed.", mirror.state == "failed")
    yield _gauge("mirror_held", "Whether something waits for --force.", mirror.held is not None)
    if mirror.walk is not None:
        walk = mirror.walk
        yield _gauge("walk_began_seconds", "When the last walk that was fed began.", walk.began)
        yield _gauge("walk_seconds", "How long it took.", walk.seconds)
        yield _gauge("names", "Names that it saw.", walk.names)
    yield _gauge("pending_files", "Files that have to be looked at.", mirror.pending_files)
    yield _gauge("pending_bytes", "Their bytes.", mirror.pending_bytes)
    stored = sum(owner.bytes for owner in mirror.owners.values())
    yield _gauge("text_bytes", "Bytes of texts that the program has.", stored)
    yield _gauge("owners", "Users who own something.", len(mirror.owners))
    shut = _known(mirror.shut_by_reason())
    yield Metric("shut", "gauge", "Names that are shown to nobody but user 0.", "reason", shut)


def text_of(mirror: MirrorStatus | None, service: ServiceStatus | None, needed: int) -> str:
    """The whole file. `needed` is how many things need attention."""
    metrics = [_gauge("attention", "How many things need attention.", needed)]
    metrics += of_service(service) if service is not None else []
    metrics += of_mirror(mirror) if mirror is not None else []
    return "".join(line + "\n" for metric in metrics for line in metric.lines())


def write(path: Path, text: str) -> None:
    """Puts a file that everybody may read in the place of the one before. Raises `OSError`."""
    fresh = path.with_name(f".{path.name}.{os.getpid()}")
    flags = os.O_WRONLY | os.O_CREAT | os.O_EXCL | os.O_NOFOLLOW | os.O_CLOEXEC
    descriptor = os.open(fresh, flags, 0o600)
    try:
        with open(descriptor, "w", encoding="ascii") as file:
            file.write(text)
            file.flush()
            os.fchmod(file.fileno(), 0o644)
        os.replace(fresh, path)
    except OSError:
        fresh.unlink(missing_ok=True)
        raise
