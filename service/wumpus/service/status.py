"""What the service tells of itself: a file for `wumpus-status`, and words for systemd."""

import json
import time
from collections.abc import Callable
from pathlib import Path
from typing import Any

from ..shared.notify import notify, watchdog_seconds
from ..shared.whole import write_whole
from .loop import Service

FILE = "service.status"
FORMAT = 1
EVERY = 2.0  # seconds
SLOW_AT_MOST = 1000  # persons in the file


def status_of(service: Service, started: float) -> dict[str, Any]:
    """What the file says: ages in seconds, sizes in bytes, and moments as seconds since 1970."""
    now = time.time()
    age, heard = service.freshness.age(), service.freshness.heard_age()
    engine, clients = service.engine, service.clients
    return {
        "format": FORMAT,
        "written": now,
        "started": started,
        "fed_age": None if age is None else age / 1000,
        "heard_age": None if heard is None else heard / 1000,
        "stale": service.freshness.is_stale(),
        "ready": service.freshness.is_done,
        "program": {
            "starts": engine.starts,
            "why": list(engine.why),
            "memory": 0 if engine.program is None else engine.program.memory(),
        },
        "queries": {"answered": clients.answered, "refused": dict(clients.refused)},
        "connections": len(clients.all),
        "waiting": len(service.turns),
        "slow": [
            {"uid": person, "until": now + seconds}
            for person, seconds in service.waits.slow()[:SLOW_AT_MOST]
        ],
        "batches": {"fed": service.batches_fed, "failed": service.batches_failed},
    }


class Reports:
    """Writes the file now and then, and tells systemd that the loop turns."""

    def __init__(self, folder: Path, log: Callable[[str], None]) -> None:
        self.path = folder / FILE
        self.log = log
        self.started = time.time()
        self.written = -EVERY
        self.is_failing = False
        self.told = b""
        self.watchdog = watchdog_seconds()
        self.pinged = 0.0

    def look(self, service: Service) -> None:
        """Tells what is due."""
        now = time.monotonic()
        if self.watchdog is not None and now - self.pinged >= min(self.watchdog, EVERY):
            self.pinged = now
            notify(b"WATCHDOG=1")
        if now - self.written >= EVERY:
            self.written = now
            self.write(service)
            self._tell(service)

    def write(self, service: Service) -> None:
        """Writes the file. A full disk is told once, and ends nothing."""
        try:
            data = json.dumps(status_of(service, self.started)).encode("ascii")
            write_whole(self.path, data + b"\n")
            self.is_failing = False
        except OSError as error:
            if not self.is_failing:
                self.log(f"{self.path} can't be written: {error}")
            self.is_failing = True

    def _tell(self, service: Service) -> None:
        """Tells systemd in words how it stands, where that changed."""
        if not service.freshness.is_done:
            words = b"no turn of the mirror is done"
        elif service.freshness.is_stale():
            words = b"nothing is answered: the mirror's last word is too long ago"
        else:
            words = b"answering"
        if words != self.told:
            self.told = words
            notify(b"STATUS=" + words)
