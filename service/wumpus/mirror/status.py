"""The file `mirror.status`: what the mirror does, what is shut and why, and whose it is.

It is one JSON object, written whole beside the one before and then renamed; mode 0600.
"""

import contextlib
import json
import os
import time
from collections import Counter
from pathlib import Path
from typing import Any, Protocol

from ..shared.whole import write_whole
from .nodes import Tree
from .pending import Pending
from .reasons import Reason
from .remarks import Remarks
from .turn import Mirror, Walked

NAME = "mirror.status"
FORMAT = 1
EVERY = 2.0  # seconds between two writings
AT_REST = 10.0  # where it would say the same


class Told(Protocol):
    """What goes on beside the turns."""

    def told(self) -> dict[str, object]:
        """What is told of it."""


class StatusFile:
    """Writes it, at most each two seconds but at the end of a turn."""

    def __init__(self, folder: Path) -> None:
        self.path = folder / NAME
        self.last = self.looked = 0.0
        self.before: dict[str, Any] = {}
        self.owners: dict[int, dict[str, int]] = {}  # names and bytes, as after the last walk
        self.documents = self.unmade = 0  # all, and those of which no text was made yet
        self.narrowing: Told | None = None
        self.looks: Told | None = None

    def count(self, tree: Tree) -> None:
        """Counts names and bytes of texts by owner, after a walk."""
        names: Counter[int] = Counter()
        stored: Counter[int] = Counter()
        nodes = tree.nodes
        for entries in tree.entries.values():
            names.update(nodes[child].rights.owner for child in entries.values())
        self.documents = self.unmade = 0
        for node in nodes.values():
            if node.digest:
                stored[node.rights.owner] += node.text_bytes
            if node.origin is not None:
                self.documents += 1
                self.unmade += not node.origin.by
        owners = names.keys() | stored.keys()
        self.owners = {one: {"names": names[one], "bytes": stored[one]} for one in owners}

    def write(
        self, mirror: Mirror | None, doing: str, trouble: str | None, is_due: bool = False
    ) -> None:
        """Writes it, where it is time or due, also before there is a mirror.

        What can't be written is told by its age.
        """
        now = time.monotonic()
        if not is_due and now - self.looked < EVERY:
            return
        self.looked, told = now, self._told(mirror, doing, trouble)
        if not is_due and told == self.before and now - self.last < AT_REST:
            return
        self.last, self.before = now, told
        with contextlib.suppress(OSError):
            write_whole(self.path, json.dumps({**told, "written": time.time()}).encode())

    def _told(self, mirror: Mirror | None, doing: str, trouble: str | None) -> dict[str, Any]:
        walked, pending, remarks = Walked(), Pending(), Remarks(lambda *_: None)
        held: list[str] = []
        unread: str | None = None  # why documents have no text
        if mirror is not None:
            walked, pending, remarks = mirror.walked, mirror.pending, mirror.remarks
            held, unread = mirror.report.held, mirror.documents.trouble
        return {
            "format": FORMAT,
            "state": doing,
            "trouble": trouble,
            "walk": {
                "began": walked.began,
                "seconds": walked.seconds,
                "names": walked.names,
                "fed": walked.fed,
            },
            "pending": {"files": pending.files, "bytes": pending.bytes},
            "documents": {"all": self.documents, "unmade": self.unmade, "trouble": unread},
            "owners": self._owners(remarks, pending),
            "shut": [
                {"path": os.fsdecode(one.path), "owner": one.owner, "why": one.why.value}
                for one in remarks.shown
            ],
            "left_out": [{"path": os.fsdecode(path), "why": why} for path, why in remarks.left_out],
            "held": "; ".join(held) or None,
            "live": self._live(),
        }

    def _live(self) -> dict[str, object] | None:
        """What is done live; None where there are turns alone."""
        if self.narrowing is None:
            return None
        looks = {} if self.looks is None else {"full": self.looks.told()}
        return self.narrowing.told() | looks

    def _owners(self, remarks: Remarks, pending: Pending) -> dict[str, Any]:
        told: dict[str, Any] = {
            str(owner): {**counts, "shut": {}} for owner, counts in self.owners.items()
        }
        shut = [(owner, why, n) for owner, of in remarks.counts.items() for why, n in of.items()]
        shut += [(person, Reason.PENDING, len(q)) for person, q in pending.queues.items() if q]
        for owner, why, count in shut:
            of_owner = told.setdefault(str(owner), {"names": 0, "bytes": 0, "shut": {}})
            of_owner["shut"][why.value] = count
        return told
