"""The options of the mirror about what it does live, and how that begins beside its turns."""

import argparse
import contextlib
import os
import sys
from collections.abc import Callable, Iterator
from pathlib import Path

from ..mirror.access import Access
from ..mirror.reach import Direct, Served
from ..mirror.turn import Mirror
from ..shared.progress import plain
from ..shared.store import CONTROL
from .looks import Looks
from .narrowing import Narrowing
from .settings import Settings
from .packets import SOCKET

OFF, NARROW, FULL = "off", "narrow", "full"


def add_live(options: argparse.ArgumentParser) -> None:
    """The options."""
    add = options.add_argument
    add("--live", choices=(OFF, NARROW, FULL), default=NARROW,
        help="narrow: take rights away at once, beside turns; full: look at all that changes, too; "
        "off: turns alone")  # fmt: skip
    add("--watch", default=SOCKET, metavar="PATH", help=f"of wumpus-watch ({SOCKET})")


@contextlib.contextmanager
def beside(
    given: argparse.Namespace,
    mirror: Mirror,
    reach: Direct | Served,
    person_of: Callable[[int], int],
) -> Iterator[tuple[Narrowing | None, Looks | None]]:
    """Takes rights away meanwhile, where turns go on and a service answers; and what looks at all
    else that changes, where that is wanted. Raises `Failed`."""
    if given.live == OFF or given.every is None or isinstance(reach, Direct):
        if isinstance(reach, Served):
            reach.unheard()
        yield None, None
        return
    roots = tuple(os.fsencode(root) for root in given.roots)
    is_full = given.live == FULL
    access = Access(given.unlisted)
    settings = Settings(Path(given.watch), given.planner, roots, access, is_full)
    own = Served(Path(given.sockets) / CONTROL)
    narrowing = Narrowing(mirror, own, settings, person_of)
    looks = Looks(mirror, narrowing) if is_full else None
    try:
        narrowing.begin()
        if narrowing.why is not None:
            told = f"what is taken away waits for the next turn: {narrowing.why}"
            print(f"wumpus-mirror: {plain(told)}", file=sys.stderr)
        mirror.walk_is_fed = narrowing.walk_is_fed if looks is None else looks.walk_is_fed
        yield narrowing, looks
    finally:
        narrowing.end()
