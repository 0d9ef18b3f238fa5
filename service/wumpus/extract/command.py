"""The command line of `wumpus-extract`."""

import argparse
import os
import socket
import sys
from pathlib import Path

from .. import VERSION
from ..shared.progress import plain
from . import system, trial
from .kinds import TABLE, BadTable, table_here
from .packets import SOCKET, Offer
from .server import Renew, Server
from .tasks import load, tasks_of
from .walls import Missing
from .worker import Task

TROUBLE = 2
_FIRST_GIVEN = 3  # the number of the first descriptor that a service manager gives


def parser() -> argparse.ArgumentParser:
    """The options."""
    options = argparse.ArgumentParser(
        prog="wumpus-extract",
        description="Makes text of documents for the mirror of Wumpus, behind walls.",
        allow_abbrev=False,
    )
    add = options.add_argument
    add("--socket", metavar="PATH", help=f"make this socket; else the one that is given, {SOCKET}")
    add("--documents", default=str(TABLE), metavar="FILE", help=f"the table of kinds ({TABLE})")
    add("--check", action="store_true", help="try the walls, tell what is made, and end")
    add("--version", action="version", version=f"wumpus-extract {VERSION}")
    return options


def tell(text: str) -> None:
    """Tells something on standard error."""
    print(f"wumpus-extract: {plain(text)}", file=sys.stderr, flush=True)


def prepared(table: Path) -> tuple[dict[str, Task], dict[str, Offer]]:
    """What is made here, and with which walls. Raises what `main` tells."""
    trial.check_rights()
    system.forbid_new_privileges()
    system.hide_memory()
    load()
    kinds = table_here(table)
    tasks = tasks_of(kinds)
    trial.try_walls(tasks)
    return tasks, trial.offers(kinds, tasks, tell)


def listener(path: str | None) -> socket.socket:
    """The socket that is served: one that is given, or a new one. Raises `OSError`."""
    if os.environ.get("LISTEN_PID") == str(os.getpid()):
        given = socket.socket(fileno=_FIRST_GIVEN)
        os.set_inheritable(_FIRST_GIVEN, False)
        return given
    if path is None:
        raise OSError("no socket is given: --socket makes one")
    made = socket.socket(socket.AF_UNIX, socket.SOCK_SEQPACKET)
    Path(path).unlink(missing_ok=True)
    os.umask(0o177)
    made.bind(path)
    made.listen()
    return made


def begin_anew(served: socket.socket) -> None:
    """Becomes this program once more, with the same socket and other addresses."""
    os.dup2(served.fileno(), _FIRST_GIVEN)
    os.set_inheritable(_FIRST_GIVEN, True)
    given = {"LISTEN_PID": str(os.getpid()), "LISTEN_FDS": "1"}
    os.execve(sys.executable, sys.orig_argv, os.environ | given)


def run(given: argparse.Namespace) -> int:
    """Does what the options say."""
    tasks, offers = prepared(Path(given.documents))
    if given.check:
        for one in offers.values():
            print(f"{one.name} {one.fingerprint}")
        return 0
    served = listener(given.socket)
    try:
        Server(served, tasks, offers).serve()
    except Renew:
        begin_anew(served)
    return 0


def main() -> int:
    """Runs the command line: 0, or 2 where nothing can be served."""
    given = parser().parse_args()
    try:
        return run(given)
    except (trial.Untrusted, Missing, BadTable, OSError) as trouble:
        tell(str(trouble))
    except KeyboardInterrupt:
        pass
    return TROUBLE
