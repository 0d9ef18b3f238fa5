"""The command line of `wumpus-watch`."""

import argparse
import os
import pwd
import socket
import sys
from pathlib import Path

from .. import VERSION
from ..shared.progress import plain
from . import calls
from .packets import SOCKET
from .server import Server

TROUBLE = 2
IDLE_SECONDS = 60.0  # after which it ends, where a service manager begins it again
_FIRST_GIVEN = 3  # the number of the first descriptor that a service manager gives


def parser() -> argparse.ArgumentParser:
    """The options."""
    options = argparse.ArgumentParser(
        prog="wumpus-watch",
        description="Has the kernel tell the mirror of Wumpus what changes.",
        allow_abbrev=False,
    )
    add = options.add_argument
    add("--socket", metavar="PATH", help=f"make this socket; else the one that is given, {SOCKET}")
    add("--owner", metavar="NAME", help="of the socket that is made, who alone may ask (root)")
    add("--check", action="store_true", help="try whether the kernel can, and end")
    add("--version", action="version", version=f"wumpus-watch {VERSION}")
    return options


def tell(text: str) -> None:
    """Tells something on standard error."""
    print(f"wumpus-watch: {plain(text)}", file=sys.stderr, flush=True)


def listener(given: argparse.Namespace) -> tuple[socket.socket, float | None]:
    """The socket that is served, and after how many seconds without a request it is over.

    Raises `OSError`, and `KeyError` where the owner has no account.
    """
    if os.environ.get("LISTEN_PID") == str(os.getpid()):
        os.set_inheritable(_FIRST_GIVEN, False)
        return socket.socket(fileno=_FIRST_GIVEN), IDLE_SECONDS
    if given.socket is None:
        raise OSError("no socket is given: --socket makes one")
    Path(given.socket).unlink(missing_ok=True)
    made = socket.socket(socket.AF_UNIX, socket.SOCK_SEQPACKET)
    before = os.umask(0o177)
    try:
        made.bind(given.socket)
    finally:
        os.umask(before)
    if given.owner is not None:
        account = pwd.getpwnam(given.owner)
        os.chown(given.socket, account.pw_uid, account.pw_gid)
    made.listen()
    return made, None


def _try_kernel() -> None:
    """Marks the file system of `/` in a group of its own. Raises `OSError`."""
    group = calls.new_group()
    try:
        here = os.open("/", os.O_RDONLY | os.O_DIRECTORY)
        try:
            calls.mark_file_system(group, here, calls.ALL)
        finally:
            os.close(here)
    finally:
        os.close(group)


def run(given: argparse.Namespace) -> None:
    """Does what the options say. Raises what `main` tells."""
    try:
        _try_kernel()
    except OSError as error:
        if given.check:
            raise
        # Who asks is answered so, too. If it ended, systemd would begin it again and again.
        tell(f"the kernel refuses: {error.strerror}")
    if given.check:
        print("the kernel can")
        return
    served, idle = listener(given)
    owner = os.stat(served.getsockname()).st_uid
    Server(served, owner, idle, tell).serve()


def main() -> int:
    """Runs the command line: 0, or 2 where nothing can be served."""
    given = parser().parse_args()
    try:
        run(given)
        return 0
    except KeyError as trouble:
        tell(f"there is no account {trouble}")
    except OSError as trouble:
        tell(str(trouble))
    except KeyboardInterrupt:
        pass
    return TROUBLE
