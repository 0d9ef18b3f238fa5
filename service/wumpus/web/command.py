"""The command line of `wumpus-web`: a page for the user who runs it, in her own browser."""

import argparse
import os
import re
import shutil
import signal
import subprocess
import sys
import time
from pathlib import Path

from .. import VERSION
from ..ask.asking import Trouble
from ..ask.options import query_of
from ..shared.progress import plain
from ..shared.store import ASK, SOCKETS
from .answers import Answers
from .guard import Keys
from .server import PortServer, Site, SocketServer

IDLE = 30 * 60.0  # seconds without a question, after which it ends: groups may have changed
WAKE = 1.0
SOCKET = "wumpus-web.sock"
FORWARDED = "localhost:8377"


def parser() -> argparse.ArgumentParser:
    """The options."""
    options = argparse.ArgumentParser(
        prog="wumpus-web",
        description="A page in your own browser that searches the files that you may read.",
        allow_abbrev=False,
    )
    add = options.add_argument
    add("query", nargs="*", metavar="QUERY", help="a query to begin with, as of wumpus-ask")
    add("--no-open", action="store_true", help="print the link alone, and open no browser")
    add("--unix", action="store_true",
        help=f"serve at $XDG_RUNTIME_DIR/{SOCKET}, to be reached over ssh")  # fmt: skip
    add("--host", metavar="HOST:PORT", help="as what the browser reaches it (over ssh)")
    add("--sockets", default=SOCKETS, metavar="DIR", help=f"of the service ({SOCKETS})")
    add("--version", action="version", version=f"wumpus-web {VERSION}")
    return options


def served(given: argparse.Namespace, site: Site) -> PortServer | SocketServer:
    """The server, which knows as what it is reached. Raises `Trouble`."""
    if given.host is not None and re.fullmatch(r"[A-Za-z0-9.-]+:[0-9]{1,5}", given.host) is None:
        raise Trouble("--host is HOST:PORT, as localhost:8377")
    if given.unix:
        folder = os.environ.get("XDG_RUNTIME_DIR")
        if not folder:
            raise Trouble("XDG_RUNTIME_DIR isn't set")
        site.host = given.host or FORWARDED
        return SocketServer(site, Path(folder) / SOCKET)
    server = PortServer(site)
    site.host = given.host or server.place()
    return server


def tell(server: PortServer | SocketServer, link: str) -> None:
    """Says how the page is reached."""
    machine = os.uname().nodename
    if isinstance(server, SocketServer):
        port = server.site.host.rpartition(":")[2]
        print(f"elsewhere: ssh -L {port}:{server.path} {machine}", file=sys.stderr)
    print(link, flush=True)


def open_browser(link: str) -> None:
    """Opens the link, where there is a display."""
    has_display = "DISPLAY" in os.environ or "WAYLAND_DISPLAY" in os.environ
    if has_display and shutil.which("xdg-open"):
        subprocess.Popen(
            ["xdg-open", link],
            stdin=subprocess.DEVNULL,
            stdout=subprocess.DEVNULL,
            stderr=subprocess.DEVNULL,
        )


def serve(server: PortServer | SocketServer, answers: Answers) -> None:
    """Answers until nothing was asked for a long while."""
    server.timeout = WAKE
    while time.monotonic() - answers.asked_at < IDLE:
        server.handle_request()


def run(given: argparse.Namespace) -> None:
    """Serves the page. Raises `Trouble`."""
    answers = Answers(Path(given.sockets) / ASK)
    query = query_of(given.query).decode("utf-8", "surrogateescape")
    calls = {"/ask": answers.ask, "/file": answers.file}
    site = Site(Keys(), calls, {"query": query})
    server = served(given, site)
    try:
        # What stands behind the # is in no request. The query isn't there: browsers keep links.
        link = f"http://{site.host}/#{site.keys.ticket}"
        tell(server, link)
        if not (given.no_open or given.unix or given.host):
            open_browser(link)
        serve(server, answers)
    finally:
        server.server_close()
        answers.close()


def _end(_number: int, _frame: object) -> None:
    raise KeyboardInterrupt


def main() -> int:
    """Runs the command line."""
    given = parser().parse_args()
    for number in (signal.SIGTERM, signal.SIGHUP):
        signal.signal(number, _end)
    try:
        run(given)
    except Trouble as trouble:
        print(f"wumpus-web: {plain(str(trouble))}", file=sys.stderr)
        return 2
    except KeyboardInterrupt:
        pass
    return 0
