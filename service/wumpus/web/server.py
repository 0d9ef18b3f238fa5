"""The server of the page: a few exact paths, and calls with JSON.

It is that of the standard library, since that has a place to look at a connection before a byte is
read, and only the user's own browser reaches its parser. What it lacks is set here: bounds on
bodies and connections, timeouts, no transfer encodings, HTTP/1.1 alone.
"""

import errno
import json
import os
import secrets
import socket
import socketserver
import stat
from collections.abc import Callable, Mapping
from contextlib import suppress
from http.server import BaseHTTPRequestHandler
from pathlib import Path
from threading import Semaphore
from typing import Any

from ..ask.asking import Trouble
from .guard import (
    Keys, Owner, Refusal, check_call, check_site, length_of_body, owner_of_peer, owner_of_unix_peer,
)  # fmt: skip

BODY_MAX = 32_768
CONNECTIONS = 64
SECONDS = 30.0  # of silence on a connection
DRAIN_SECONDS = 0.2
PAGE = Path(__file__).resolve().parent / "page"
FILES = {
    "/": ("index.html", "text/html; charset=utf-8"),
    "/page.css": ("page.css", "text/css; charset=utf-8"),
    "/page.js": ("page.js", "text/javascript; charset=utf-8"),
}
HEADERS = {
    "Content-Security-Policy": (
        "default-src 'none'; script-src 'self'; style-src 'self'; connect-src 'self'; "
        "base-uri 'none'; form-action 'none'; frame-ancestors 'none'; "
        "require-trusted-types-for 'script'; trusted-types 'none'"
    ),
    "X-Content-Type-Options": "nosniff",
    "X-Frame-Options": "DENY",
    "Referrer-Policy": "no-referrer",
    "Cross-Origin-Opener-Policy": "same-origin",
    "Cross-Origin-Resource-Policy": "same-origin",
    "Cross-Origin-Embedder-Policy": "require-corp",
    "Cache-Control": "no-store",
}

Value = dict[str, Any]
Call = Callable[[Value], Value]


class Site:
    """What is served: the page's files, and calls, for who has the keys."""

    def __init__(self, keys: Keys, calls: Mapping[str, Call], first: Value) -> None:
        self.keys = keys
        self.calls = calls
        self.first = first  # what the page is told with its token
        self.open_calls: dict[str, Call] = {"/enter": self.enter, "/here": self.prove}
        self.host = ""  # to which requests have to be made
        self.files = {path: (kind, (PAGE / name).read_bytes())
                      for path, (name, kind) in FILES.items()}  # fmt: skip

    def enter(self, value: Value) -> Value:
        """The token for the ticket."""
        token = self.keys.token_for(str(value.get("ticket", "")))
        if token is None:
            raise Refusal(403, "this ticket isn't good, or was used")
        return {"token": token, **self.first}

    def prove(self, value: Value) -> Value:
        """That this server gave the token."""
        return {"proof": self.keys.proof_for(str(value.get("once", "")))}


class Handler(BaseHTTPRequestHandler):
    """Answers the requests of one connection."""

    protocol_version = "HTTP/1.1"
    timeout = SECONDS
    server: "PortServer | SocketServer"

    def do_GET(self) -> None:
        """Sends one of the page's files."""
        with self._refusing():
            self._check()
            found = self.server.site.files.get(self.path)
            if found is None:
                raise Refusal(404, "there is no such page")
            self._send(200, *found)

    def do_POST(self) -> None:
        """Answers a call."""
        with self._refusing():
            headers = self._check()
            check_call(headers, self.server.site.host)
            body = self.rfile.read(length_of_body(headers, BODY_MAX))
            site = self.server.site
            if self.path in site.open_calls:
                answer = site.open_calls[self.path](_value_of(body))
            else:
                if not site.keys.fits(" ".join(headers.get("wumpus-token", ()))):
                    raise Refusal(403, "this page isn't let in")
                call = site.calls.get(self.path)
                if call is None:
                    raise Refusal(404, "there is no such call")
                answer = call(_value_of(body))
            self._send(200, "application/json", json.dumps(answer).encode())

    def _check(self) -> dict[str, list[str]]:
        """The headers of a request that may be answered. Raises `Refusal`."""
        if self.request_version != "HTTP/1.1":
            raise Refusal(505, "HTTP/1.1 alone")
        headers: dict[str, list[str]] = {}
        for name, value in self.headers.items():
            headers.setdefault(name.lower(), []).append(value)
        check_site(headers, self.server.site.host)
        return headers

    def _refusing(self) -> "_Refusing":
        return _Refusing(self)

    def _send(self, status: int, kind: str, body: bytes) -> None:
        self.send_response(status)
        self.send_header("Content-Type", kind)
        self.send_header("Content-Length", str(len(body)))
        if self.close_connection:
            self.send_header("Connection", "close")
        self.end_headers()
        self.wfile.write(body)

    def refuse(self, refusal: Refusal) -> None:
        """Says why, and ends the connection, of which a body may wait to be read."""
        self.close_connection = True
        body = json.dumps({"refused": refusal.why}).encode()
        self._send(refusal.status, "application/json", body)
        self._drain()

    def _drain(self) -> None:
        """Reads what waits, so that the end of the connection doesn't overtake the answer."""
        with suppress(OSError):
            self.connection.shutdown(socket.SHUT_WR)
            self.connection.settimeout(DRAIN_SECONDS)
            self.connection.recv(2 * BODY_MAX)

    def handle_expect_100(self) -> bool:
        """No body is asked for before the request was looked at."""
        self.refuse(Refusal(417, "no expectations"))
        return False

    def end_headers(self) -> None:
        """The headers that each reply has, errors of the library too."""
        for name, value in HEADERS.items():
            self.send_header(name, value)
        super().end_headers()

    def version_string(self) -> str:
        """The name of the server, and of no version."""
        return "wumpus-web"

    def log_message(self, format: str, *args: object) -> None:
        """Nothing is logged."""


class _Refusing:
    """Answers a refusal, and trouble with the service."""

    def __init__(self, handler: Handler) -> None:
        self.handler = handler

    def __enter__(self) -> None:
        """Begins."""

    def __exit__(self, _kind: object, error: BaseException | None, _trace: object) -> bool:
        if isinstance(error, Refusal):
            self.handler.refuse(error)
        elif isinstance(error, Trouble):
            body = json.dumps({"trouble": str(error)}).encode()
            self.handler._send(200, "application/json", body)
        elif isinstance(error, (BrokenPipeError, ConnectionResetError, TimeoutError)):
            self.handler.close_connection = True
        else:
            return False
        return True


def _value_of(body: bytes) -> Value:
    try:
        value = json.loads(body)
    except ValueError as error:
        raise Refusal(400, "this isn't JSON") from error
    if not isinstance(value, dict):
        raise Refusal(400, "a call is an object")
    return value


class _Bounded(socketserver.ThreadingMixIn, socketserver.BaseServer):
    """Answers so many connections at once, each of the user who runs this."""

    daemon_threads = True
    owner: Owner
    site: Site

    def prepare(self, site: Site, owner: Owner) -> None:
        """Says what is served, and how the owner of a connection is found."""
        self.site = site
        self.owner = owner
        self.room = Semaphore(CONNECTIONS)

    def verify_request(self, request: Any, _address: Any) -> bool:
        """Whether the other end is the user's own; nothing was read of it."""
        return self.owner(request) == os.geteuid()

    def process_request(self, request: Any, address: Any) -> None:
        """Begins a thread for a connection, where there is room."""
        if self.room.acquire(blocking=False):
            super().process_request(request, address)
        else:
            self.shutdown_request(request)

    def process_request_thread(self, request: Any, address: Any) -> None:
        """Answers a connection."""
        try:
            super().process_request_thread(request, address)
        finally:
            self.room.release()

    def handle_error(self, _request: Any, _address: Any) -> None:
        """A browser that went away is no news."""


class PortServer(_Bounded, socketserver.TCPServer):
    """Serves at an address of this machine that nobody could have used before."""

    allow_reuse_address = False  # nor may anybody else have the port beside us
    allow_reuse_port = False
    request_queue_size = CONNECTIONS

    def __init__(self, site: Site) -> None:
        for _ in range(16):
            try:
                super().__init__((_random_address(), 0), Handler)
                break
            except OSError as error:
                if error.errno not in (errno.EADDRINUSE, errno.EADDRNOTAVAIL):
                    raise
        else:
            raise Trouble("no address of this machine is free")
        self.prepare(site, owner_of_peer)

    def place(self) -> str:
        """The address and the port."""
        address, port = self.socket.getsockname()
        return f"{address}:{port}"


def _random_address() -> str:
    """An address of 127/8, and not one that programs have by habit."""
    return ".".join(["127", *(str(1 + secrets.randbelow(254)) for _ in range(3))])


class SocketServer(_Bounded, socketserver.UnixStreamServer):
    """Serves at a socket in a folder of the user's own, to be reached over ssh."""

    request_queue_size = CONNECTIONS

    def __init__(self, site: Site, path: Path) -> None:
        check_private(path.parent)
        _remove_stale(path)
        super().__init__(str(path), Handler)
        self.path = path
        self.prepare(site, owner_of_unix_peer)

    def server_bind(self) -> None:
        """Makes the socket, for this user alone."""
        before = os.umask(0o177)
        try:
            super().server_bind()
        finally:
            os.umask(before)

    def server_close(self) -> None:
        """Removes the socket."""
        super().server_close()
        with suppress(OSError):
            self.path.unlink()


def check_private(folder: Path) -> None:
    """Raises `Trouble` where a folder isn't the user's alone."""
    try:
        status = os.lstat(folder)
    except OSError as error:
        raise Trouble(f"{folder}: {error.strerror}") from error
    is_own = stat.S_ISDIR(status.st_mode) and status.st_uid == os.geteuid()
    if not is_own or status.st_mode & 0o077:
        raise Trouble(f"{folder} isn't a folder of yours alone")


def _remove_stale(path: Path) -> None:
    """Removes a socket at which nothing listens any more."""
    with socket.socket(socket.AF_UNIX, socket.SOCK_STREAM) as other:
        try:
            other.connect(str(path))
        except FileNotFoundError:
            return
        except OSError:
            path.unlink()
            return
    raise Trouble(f"another wumpus-web serves at {path}")
