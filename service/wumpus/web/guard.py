"""Whose a connection is, and which requests come from the page.

A port of this machine can be reached by each of its users, and by pages of other sites in her own
browser. So a connection is cut off before a byte of it is read, unless its other end is a socket of
the user who runs this, as the kernel tells it; and each call has to bring a token, which the page
was given for a ticket that is good once.
"""

import hmac
import secrets
import socket
import sys
from collections.abc import Callable, Mapping
from dataclasses import dataclass, field
from threading import Lock

from ..shared.peers import peer_of

CONNECTIONS = "/proc/net/tcp"
_ESTABLISHED = "01"
_STATE, _USER, _INODE = 3, 7, 9  # fields of a line there
_TOKEN_BYTES = 32

PROOF = b"wumpus-web is here: "

OWN_SITES = ("same-origin", "none")
JSON_TYPE = "application/json"


def _end(address: tuple[str, int]) -> str:
    """An address with its port as the kernel lists them."""
    number = int.from_bytes(socket.inet_aton(address[0]), sys.byteorder)
    return f"{number:08X}:{address[1]:04X}"


def owner_of_peer(connection: socket.socket) -> int | None:
    """The user whose socket is the other end of a connection on this machine; None if unknown.

    There is no `SO_PEERCRED` for TCP. A socket that waits for its end has no owner any more, and is
    listed as one of user 0: so only one that stands counts.
    """
    try:
        ends = [_end(connection.getpeername()), _end(connection.getsockname())]
        with open(CONNECTIONS, encoding="ascii") as listed:
            for line in listed:
                fields = line.split()
                if fields[1:3] == ends:
                    stands = fields[_STATE] == _ESTABLISHED and fields[_INODE] != "0"
                    return int(fields[_USER]) if stands else None
    except (OSError, ValueError, IndexError):
        pass
    return None


def owner_of_unix_peer(connection: socket.socket) -> int | None:
    """The user at the other end of a connection on a socket in a folder; None if unknown."""
    try:
        return peer_of(connection).user
    except OSError:
        return None


Owner = Callable[[socket.socket], int | None]


@dataclass
class Keys:
    """The ticket, which is good once, and the token that is given for it."""

    ticket: str = field(default_factory=lambda: secrets.token_urlsafe(_TOKEN_BYTES))
    token: str = field(default_factory=lambda: secrets.token_urlsafe(_TOKEN_BYTES))
    is_used: bool = False
    lock: Lock = field(default_factory=Lock)

    def token_for(self, ticket: str) -> str | None:
        """The token, the first time that the ticket comes."""
        with self.lock:
            if self.is_used or not _same(ticket, self.ticket):
                return None
            self.is_used = True
            return self.token

    def fits(self, token: str) -> bool:
        """Whether it is the token."""
        return _same(token, self.token)

    def proof_for(self, once: str) -> str:
        """What only the server that gave the token can answer: the page asks before it tells.

        When this server has ended another user may take its port, while the page is open.
        """
        said = PROOF + once.encode("utf-8", "surrogateescape")
        return hmac.digest(self.token.encode(), said, "sha256").hex()


def _same(one: str, other: str) -> bool:
    return secrets.compare_digest(one.encode("utf-8", "surrogateescape"), other.encode())


@dataclass(frozen=True)
class Refusal(Exception):
    """A request isn't answered: the status, and why."""

    status: int
    why: str


def check_site(headers: Mapping[str, list[str]], host: str) -> None:
    """Raises `Refusal` where a request is for another server, or comes from another site's page."""
    if headers.get("host") != [host]:
        raise Refusal(421, "this is another host")
    if not set(headers.get("sec-fetch-site", ())) <= set(OWN_SITES):
        raise Refusal(403, "this came from another site")


def check_call(headers: Mapping[str, list[str]], host: str) -> None:
    """Raises `Refusal` where a call can't be one of the page."""
    if headers.get("origin") != [f"http://{host}"]:
        raise Refusal(403, "this came from another origin")
    if headers.get("content-type") != [JSON_TYPE]:
        raise Refusal(415, "a call is JSON")


def length_of_body(headers: Mapping[str, list[str]], most: int) -> int:
    """How long a body is. Raises `Refusal` where that isn't plain, or it is too long."""
    if "transfer-encoding" in headers:
        raise Refusal(501, "no transfer encodings")
    lengths = headers.get("content-length", [])
    if len(lengths) != 1 or not lengths[0].isascii() or not lengths[0].isdigit():
        raise Refusal(411, "a call has one length")
    if len(lengths[0]) > 9 or int(lengths[0]) > most:
        raise Refusal(413, "the call is too long")
    return int(lengths[0])
