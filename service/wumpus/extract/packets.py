"""What the mirror and the server of workers say to each other, in packets.

The server begins: a line with its own name and version, and one for each kind that it makes, with
its name, `code` or `program`, and a fingerprint. Another one means that texts may come out
different. A request has the place of a kind in that list, what the worker may take, and a tag; with
it come the descriptors of a sealed document and of a pipe. The answer has the tag, and how the
worker ended.
"""

import struct
from dataclasses import dataclass

from .reasons import Ended, Way
from .walls import Allowance

SOCKET = "/run/wumpus-extract/socket"
GREETING = "wumpus-extract 1"
GREETING_MAX = 1 << 14
_REQUEST = struct.Struct("!HHII")
_ANSWER = struct.Struct("!IHHQQ")
REQUEST_SIZE = _REQUEST.size
ANSWER_SIZE = _ANSWER.size
SECONDS_MAX = 600
MEMORY_MIN, MEMORY_MAX = 64, 4096  # MiB


class BadPacket(Exception):
    """The other side said what isn't understood."""


@dataclass(frozen=True)
class Offer:
    """A kind that a server makes."""

    name: str
    is_program: bool
    fingerprint: str


@dataclass(frozen=True)
class Request:
    """A worker is wanted."""

    place: int
    allowed: Allowance
    tag: int

    def packed(self) -> bytes:
        """The packet."""
        return _REQUEST.pack(self.place, self.allowed.seconds, self.allowed.memory, self.tag)


def request_of(packet: bytes) -> Request:
    """The request of a packet. Raises `BadPacket`."""
    if len(packet) != REQUEST_SIZE:
        raise BadPacket
    place, seconds, memory, tag = _REQUEST.unpack(packet)
    if not 1 <= seconds <= SECONDS_MAX or not MEMORY_MIN <= memory <= MEMORY_MAX:
        raise BadPacket
    return Request(place, Allowance(seconds, memory), tag)


def answer(tag: int, ended: Ended) -> bytes:
    """The packet that tells how a worker ended."""
    microseconds = round(ended.seconds * 1_000_000)
    return _ANSWER.pack(tag, ended.way.value, ended.number, microseconds, ended.peak)


def answer_of(packet: bytes) -> tuple[int, Ended]:
    """The tag of an answer, and how the worker ended. Raises `BadPacket`."""
    if len(packet) != ANSWER_SIZE:
        raise BadPacket
    tag, way, number, microseconds, peak = _ANSWER.unpack(packet)
    try:
        return tag, Ended(Way(way), number, microseconds / 1_000_000, peak)
    except ValueError as error:
        raise BadPacket from error


def greeting(offers: list[Offer]) -> bytes:
    """The packet with which a server begins."""
    lines = [
        f"{one.name} {'program' if one.is_program else 'code'} {one.fingerprint}" for one in offers
    ]
    return "\n".join([GREETING, *lines]).encode("ascii")


def offers_of(packet: bytes) -> list[Offer]:
    """What a server offers. Raises `BadPacket`."""
    try:
        first, *lines = packet.decode("ascii").split("\n")
        offers = [Offer(name, how == "program", told) for name, how, told in map(str.split, lines)]
    except ValueError as error:
        raise BadPacket from error
    if first != GREETING:
        raise BadPacket
    return offers
