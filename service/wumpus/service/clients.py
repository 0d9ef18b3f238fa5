"""The connections of users: what came, what waits, and the limits on both.

A client has one query under way at a time, and is read from only while none of hers is asked or
waits to be sent. What she sends is bounded by a line, and what waits for her by a reply.
"""

import collections
import selectors
import socket
import time
from collections.abc import Callable
from dataclasses import dataclass, field

from ..shared import queries
from ..shared.clock import moment
from ..shared.peers import NOBODY, Peer
from ..shared.program import PIECE
from ..shared.script import spell_user
from .accepting import Accepting
from .allowed import Allowed


@dataclass(frozen=True)
class Bounds:
    """What a client may take. Times are in seconds, sizes in bytes."""

    connections: int = 512
    connections_of_user: int = 16
    reply: int = 16 << 20
    waiting: int = 64 << 20  # of all replies that clients haven't read
    query_seconds: float = 2.0  # of the processor; by the clock twice as many
    batch_seconds: float = 3600.0
    idle_seconds: float = 60.0
    age_seconds: float = 600.0
    stale_seconds: float = 900.0  # since a walk began; 0: never
    silent_seconds: float = 30.0  # since the moment that a live mirror told; 0: never
    faults: int = 16  # lines of one connection that weren't asked


@dataclass(slots=True)
class Client:
    """A connection of a user, with what it sent and what waits to be sent to it."""

    socket: socket.socket
    peer: Peer
    person: int  # the account that its user counts as
    since: int  # milliseconds since the machine began
    moved: float  # when a byte came or went
    received: bytearray = field(default_factory=bytearray)
    sending: bytearray = field(default_factory=bytearray)
    faults: int = 0  # lines that weren't asked
    asking: bool = False
    ending: bool = False
    ended: bool = False


@dataclass(slots=True)
class Query:
    """A line on its way to the program, and its client."""

    client: Client
    line: bytes
    since: float

    @property
    def person(self) -> int:
        """The account that pays for it."""
        return self.client.person

    @property
    def user(self) -> int:
        """The user as whom it is asked."""
        return self.client.peer.user


class Clients:
    """All of them. `put` takes each query; `answer` gives its reply.

    `refusal` says why no query of a person is to be asked, and `person` whose a number is.
    """

    def __init__(
        self,
        listening: socket.socket,
        selector: selectors.BaseSelector,
        bounds: Bounds,
        allowed: Allowed,
        person: Callable[[int], int],
        refusal: Callable[[int], bytes],
        put: Callable[[Query], None],
    ) -> None:
        self.selector = selector
        self.bounds = bounds
        self.allowed = allowed
        self.person = person
        self.refusal = refusal
        self.put = put
        self.all: dict[int, Client] = {}
        self.of_person: collections.Counter[int] = collections.Counter()
        self.refused: collections.Counter[str] = collections.Counter()  # by the word
        self.answered = 0
        self.accepting = Accepting(listening, selector, self._refusal_of, self._take, self._spare)

    def _refusal_of(self, user: int) -> bytes | None:
        """Why nothing is answered on a new connection of a user; None where something is."""
        person = self.person(user)
        refusal = None
        if user == NOBODY:
            refusal = queries.NOBODY
        elif not self.allowed.allows(user):
            refusal = queries.NOT_ALLOWED
        elif self.of_person[person] >= self.bounds.connections_of_user:
            refusal = queries.TOO_MANY
        elif len(self.all) >= self.bounds.connections:
            self._make_room(person)
            if len(self.all) >= self.bounds.connections:
                refusal = queries.TOO_MANY
        if refusal is not None:
            self._count(refusal)
        return refusal

    def _take(self, connection: socket.socket, peer: Peer) -> None:
        person = self.person(peer.user)
        client = Client(connection, peer, person, moment(), time.monotonic())
        self.all[connection.fileno()] = client
        self.of_person[person] += 1
        if spell_user(peer.user, peer.groups) is None:
            client.ending = True
            self._say(client, queries.MANY_GROUPS)
        self._go_on(client)

    def _make_room(self, person: int) -> None:
        """Ends a connection of who has most of them, for one more of a person who has fewer."""
        most = max(self.of_person.values(), default=0)
        if self.of_person[person] < most:
            self._end_one_of({one for one, count in self.of_person.items() if count == most})

    def _spare(self) -> None:
        """Ends a connection where the system has no descriptor left."""
        self._make_room(-1)

    def _end_one_of(self, persons: set[int]) -> None:
        """Ends one connection of these persons: a silent one, of them the oldest."""
        theirs = [one for one in self.all.values() if one.person in persons]
        self.close(min(theirs, key=lambda one: (one.asking, one.since)))

    def _ready(self, descriptor: int) -> None:
        client = self.all.get(descriptor)
        if client is None:
            return
        if not client.sending and not client.asking and not client.ending:
            self._receive(client)
        if not client.ended:
            self._go_on(client)

    def _receive(self, client: Client) -> None:
        """Takes what a client sent, at most 64 KiB of it."""
        try:
            data = client.socket.recv(PIECE)
        except BlockingIOError:
            return
        except OSError:
            data = b""
        if not data:
            self.close(client)
            return
        client.moved = time.monotonic()
        client.received += data

    def is_old(self, client: Client) -> bool:
        """Whether what is known of a client's groups is too long ago."""
        return moment() - client.since > self.bounds.age_seconds * 1000

    def _go_on(self, client: Client) -> None:
        """Sends what waits, and then takes the next query that came whole; one at a time.

        One that is too old has no next query, also where it always has one ready.
        """
        self._flush(client)
        while not (client.asking or client.sending or client.ending or client.ended):
            if self.is_old(client):
                self.close(client)
                return
            line, found, rest = client.received.partition(b"\n")
            if len(line) > queries.QUERY_MAX:
                client.ending = True
                self._say(client, queries.LONG_LINE)
            elif not found:
                break
            else:
                client.received = rest
                self._queue(client, bytes(line))
            self._flush(client)
        self._watch(client)

    def _queue(self, client: Client, asked: bytes) -> None:
        """Queues a query, or says why not; after some refusals the connection ends."""
        line = queries.line_for(client.peer.user, asked)
        refusal = queries.NOT_A_QUERY if line is None else self.refusal(client.person)
        if line is not None and not refusal:
            client.asking = True
            self.put(Query(client, line, time.monotonic()))
            return
        client.faults += 1
        client.ending = client.faults >= self.bounds.faults
        self._say(client, refusal)

    def _say(self, client: Client, refusal: bytes) -> None:
        """Sends one of the service's own refusals."""
        client.sending += refusal
        self._count(refusal)

    def _count(self, reply: bytes) -> None:
        """Counts a reply by its kind."""
        if reply.startswith(b"refused\t"):
            self.refused[reply[8:40].partition(b"\n")[0].decode("ascii", "replace")] += 1
        else:
            self.answered += 1

    def answer(self, client: Client, reply: bytes) -> None:
        """Sends a client its reply, and then takes its next query."""
        client.asking = False
        if client.ended:
            return
        self._count(reply)
        client.sending += reply
        client.moved = time.monotonic()
        self._go_on(client)
        if client.sending:
            self._bound_waiting()

    def _bound_waiting(self) -> None:
        """Where too much waits to be read, the person who reads least loses her largest reply."""
        waiting: collections.Counter[int] = collections.Counter()
        for one in self.all.values():
            waiting[one.person] += len(one.sending)
        if waiting.total() > self.bounds.waiting:
            person, _ = waiting.most_common(1)[0]
            theirs = [one for one in self.all.values() if one.person == person]
            self.close(max(theirs, key=lambda one: len(one.sending)))

    def _flush(self, client: Client) -> None:
        """Sends what the connection takes."""
        while client.sending and not client.ended:
            try:
                count = client.socket.send(client.sending[:PIECE])
            except BlockingIOError:
                return
            except OSError:
                self.close(client)
                return
            del client.sending[:count]
            client.moved = time.monotonic()
        if client.ending and not client.sending:
            self.close(client)

    def _watch(self, client: Client) -> None:
        """Waits for what can go on: reading where nothing is asked, writing where there is."""
        if client.ended:
            return
        events = selectors.EVENT_WRITE if client.sending else selectors.EVENT_READ
        descriptor = client.socket.fileno()
        registered = descriptor in self.selector.get_map()
        if client.asking and not client.sending:
            if registered:
                self.selector.unregister(client.socket)
        elif registered:
            self.selector.modify(client.socket, events, self._ready)
        else:
            self.selector.register(client.socket, events, self._ready)

    def close(self, client: Client) -> None:
        """Ends a connection."""
        if client.ended:
            return
        client.ended = True
        descriptor = client.socket.fileno()
        if descriptor in self.selector.get_map():
            self.selector.unregister(client.socket)
        del self.all[descriptor]
        self.of_person[client.person] -= 1
        if not self.of_person[client.person]:
            del self.of_person[client.person]
        client.socket.close()

    def look_at_clock(self) -> None:
        """Ends the connections that are silent, or too old, and takes new ones again."""
        now = time.monotonic()
        for client in list(self.all.values()):
            idle = now - client.moved > self.bounds.idle_seconds and not client.asking
            if idle or (self.is_old(client) and not client.asking):
                self.close(client)
        self.accepting.go_on()

    def end(self) -> None:
        """Ends all connections."""
        for client in list(self.all.values()):
            self.close(client)
