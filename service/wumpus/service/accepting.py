"""Takes connections at a socket, and asks the kernel who is at the other end of each."""

import selectors
import socket
from collections.abc import Callable
from contextlib import suppress

from ..shared.peers import Peer, peer_of, user_of

AT_ONCE = 16  # so that who connects without end holds up nobody


class Accepting:
    """A socket that listens. `take` is handed each connection, which doesn't wait, and its peer.

    Before that `refusal` says of the user, and of her alone, what she is told in place of being
    taken, or None: whoever connects again and again without end is to cost little.

    Where the system has no descriptor left, `spare` is to end a connection, and nothing is taken
    until `go_on` is called: the socket stays ready, and the loop would turn for nothing.
    """

    def __init__(
        self,
        listening: socket.socket,
        selector: selectors.BaseSelector,
        refusal: Callable[[int], bytes | None],
        take: Callable[[socket.socket, Peer], None],
        spare: Callable[[], None],
    ) -> None:
        self.listening = listening
        self.selector = selector
        self.refusal = refusal
        self.take = take
        self.spare = spare
        self.paused = True
        listening.setblocking(False)
        self.go_on()

    def go_on(self) -> None:
        """Takes connections again."""
        if self.paused:
            self.paused = False
            self.selector.register(self.listening, selectors.EVENT_READ, self._ready)

    def _ready(self, _: int) -> None:
        for _ in range(AT_ONCE):
            try:
                connection, _address = self.listening.accept()
            except (BlockingIOError, ConnectionAbortedError, InterruptedError):
                return
            except OSError:
                self.paused = True
                self.selector.unregister(self.listening)
                self.spare()
                return
            connection.setblocking(False)
            self._took(connection)

    def _took(self, connection: socket.socket) -> None:
        """Hands a connection on, or ends it."""
        try:
            refusal = self.refusal(user_of(connection))
            peer = peer_of(connection) if refusal is None else None
        except OSError:
            refusal, peer = b"", None
        if peer is not None:
            self.take(connection, peer)
            return
        with suppress(OSError):
            connection.send(refusal or b"")
        connection.close()
