"""The server of workers: it forks one for each document that it is handed, and reads none.

It has one thread and one worker at a time, so that there is no other worker to be touched. It
closes a document's descriptors as soon as the worker has them.
"""

import os
import select
import signal
import socket
import stat
import time
from dataclasses import dataclass

from .documents import is_sealed
from .own import ended_of
from .packets import REQUEST_SIZE, BadPacket, Offer, Request, answer, greeting, request_of
from .reasons import CRASHES, Ended, Way
from .worker import Task, begin

CLIENTS_MAX = 16
# Forks of one process have the same addresses, which crash after crash could guess.
FORKS_MAX = 2000
CRASHED_SECONDS = 10.0  # at least between two beginnings for a crash


class Renew(Exception):
    """It is time to begin anew."""


@dataclass
class Working:
    """The worker there is, and for whom."""

    process: int
    watched: int
    client: int
    tag: int
    late: float

    def end(self) -> Ended:
        """How it ended: it is killed where it hasn't yet."""
        is_late = time.monotonic() >= self.late
        signal.pidfd_send_signal(self.watched, signal.SIGKILL)
        ended = ended_of(self.process)
        os.close(self.watched)
        if is_late and ended.way is Way.SIGNAL and ended.number == signal.SIGKILL:
            return Ended(Way.LATE, 0, ended.seconds, ended.peak)
        return ended


class Server:
    """Serves the clients of a socket."""

    def __init__(
        self, listener: socket.socket, tasks: dict[str, Task], offers: dict[str, Offer]
    ) -> None:
        self.listener = listener
        self.tasks = [tasks[name] for name in offers]
        self.greeting = greeting(list(offers.values()))
        self.clients: dict[int, socket.socket] = {}
        self.working: Working | None = None
        self.nowhere = os.open(os.devnull, os.O_RDWR | os.O_CLOEXEC)
        self.began = time.monotonic()
        self.forks = 0
        self.has_crashed = False
        listener.setblocking(False)

    def serve(self) -> None:
        """Serves for ever. Raises `Renew`."""
        while True:
            if self.working is None:
                self._renew()
            self._turn()

    def _renew(self) -> None:
        """Raises `Renew` where that is due."""
        is_old = time.monotonic() - self.began >= CRASHED_SECONDS
        if self.forks >= FORKS_MAX or (self.has_crashed and is_old):
            raise Renew

    def _turn(self) -> None:
        """Waits until something happens, and does what is due then."""
        poller = select.poll()
        if len(self.clients) < CLIENTS_MAX:
            poller.register(self.listener, select.POLLIN)
        working = self.working
        for number in self.clients:
            # While there is a worker nobody is listened to, but its client may go away.
            poller.register(number, select.POLLIN if working is None else 0)
        wait = None
        if working is not None:
            poller.register(working.watched, select.POLLIN)
            wait = max(0.0, working.late - time.monotonic()) * 1000
        ready = dict(poller.poll(wait))
        if self.listener.fileno() in ready:
            self._accept()
        if working is not None:
            self._watch(working, ready)
            return
        for number in ready:
            if number in self.clients and self._hear(number):
                return

    def _accept(self) -> None:
        try:
            client, _ = self.listener.accept()
        except OSError:
            return
        client.setblocking(False)
        self.clients[client.fileno()] = client
        self._say(client.fileno(), self.greeting)

    def _watch(self, working: Working, ready: dict[int, int]) -> None:
        """Looks whether the worker ended, is late, or is wanted by nobody."""
        for number in ready.keys() & self.clients.keys():
            self._leave(number)
        is_late = time.monotonic() >= working.late
        if working.watched in ready or is_late or working.client not in self.clients:
            ended = working.end()
            self.working = None
            self.has_crashed |= ended.way is Way.SIGNAL and ended.number in CRASHES
            self._say(working.client, answer(working.tag, ended))

    def _hear(self, number: int) -> bool:
        """Takes the next request of a client: whether it has begun a worker."""
        client = self.clients[number]
        descriptors: list[int] = []
        try:
            flags = socket.MSG_CMSG_CLOEXEC | socket.MSG_DONTWAIT
            packet, descriptors, _, _ = socket.recv_fds(client, REQUEST_SIZE + 1, 2, flags)
            request = self._checked(packet, descriptors)
            return self._begin(number, request, descriptors)
        except (OSError, BadPacket):
            self._leave(number)
            return False
        finally:
            for one in descriptors:
                os.close(one)

    def _checked(self, packet: bytes, descriptors: list[int]) -> Request:
        """The request of a packet with its descriptors. Raises `BadPacket`."""
        request = request_of(packet)
        if request.place >= len(self.tasks) or len(descriptors) != 2:
            raise BadPacket
        document, output = descriptors
        if not is_sealed(document) or not stat.S_ISFIFO(os.fstat(output).st_mode):
            raise BadPacket
        return request

    def _begin(self, client: int, request: Request, descriptors: list[int]) -> bool:
        """Forks a worker, or says that there is no process for it."""
        task = self.tasks[request.place]
        document, output = descriptors
        try:
            process = begin(task, (document, output, self.nowhere), request.allowed)
        except OSError:
            self._say(client, answer(request.tag, Ended(Way.NO_PROCESS)))
            return False
        self.forks += 1
        late = time.monotonic() + request.allowed.patience
        watched = os.pidfd_open(process)
        self.working = Working(process, watched, client, request.tag, late)
        return True

    def _say(self, number: int, packet: bytes) -> None:
        """Sends a packet to a client, or parts with one that doesn't take it."""
        client = self.clients.get(number)
        if client is None:
            return
        try:
            client.send(packet, socket.MSG_DONTWAIT | socket.MSG_NOSIGNAL)
        except OSError:
            self._leave(number)

    def _leave(self, number: int) -> None:
        """Parts with a client."""
        client = self.clients.pop(number, None)
        if client is not None:
            client.close()
