"""The server of `wumpus-watch`: it makes groups and marks, and reads no event and no file."""

import os
import select
import socket
import stat
from collections.abc import Callable

from ..shared.peers import user_of
from . import calls
from .packets import FILES_MAX, GROUP, MARK, MARK_ALL, OK, SIZE_MAX, failed

CLIENTS_MAX = 8
BAD_REQUEST = 22  # EINVAL
MASKS = {MARK: calls.LESS, MARK_ALL: calls.ALL}


class Server:
    """Serves the clients of a socket, until none asks for so many seconds; None: for ever."""

    def __init__(
        self, listener: socket.socket, owner: int, idle: float | None, tell: Callable[[str], None]
    ) -> None:
        self.listener = listener
        self.owners = {0, owner}
        self.idle = idle
        self.tell = tell
        self.clients: dict[int, socket.socket] = {}
        listener.setblocking(False)

    def serve(self) -> None:
        """Serves. Raises `OSError`."""
        wait = None if self.idle is None else self.idle * 1000
        while True:
            poller = select.poll()
            poller.register(self.listener, select.POLLIN)
            for number in self.clients:
                poller.register(number, select.POLLIN)
            ready = [number for number, _ in poller.poll(wait)]
            if not ready:
                return
            for number in ready:
                if number in self.clients:
                    self._hear(self.clients[number])
                else:
                    self._accept()

    def _accept(self) -> None:
        """Takes a client, who has to be the socket's owner or user 0."""
        try:
            client, _ = self.listener.accept()
        except OSError:
            return
        if user_of(client) not in self.owners or len(self.clients) >= CLIENTS_MAX:
            client.close()
            return
        client.setblocking(False)
        self.clients[client.fileno()] = client

    def _hear(self, client: socket.socket) -> None:
        """Does what a client asks for, or ends the connection."""
        files: list[int] = []
        try:
            flags = socket.MSG_CMSG_CLOEXEC
            asked, files, _, _ = socket.recv_fds(client, SIZE_MAX, FILES_MAX, flags)
            if asked:
                self._answer(client, asked, files)
                return
        except OSError:
            pass
        finally:
            for file in files:
                os.close(file)
        del self.clients[client.fileno()]
        client.close()

    def _answer(self, client: socket.socket, asked: bytes, files: list[int]) -> None:
        """Answers a request. Raises `OSError` where it can't be sent."""
        made: int | None = None
        try:
            if asked == GROUP and not files:
                made = calls.new_group()
            elif asked in MASKS and len(files) == 2 and _is_directory(files[1]):
                calls.mark_file_system(files[0], files[1], MASKS[asked])
            else:
                client.send(failed(BAD_REQUEST))
                return
        except OSError as error:
            client.send(failed(error.errno))
            return
        try:
            socket.send_fds(client, [OK], [] if made is None else [made])
        finally:
            if made is not None:
                os.close(made)


def _is_directory(descriptor: int) -> bool:
    return stat.S_ISDIR(os.fstat(descriptor).st_mode)
