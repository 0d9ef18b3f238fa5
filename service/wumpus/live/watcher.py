"""The mirror's side of `wumpus-watch`, which has the right that the mirror lacks."""

import os
import socket
from collections.abc import Sequence
from pathlib import Path

from ..shared.peers import user_of
from .packets import GROUP, MARK, MARK_ALL, SIZE_MAX, error_in

SECONDS = 5.0  # for an answer


class NoWatch(Exception):
    """It doesn't answer, or not as it should."""


class Watcher:
    """Asks for groups and marks, each on a connection of its own: it may be begun anew meanwhile.

    Each raises `NoWatch`, and `OSError` where it answers that the kernel refuses.
    """

    def __init__(self, path: Path) -> None:
        self.path = path

    def group(self) -> int:
        """A descriptor from which events can be read."""
        files = self._ask(GROUP, [])
        if len(files) != 1:
            raise NoWatch(f"{self.path}: no group came")
        os.set_inheritable(files[0], False)
        return files[0]

    def mark(self, group: int, directory: int, is_full: bool) -> None:
        """Has a directory's file system marked, for all changes or for what becomes less.

        The directory has to be open for reading.
        """
        for file in self._ask(MARK_ALL if is_full else MARK, [group, directory]):
            os.close(file)

    def _ask(self, what: bytes, files: Sequence[int]) -> list[int]:
        """The descriptors that come with the answer."""
        try:
            answer, came = self._answer(what, files)
        except OSError as error:
            raise NoWatch(f"{self.path}: {error.strerror or error}") from error
        failed = error_in(answer)
        if failed == 0:
            return came
        for file in came:
            os.close(file)
        if failed is None:
            raise NoWatch(f"{self.path}: no answer that is known")
        raise OSError(failed, os.strerror(failed))

    def _answer(self, what: bytes, files: Sequence[int]) -> tuple[bytes, list[int]]:
        with socket.socket(socket.AF_UNIX, socket.SOCK_SEQPACKET) as connection:
            connection.settimeout(SECONDS)
            connection.connect(str(self.path))
            if user_of(connection) not in (0, os.geteuid()):
                raise OSError("it is somebody else's")
            socket.send_fds(connection, [what], files)
            answer, came, _, _ = socket.recv_fds(connection, SIZE_MAX, 1)
            return answer, came
