"""A server of workers for tests, as a user of its own, and what is made with it."""

import os
import signal
import socket
import subprocess
import sys
import time
from pathlib import Path

from harness import SERVICE

from wumpus.extract import system  # isort: skip
from wumpus.extract.client import Extractor  # isort: skip
from wumpus.extract.documents import Document  # isort: skip
from wumpus.extract.kinds import Table, table_of, BUILT_IN  # isort: skip
from wumpus.extract.texts import Failed, Made  # isort: skip

EXTRACT = 64510  # the user of the server
_FIRST_GIVEN = 3
PROGRAM = str(SERVICE / "wumpus-extract")


class Extracting:
    """A server on a socket in a folder, both root's, as systemd has it."""

    def __init__(self, folder: Path, *words: str) -> None:
        self.folder = folder
        self.path = folder / "socket"
        self.words = words
        self.table: Table = table_of(BUILT_IN)
        self.listen()
        self.process = 0
        self.told = folder / "told"
        self.start()

    def listen(self) -> None:
        """Makes the socket."""
        self.listener = socket.socket(socket.AF_UNIX, socket.SOCK_SEQPACKET)
        self.listener.bind(str(self.path))
        self.listener.listen()

    def start(self) -> None:
        """Starts the server."""
        errors = os.open(self.told, os.O_WRONLY | os.O_CREAT | os.O_TRUNC)
        self.process = os.fork()
        if self.process == 0:
            os.dup2(errors, 2)
            given = self.listener.fileno()
            if given != _FIRST_GIVEN:
                os.dup2(given, _FIRST_GIVEN)
            os.set_inheritable(_FIRST_GIVEN, True)
            os.setgroups([])
            os.setresgid(EXTRACT, EXTRACT, EXTRACT)
            os.setresuid(EXTRACT, EXTRACT, EXTRACT)
            system.die_with_parent(signal.SIGKILL)
            told = {"LISTEN_PID": str(os.getpid()), "LISTEN_FDS": "1"}
            os.execve(PROGRAM, [PROGRAM, *self.words], os.environ | told)
        os.close(errors)

    def extractor(self) -> Extractor:
        """A connection to it, as the mirror has one."""
        extractor = Extractor(self.table, self.path)
        until = time.monotonic() + 60
        while not extractor.reach() and time.monotonic() < until:
            time.sleep(0.1)
        return extractor

    def kill(self, number: signal.Signals = signal.SIGKILL) -> None:
        """Sends the server a signal."""
        os.kill(self.process, number)

    def end(self) -> None:
        """Ends it."""
        os.kill(self.process, signal.SIGCONT)
        os.kill(self.process, signal.SIGKILL)
        os.waitpid(self.process, 0)

    def close(self) -> None:
        """Ends it, and its socket."""
        self.end()
        self.listener.close()


def made(extractor: Extractor, name: str, data: bytes) -> Made | Failed:
    """What comes of a document with this name."""
    with Document.of(data) as document:
        return extractor.text_of(os.fsencode(name), document)


def text(extractor: Extractor, name: str, data: bytes) -> str:
    """The text of a document with this name, or why there is none, in brackets."""
    told = made(extractor, name, data)
    return f"[{told.reason.name}]" if isinstance(told, Failed) else told.text.decode("utf-8")


def has(program: str) -> bool:
    """Tells whether a program is there, and says so where it isn't."""
    found = subprocess.run(["which", program], capture_output=True).returncode == 0
    if not found:
        print(f"{Path(sys.argv[0]).stem}: without {program}: what needs it is left out")
    return found
