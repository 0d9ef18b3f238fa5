"""A connection to the service, on which queries are asked one after the other."""

import socket
import struct
from collections.abc import Iterator, Sequence
from contextlib import suppress
from itertools import islice
from pathlib import Path

from ..shared.queries import QUERY_MAX
from ..shared.script import BadReply, lines_after, spell, unescape

SECONDS = 60.0
AHEAD = 32  # queries that are sent before their answers are read

REFUSALS = {
    b"syntax": "the service didn't understand the query",
    b"longline": "the query is too long",
    b"notexpr": "this isn't an expression: see wumpus-ask(1)",
    b"toolarge": "the expression has more than 63 operators or 64 parentheses",
    b"noword": "there is no word in it: a word is of letters and digits",
    b"badwindow": "a window is [1] to [65535]",
    b"manywords": "there are more than 64 words",
    b"badprefix": "a prefix is empty, or letters and digits alone",
    b"notready": "the service has just begun, and is still looking at the files: ask again soon",
    b"stale": "the service hasn't looked at the files for too long, so it answers nothing: tell "
    "the administrator",
    b"notallowed": "you aren't among those who may search here",
    b"tooslow": "this took too long, or a search of yours did before: wait, and ask for less",
    b"toolargereply": "there are too many results: ask for fewer with -n",
    b"stopped": "the search was ended in its midst: ask again",
    b"nobody": "your number is that of nobody (65534), for whom nothing is searched",
    b"groups": "you are in more groups than the service can tell the program",
    b"connections": "there are too many connections: ask again soon",
    b"notquery": "the service didn't take this for a query",
}


class Trouble(Exception):
    """Nothing was found out; the text says why."""


class Refused(Trouble):
    """The service refused a query, by this word."""

    def __init__(self, word: bytes) -> None:
        super().__init__(REFUSALS.get(word, f"refused: {word.decode('utf-8', 'replace')}"))
        self.word = word


Reply = list[list[bytes]]  # the lines, as fields
Term = tuple[bytes, int]  # a word, and in how many files it is


class Asking:
    """A connection to the service."""

    def __init__(self, path: Path) -> None:
        self.socket = socket.socket(socket.AF_UNIX, socket.SOCK_STREAM)
        try:
            self._connect(path)
        except Trouble:
            self.socket.close()
            raise
        self.answers = self.socket.makefile("rb")

    def _connect(self, path: Path) -> None:
        """Connects, and waits where so many do that the service hasn't taken yet.

        The kernel waits for that, and not where the socket has a timeout of Python's. Raises
        `Trouble`.
        """
        limit = struct.pack("@ll", *divmod(int(SECONDS * 1_000_000), 1_000_000))
        self.socket.setsockopt(socket.SOL_SOCKET, socket.SO_SNDTIMEO, limit)
        try:
            self.socket.connect(str(path))
        except (FileNotFoundError, ConnectionRefusedError) as error:
            raise Trouble(f"no service answers at {path}: is wumpusd running?") from error
        except BlockingIOError as error:
            told = f"the service took no connection for {SECONDS:.0f} s: too many ask, or it hangs"
            raise Trouble(told) from error
        except OSError as error:
            raise Trouble(f"{path}: {error.strerror}") from error
        self.socket.settimeout(SECONDS)

    def close(self) -> None:
        """Ends the connection."""
        self.answers.close()
        self.socket.close()

    def ask(self, *fields: bytes | int) -> Reply:
        """The lines of a reply. Raises `Refused`, and `Trouble`."""
        return next(self.ask_all([fields]))

    def ask_all(self, queries: Sequence[Sequence[bytes | int]]) -> Iterator[Reply]:
        """The replies to some queries, which are sent some at a time. Raises as `ask`."""
        for start in range(0, len(queries), AHEAD):
            some = queries[start : start + AHEAD]
            self._send([spell(*fields) for fields in some])
            # All of them are read first, so that the next query gets its own reply in any case.
            replies = [self._reply() for _ in some]
            for reply in replies:
                if reply[0][0] == b"refused":
                    raise Refused(reply[0][-1])
                yield reply

    def terms(self, prefixes: Sequence[bytes], most: int) -> Iterator[tuple[int, list[Term]]]:
        """For each prefix how many of her words begin with it, and the first of them."""
        queries: list[Sequence[bytes | int]] = [(b"terms", most, one) for one in prefixes]
        for first, *words in self.ask_all(queries):
            yield int(first[1]), [(word, int(files)) for word, files in words]

    def _send(self, lines: list[bytes]) -> None:
        if any(len(line) > QUERY_MAX for line in lines):
            raise Trouble("the query is too long")
        # A service that refuses the connection says why and closes it, maybe before the query is
        # sent.
        with suppress(BrokenPipeError, ConnectionResetError):
            try:
                self.socket.sendall(b"".join(lines))
            except TimeoutError as error:
                raise Trouble(f"the service: {error}") from error

    def _reply(self) -> Reply:
        try:
            lines = self._lines(1)
            lines += self._lines(lines_after(lines[0]))
        except (OSError, BadReply) as error:
            raise Trouble(f"the service: {error}") from error
        return [_fields_of(line) for line in lines]

    def _lines(self, count: int) -> list[bytes]:
        """So many lines of replies, without their LFs."""
        lines = list(islice(self.answers, count))
        if len(lines) < count or not all(line.endswith(b"\n") for line in lines[-1:]):
            raise Trouble("the service ended the connection")
        return [line[:-1] for line in lines]


def _fields_of(line: bytes) -> list[bytes]:
    if b"\\" not in line:
        return line.split(b"\t")
    return [unescape(field) or b"" for field in line.split(b"\t")]
