"""A session: the lines of the input, one after the other, and their replies.

Tests make it misbehave. A word of a query may be `standinburnN`, which takes N tenths of a second
of a processor, `standintakeN`, which takes N MiB of memory, or `standindieN`, which ends the
session with status N. In the environment `STAND_IN_MEMORY` is how many bytes of texts a session
takes between two saves: it is out of memory beyond them.
"""

import os
import re
import sys
import time
from collections.abc import Callable, Sequence
from typing import Any

from . import answers, regions, script
from .nodes import Node, Refused, Tree
from .script import NUMBER_MAX, SHOWN_MAX, BadSyntax, Input, TooLong, number, spell
from .store import Failed, Store
from .words import RUN, word_of, words_of

DONE, USAGE, READING, WRITING, MEMORY, TOO_LONG, STORE = 0, 1, 2, 3, 4, 5, 6
SAID = {
    USAGE: "usage: wumpus run [--max-input=N] [--flush=N]",
    READING: "cannot read the input",
    WRITING: "cannot write the output",
    MEMORY: "no memory",
    TOO_LONG: "input too long",
    STORE: "store failed",
}
WORDS_OF_RANKING = 64
HELD = 1 << 16  # bytes of replies that wait until more is read
_MAGIC = re.compile(rb"standin(burn|take|die)([0-9]{1,5})")

_ID = number(0, NUMBER_MAX)
_NODE = number(1, NUMBER_MAX)
_SHOWN = number(0, SHOWN_MAX)
_FIELDS: dict[bytes, Sequence[Callable[[bytes], Any]]] = {
    b"mkdir": (_NODE, _NODE, script.any_bytes, _ID, _ID, script.mode),
    b"create": (_NODE, _NODE, script.any_bytes, _ID, _ID, script.mode),
    b"text": (_NODE, number(0, script.LENGTH_MAX)),
    b"link": (_NODE, _NODE, script.any_bytes),
    b"unlink": (_NODE, script.any_bytes),
    b"rmdir": (_NODE, script.any_bytes),
    b"rename": (_NODE, script.any_bytes, _NODE, script.any_bytes),
    b"chmod": (_NODE, script.mode),
    b"chown": (_NODE, _ID, _ID),
    b"acl": (_NODE, script.entries),
    b"count": (_ID, script.any_bytes),
    b"find": (_ID, _SHOWN, script.any_bytes),
    b"rank": (_ID, _SHOWN, script.any_bytes, script.any_bytes),
    b"weighed": (_ID, _SHOWN, script.any_bytes, script.any_bytes),
    b"paths": (_ID,),
    b"terms": (_ID, _SHOWN, script.any_bytes),
    b"top": (_ID, _SHOWN, script.any_bytes),
    b"save": (),
    b"flush": (),
    b"work": (number(1, script.WORK_MAX),),
    b"stat": (),
}
_QUERIES = frozenset((b"count", b"find", b"rank", b"weighed", b"paths", b"terms", b"top"))
_OK: list[answers.Row] = [(b"ok",)]


class NoOutput(Exception):
    """The output can't be written."""


class Session:
    """The state between two lines."""

    def __init__(self, store: Store, most: int) -> None:
        self.store = store
        self.tree: Tree = store.load()
        self.texts: dict[int, answers.Text] = {}
        self.files: dict[int, list[answers.File]] = {}  # by user, until the next event
        self.input = Input(self.flush_replies, most)
        self.replies = bytearray()
        self.left_to_merge = 0  # units of background work
        self.fresh = 0  # bytes of texts since the last save
        self.room = int(os.environ.get("STAND_IN_MEMORY", sys.maxsize))

    def run(self) -> None:
        """Answers line by line, and saves at the end."""
        while (line := self.input.line()) is not None:
            if len(line) > script.LINE_MAX:
                self._reply([(b"refused", b"longline")])
            elif line and not line.startswith(b"#"):
                self._reply(self._answer(line))
        self.flush_replies()
        self.store.save(self.tree)

    def _reply(self, rows: list[answers.Row]) -> None:
        for row in rows:
            self.replies += spell(row)
        if len(self.replies) > HELD:
            self.flush_replies()

    def flush_replies(self) -> None:
        """Writes the replies that wait. Raises `NoOutput`."""
        try:
            while self.replies:
                del self.replies[: os.write(1, self.replies)]
        except OSError as error:
            raise NoOutput from error

    def _answer(self, line: bytes) -> list[answers.Row]:
        """The reply to a line."""
        try:
            name, *fields = script.fields_of(line)
            if name == b"user" and fields:
                values: list[Any] = [_ID(one) for one in fields]
            elif name not in _FIELDS or len(fields) != len(_FIELDS[name]):
                raise BadSyntax
            else:
                values = [read(one) for read, one in zip(_FIELDS[name], fields, strict=True)]
            return self._do(name, values)
        except BadSyntax:
            return [(b"refused", b"syntax")]
        except (Refused, regions.Refused) as refused:
            return [(b"refused", str(refused).encode())]

    def _do(self, name: bytes, values: list[Any]) -> list[answers.Row]:
        if name in _QUERIES:
            return self._query(name, *values)
        if name in (b"save", b"flush", b"work", b"stat"):
            rows: list[answers.Row] = getattr(self, name.decode())(*values)
            return rows
        if name == b"text":
            self._text(*values)
        elif name in (b"mkdir", b"create"):
            ino, parent, called, owner, group, mode = values
            names: dict[bytes, int] | None = {} if name == b"mkdir" else None
            self.tree.make(ino, parent, called, Node(owner, group, mode, names))
        elif name == b"user":
            self.tree.user(values[0], values[1:])
        elif name == b"acl":
            self.tree.acl(values[0], *values[1])
        else:
            getattr(self.tree, name.decode())(*values)
        self.files.clear()
        return _OK

    def _text(self, ino: int, size: int) -> None:
        body = self.input.body(size)
        if isinstance(body, str):
            raise Refused(body)
        node = self.tree.node(ino)
        if node.names is not None:
            raise Refused("kind")
        self.fresh += len(body)
        if self.fresh > self.room:
            raise MemoryError
        node.text = self.store.put(body)
        self.left_to_merge += len(self._text_of(node.text).tokens.words)

    def _text_of(self, number: int) -> answers.Text:
        if number not in self.texts:
            self.texts[number] = answers.Text(lambda: self.store.get(number))
        return self.texts[number]

    # ---- the index

    def flush(self) -> list[answers.Row]:
        """Nothing is in memory alone."""
        return _OK

    def save(self) -> list[answers.Row]:
        """Saves everything."""
        self.store.save(self.tree)
        used = {node.text for node in self.tree.nodes.values()}
        self.texts = {number: text for number, text in self.texts.items() if number in used}
        self.fresh = 0
        return _OK

    def work(self, units: int) -> list[answers.Row]:
        """A unit for each word of the texts that came, once."""
        self.left_to_merge = max(0, self.left_to_merge - units)
        return [(b"busy",)] if self.left_to_merge else [(b"idle",)]

    def stat(self) -> list[answers.Row]:
        """The index as it is where nothing is left to do."""
        files = [node for node in self.tree.nodes.values() if node.names is None]
        live = sum(self._text_of(node.text).tokens.count for node in files)
        return [(b"stat", len(files), live, live, 1 if files else 0)]

    # ---- queries

    def _query(self, name: bytes, user: int, *values: Any) -> list[answers.Row]:
        asked = b" ".join(one for one in values if isinstance(one, bytes))
        more: list[Any] = [one for one in values if isinstance(one, int)]
        if name in (b"count", b"find", b"rank", b"weighed"):
            more.append(regions.expression_of(values[-2 if name in (b"rank", b"weighed") else -1]))
        if name in (b"rank", b"weighed"):
            more.append(_words(values[-1]))
        if name in (b"terms", b"top"):
            more.append(_front(values[-1]))
        for kind, amount in _MAGIC.findall(asked):
            _misbehave(kind, int(amount))
        rows: list[answers.Row] = getattr(answers, name.decode())(self._files(user), *more)
        return rows

    def _files(self, user: int) -> list[answers.File]:
        if user not in self.files:
            self.files[user] = answers.files_of(self.tree, self._text_of, user)
        return self.files[user]


def _words(text: bytes) -> list[bytes]:
    words = words_of(text)
    if not words:
        raise regions.Refused("noword")
    if len(words) > WORDS_OF_RANKING:
        raise regions.Refused("manywords")
    return words


def _front(text: bytes) -> bytes:
    if text and RUN.fullmatch(text) is None:
        raise regions.Refused("badprefix")
    return word_of(text)


def _misbehave(kind: bytes, amount: int) -> None:
    if kind == b"burn":
        until = time.process_time() + amount / 10
        while time.process_time() < until:
            pass
    elif kind == b"take":
        taken = bytearray(amount << 20)
        taken[::4096] = b"x" * len(taken[::4096])
    else:
        os._exit(amount)


def most_of(words: list[str]) -> int | None:
    """How many bytes the input may have, by the command line; None where that is invalid."""
    most = {"--max-input": 1 << 40, "--flush": 1 << 20}
    given = iter(words)
    commands: list[str] = []
    for word in given:
        name, _, value = word.partition("=")
        if word == "--":
            commands += given
        elif name in most:
            value = value or next(given, "")
            if not value.isdigit():
                return None
            most[name] = int(value)
        else:
            commands.append(word)
    return most["--max-input"] if commands == ["run"] else None


def main(words: list[str]) -> int:
    """Runs a command line: the exit status, with a line on standard error where it isn't 0."""
    status = _run(words)
    if status != DONE:
        print(f"wumpus: {SAID[status]}", file=sys.stderr)
    return status


def _run(words: list[str]) -> int:
    most = most_of(words)
    if most is None:
        return USAGE
    try:
        Session(Store(), most).run()
    except script.NoInput:
        return READING
    except NoOutput:
        return WRITING
    except TooLong:
        return TOO_LONG
    except MemoryError:
        return MEMORY
    except (Failed, OSError):
        return STORE
    return DONE
