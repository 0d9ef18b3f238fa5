"""What the mirror knows of the program's tree, kept in a file between its turns.

The file `mirror.state` has one JSON value a line: first the whole state, in a line of its own and
one for each directory, or several where it has many names, and then one line for each later batch,
with the nodes that it changed, and the names where some went or came. A whole state that is about to be fed
stands in `mirror.next` first. Both are written before their batch is fed: which of them is true, the
program tells, since each batch has a serial of its own, the name of a directory in the closed one.
"""

import errno
import json
import os
import secrets
import stat
from collections.abc import Iterable, Iterator
from dataclasses import dataclass, field
from itertools import islice
from pathlib import Path
from typing import Any

from ..extract.kinds import Known
from .changes import Groups
from .nodes import (
    FIRST, Node, Origin, Rights, Tree, device_of, first_tree, identity_at, inode_of,
)  # fmt: skip

FORMAT = 4
# The first had one line for each directory, the second knew no documents, and in the third no later
# batch had names.
READ = (1, 2, 3, FORMAT)
ADDED_AT_MOST = 16 << 20  # bytes of later batches, beside twice the whole state
PIECE = 4096  # names of a directory in a line, which is in memory as a whole
NAME = "mirror.state"
NEXT = "mirror.next"


class BadState(Exception):
    """The file isn't one that this mirror wrote."""


@dataclass(slots=True)
class State:
    """The tree and the users as they are after the batch with this serial.

    `lists` tells whether the program knew access lists then, and `complete` whether all that there
    was had been looked at once; `following` is the number to try first for a new node. `unlisted`
    tells how the rights of directories were read, and `known` by what documents are known: each
    file is of the kind that it is by that, but for those whose numbers are among the unsorted.
    `format` is that of the file in which it was written.
    """

    serial: str = ""
    tree: Tree = field(default_factory=first_tree)
    users: Groups = field(default_factory=dict)
    following: int = FIRST
    lists: bool = False
    unlisted: bool = False
    complete: bool = False
    known: Known = ()
    unsorted: set[int] = field(default_factory=set)
    format: int = FORMAT

    def sort_by(self, known: Known) -> None:
        """Has each file looked at again that may be of another kind, where kinds are known so.

        Where kinds are only gone, it is the files of these.
        """
        if known == self.known:
            return
        gone = {name for name, _ in set(self.known) - set(known)}
        is_less = tuple(one for one in self.known if one in known) == known
        for number, node in self.tree.nodes.items():
            if not node.is_directory and node.size and (not is_less or node.kind in gone):
                self.unsorted.add(number)
        self.known = known

    def forget_directories(self) -> None:
        """Has the rights of each directory read again."""
        for number in self.tree.entries:
            self.tree.nodes[number].changed = 0


@dataclass(slots=True)
class Addition:
    """A later batch: its serial, and the nodes that it changed, or that came.

    Where it has the serial of the one before, no batch was fed: only more is known of the nodes. A
    name that leads to another node now is there with its number, and one that went with 0. Nodes
    that are `gone` have no name any more. Where names came `following` is the number to try next.
    """

    serial: str
    nodes: list[Node]
    names: list[tuple[int, bytes, int]] = field(default_factory=list)
    gone: list[int] = field(default_factory=list)
    following: int = 0


def opened(path: Path) -> int:
    """A descriptor of a file of the state. Raises `BadState` where it is a link, or others' file."""
    try:
        descriptor = os.open(path, os.O_RDONLY | os.O_NOFOLLOW | os.O_NONBLOCK | os.O_CLOEXEC)
    except OSError as error:
        if error.errno == errno.ELOOP:
            raise BadState(f"{path}: it is a symbolic link") from error
        raise
    status = os.fstat(descriptor)
    if not stat.S_ISREG(status.st_mode) or status.st_uid not in (0, os.geteuid()):
        os.close(descriptor)
        raise BadState(f"{path}: it is somebody else's, or no file")
    return descriptor


def new_serial(before: str) -> str:
    """A serial that no other batch has, with the count of batches for people to read."""
    count = int(before.split("-")[0]) + 1 if before else 1
    return f"{count}-{secrets.token_hex(12)}"


def _spell_node(node: Node) -> list[Any]:
    rights = node.rights
    told = [
        node.number,
        int(node.is_directory),
        rights.mode,
        rights.owner,
        rights.group,
        rights.entries.decode("ascii"),
        node.digest.hex(),
        device_of(node.identity),
        inode_of(node.identity),
        node.changed,
        node.size,
    ]
    if node.origin is not None:
        kind, source, by, length = node.origin
        told.append([kind, source.hex(), by, length])
    return told


class _Reader:
    """Makes nodes of what a file says; equal rights, and names of kinds, are kept once."""

    def __init__(self) -> None:
        self.rights: dict[tuple[int, int, int, str], Rights] = {}
        self.words: dict[str, str] = {}

    def node(self, told: list[Any]) -> Node:
        """The node that was spelled."""
        number, directory, mode, owner, group, entries, digest = told[:7]
        device, inode, changed, size, *more = told[7:]
        key = (mode, owner, group, entries)
        rights = self.rights.get(key)
        if rights is None:
            rights = self.rights[key] = Rights(mode, owner, group, entries.encode("ascii"))
        identity = identity_at(device, inode)
        text = bytes.fromhex(digest)
        origin = self._origin(*more[0]) if more else None
        return Node(number, bool(directory), rights, text, identity, changed, size, origin)

    def _origin(self, kind: str, source: str, by: str, length: int) -> Origin:
        kept = self.words.setdefault
        return Origin(kept(kind, kind), bytes.fromhex(source), kept(by, by), int(length))


def _pieces(names: dict[bytes, int]) -> Iterator[list[tuple[bytes, int]]]:
    """A directory's names, so many at a time; one piece where there are none."""
    left = iter(names.items())
    yield list(islice(left, PIECE))
    while piece := list(islice(left, PIECE)):
        yield piece


def spell_state(state: State) -> Iterator[str]:
    """The lines of a whole state: one of its own, and those of each directory.

    A file's node stands with the first name that has it.
    """
    entries = state.tree.entries
    head = {
        "format": FORMAT,
        "serial": state.serial,
        "following": state.following,
        "lists": state.lists,
        "unlisted": state.unlisted,
        "complete": state.complete,
        # Where some are unsorted, that begins anew with the next start: nothing else is lost.
        "known": [] if state.unsorted else state.known,
        "users": [[user, *groups] for user, groups in state.users.items()],
        "lines": sum(max(1, -(-len(names) // PIECE)) for names in entries.values()),
    }
    yield json.dumps(head, separators=(",", ":")) + "\n"
    told: set[int] = set()
    nodes = state.tree.nodes
    for number, names in entries.items():
        directory = _spell_node(nodes[number])
        for piece in _pieces(names):
            children = [child for _, child in piece]
            fresh = (child for child in children if child not in told)
            new = [child for child in dict.fromkeys(fresh) if not nodes[child].is_directory]
            told.update(new)
            files = [_spell_node(nodes[child]) for child in new]
            spelled = [name.decode("utf-8", "surrogateescape") for name, _ in piece]
            line = [directory, spelled, children, files]
            yield json.dumps(line, separators=(",", ":")) + "\n"


def spell_addition(addition: Addition) -> str:
    """The line of a later batch."""
    nodes = [_spell_node(node) for node in addition.nodes]
    told: dict[str, Any] = {"serial": addition.serial, "nodes": nodes}
    if addition.names:
        told["names"] = [
            [directory, name.decode("utf-8", "surrogateescape"), number]
            for directory, name, number in addition.names
        ]
        told |= {"gone": addition.gone, "following": addition.following}
    return json.dumps(told, separators=(",", ":")) + "\n"


def read_state(path: Path) -> tuple[State, list[Addition]] | None:
    """The state in a file and the batches after it, or None where there is no file.

    A last line that was cut off counts for nothing. Raises `BadState`.
    """
    reader = _Reader()
    try:
        with open(opened(path), encoding="utf-8") as lines:
            told = json.loads(next(lines))
            if told["format"] not in READ:
                raise BadState(f"{path}: another format")
            users = {user: tuple(groups) for user, *groups in told["users"]}
            unlisted = told.get("unlisted", True)  # an older state has all as it is
            state = State(
                told["serial"], Tree(), users, told["following"], told["lists"], unlisted
            )
            state.format = told["format"]
            state.complete = told.get("complete", False)
            state.known = tuple((kind, by) for kind, by in told.get("known", ()))
            for _ in range(told["directories" if told["format"] == 1 else "lines"]):
                _read_directory(reader, state.tree, next(lines))
            additions = [_read_addition(reader, line) for line in lines if line.endswith("\n")]
    except FileNotFoundError:
        return None
    except (ValueError, KeyError, TypeError, StopIteration) as error:
        raise BadState(f"{path}: it can't be read: {error}") from error
    return state, additions


def _read_directory(reader: _Reader, tree: Tree, line: str) -> None:
    node, names, children, files = json.loads(line)
    directory = reader.node(node)
    tree.nodes.setdefault(directory.number, directory)
    numbers: dict[int, int] = {}  # a number is one object, however often it was told
    for file in files:
        told = reader.node(file)
        tree.nodes[told.number] = told
        numbers[told.number] = told.number
    children = [numbers.get(child, child) for child in children]
    entries = tree.entries.setdefault(directory.number, {})
    spelled = (name.encode("utf-8", "surrogateescape") for name in names)
    entries.update(zip(spelled, children))


def _read_addition(reader: _Reader, line: str) -> Addition:
    told = json.loads(line)
    names = [
        (directory, name.encode("utf-8", "surrogateescape"), number)
        for directory, name, number in told.get("names", ())
    ]
    nodes = [reader.node(one) for one in told["nodes"]]
    return Addition(
        told["serial"], nodes, names, told.get("gone", []), told.get("following", 0)
    )


def apply(state: State, addition: Addition) -> None:
    """Brings a state to what it is after a later batch."""
    state.serial = addition.serial
    state.following = addition.following or state.following
    nodes, entries = state.tree.nodes, state.tree.entries
    for node in addition.nodes:
        nodes[node.number] = node
        if node.is_directory:
            entries.setdefault(node.number, {})
    for directory, name, number in addition.names:
        if number:
            entries[directory][name] = number
        else:
            entries[directory].pop(name, None)
    for number in addition.gone:
        nodes.pop(number, None)
        entries.pop(number, None)


def sync_folder(folder: Path) -> None:
    """Makes the names in a folder survive a crash."""
    descriptor = os.open(folder, os.O_RDONLY | os.O_DIRECTORY)
    try:
        os.fsync(descriptor)
    finally:
        os.close(descriptor)


class Files:
    """The files of a state in a folder. Their mode is 0600: they have everybody's paths."""

    def __init__(self, folder: Path) -> None:
        self.folder = folder
        self.path = folder / NAME
        self.next = folder / NEXT
        self.whole = 0  # the size of the last whole state that was written
        self.before = 0  # the size before the last addition

    def prepare(self, state: State) -> None:
        """Writes a whole state that is about to be fed, to a file that nobody else has open."""
        self.drop()
        self._write(self.next, spell_state(state), os.O_CREAT | os.O_EXCL)
        sync_folder(self.folder)

    def commit(self) -> None:
        """The prepared state was fed, and saved."""
        self.whole = self.next.stat().st_size
        os.replace(self.next, self.path)
        sync_folder(self.folder)

    def drop(self) -> None:
        """The prepared state wasn't fed."""
        self.next.unlink(missing_ok=True)

    def add(self, addition: Addition, path: Path | None = None) -> None:
        """Writes a later batch that is about to be fed; or more of a state that is prepared."""
        path = path or self.path
        self.before = path.stat().st_size
        self._write(path, [spell_addition(addition)], os.O_APPEND)

    def take_back(self) -> None:
        """The last addition wasn't fed, and another one is to come."""
        os.truncate(self.path, self.before)

    def is_long(self) -> bool:
        """Whether a whole state should take the place of the additions."""
        return self.path.stat().st_size > 2 * self.whole + ADDED_AT_MOST

    def is_whole(self) -> bool:
        """Whether the last line of the state wasn't cut off."""
        with open(opened(self.path), "rb") as file:
            file.seek(-1, os.SEEK_END)
            return file.read(1) == b"\n"

    def forget(self) -> None:
        """Removes what is known: all has to be fed anew."""
        self.path.unlink(missing_ok=True)
        self.drop()

    @staticmethod
    def _write(path: Path, lines: Iterable[str], flag: int) -> None:
        flags = os.O_WRONLY | os.O_NOFOLLOW | os.O_CLOEXEC | flag
        descriptor = os.open(path, flags, 0o600)
        with open(descriptor, "w", encoding="utf-8") as out:
            out.writelines(lines)
            out.flush()
            os.fsync(out.fileno())
