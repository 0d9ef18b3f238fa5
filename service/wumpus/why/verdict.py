"""Whether a user is told of a file, and why not."""

import os
import time
from collections.abc import Iterator
from dataclasses import dataclass

from ..mirror.access import Access
from ..mirror.nodes import Node, Tree
from ..mirror.reasons import Reason
from ..status.files import Folders, MirrorStatus, ServiceStatus, read_mirror, read_service
from .kernel import Kind, Step, opens, steps_to
from .program import Known, is_open, nodes_to, paths_of, read_tree
from .rights import READ, SEARCH, grant
from .users import User
from .wanted import Wanted


@dataclass(frozen=True)
class Told:
    """All that is looked at."""

    wanted: Wanted | None
    tree: Tree
    mirror: MirrorStatus | None
    service: ServiceStatus | None


def read(folders: Folders, wanted: Wanted | None) -> Told:
    """Reads it. Raises `BadState`, `BadStatus`, and `OSError`."""
    mirror, service = read_mirror(folders.mirror), read_service(folders.service)
    return Told(
        wanted,
        read_tree(folders.mirror),
        None if mirror is None else mirror[0],
        None if service is None else service[0],
    )


@dataclass(frozen=True)
class Verdict:
    """What came of it. `denied` is why the kernel doesn't let her open the file, or empty."""

    path: bytes
    user: User
    steps: list[Step]
    known: list[Known]
    denied: str
    is_told: bool
    reasons: list[str]

    @property
    def agrees(self) -> bool:
        """Whether the kernel lets her open what she is told of, and nothing else."""
        return self.is_told is not bool(self.denied)


def judge(path: bytes, user: User, told: Told) -> Verdict:
    """Goes down the way to a file. Raises `OSError`."""
    access = Access() if told.wanted is None else told.wanted.access
    steps = steps_to(path, access)
    known = nodes_to(told.tree, path)
    is_file = steps[-1].kind is Kind.FILE and steps[-1].path == path
    denied = opens(path, user) if is_file else f"it is {_what(steps[-1], path)}"
    found = _Reasons(path, user, steps, known, told)
    is_told = found.is_known_file() and is_open(known, user)
    reasons = list(found.why_not()) if not is_told else []
    other = None if is_told else found.other_path()
    if other is not None:
        is_told, reasons = True, [*reasons, f"she is told of it as {os.fsdecode(other)}"]
    if is_told:
        reasons += found.about_text()
    silence = list(_silence(told.service))
    if silence:
        is_told, reasons = False, [*silence, *reasons]
    return Verdict(path, user, steps, known, denied, is_told, reasons)


def _what(step: Step, path: bytes) -> str:
    """What is there in place of a file."""
    if step.path != path and step.kind in (Kind.DIRECTORY, Kind.FILE):
        return "nothing"
    where = "" if step.path == path else f", at {os.fsdecode(step.path)}"
    article = "" if step.kind in (Kind.OTHER, Kind.NOTHING) else "a "
    return f"{article}{step.kind.value}{where}"


def _silence(service: ServiceStatus | None) -> Iterator[str]:
    """Why nobody is told of anything."""
    if service is not None and service.is_stale:
        yield "nobody is answered: the rights that the program has are too old (stale)"
    elif service is not None and not service.is_ready:
        yield "nobody is answered yet: the mirror's first turn isn't done"


@dataclass(frozen=True)
class _Reasons:
    """Finds why a user isn't told of a file."""

    path: bytes
    user: User
    steps: list[Step]
    known: list[Known]
    told: Told

    def is_known_file(self) -> bool:
        """Whether the program has a file of this path."""
        last = self.known[-1]
        return last.path == self.path and not last.node.is_directory

    def other_path(self) -> bytes | None:
        """Another path of the file, by which the program tells her of it."""
        if not self.is_known_file():
            return None
        for path in paths_of(self.told.tree, self.known[-1].node.number):
            if path != self.path and is_open(nodes_to(self.told.tree, path), self.user):
                return path
        return None

    def why_not(self) -> Iterator[str]:
        """The reasons, from above; the first step that isn't known ends them."""
        by_path = {step.path: step for step in self.steps}
        for one in self.known:
            bit = SEARCH if one.node.is_directory else READ
            if not grant(one.node.rights, self.user).gives(bit):
                yield f"{os.fsdecode(one.path)}: {self._closed(one, by_path.get(one.path))}"
        last = self.known[-1]
        if last.path != self.path:
            missing = self._next(last.path)
            yield f"{os.fsdecode(missing)}: {self._unknown(missing, by_path.get(missing))}"
        elif last.node.is_directory:
            yield f"{os.fsdecode(self.path)}: it is a directory, and only files are told of"

    def _next(self, path: bytes) -> bytes:
        """The path that is one name longer."""
        start = len(path.rstrip(b"/")) + 1
        end = self.path.find(b"/", start)
        return self.path if end < 0 else self.path[:end]

    def _closed(self, one: Known, step: Step | None) -> str:
        """Why the program doesn't let her pass, or read."""
        who = grant(one.node.rights, self.user).who.value
        if step is None or step.rights is None or step.mirrored is None:
            return "the program has it so; the kernel has it no more, or otherwise"
        word = self._shut(one, step)
        if word:
            return word
        mine, hidden = grant(step.rights, self.user), grant(step.mirrored, self.user)
        bit = SEARCH if one.node.is_directory else READ
        if not mine.gives(bit):
            return f"the kernel doesn't let her either: she is {mine.who.value}"
        if not hidden.gives(bit):
            return "it hides its names from her: she may search it, and not list it (--unlisted)"
        return f"what it was changed to comes with a turn of the mirror; she was {who}"

    def _shut(self, one: Known, step: Step) -> str:
        """Why a node is shut; empty where it isn't."""
        mirror, path = self.told.mirror, os.fsdecode(one.path)
        for shut in mirror.shut if mirror is not None else []:
            if shut.path == path:
                return _sentence(shut.why)
        is_shut = one.node.rights.mode == 0 and step.rights is not None and step.rights.mode != 0
        if not is_shut:
            return ""
        return Reason.PENDING.sentence if _waits(one.node) else "the mirror has it shut"

    def _unknown(self, path: bytes, step: Step | None) -> str:
        """Why the program doesn't know a path, whose directory it knows."""
        return next(self._causes(path, step))

    def _causes(self, path: bytes, step: Step | None) -> Iterator[str]:
        mirror, name = self.told.mirror, os.fsdecode(path)
        if step is None or step.kind is Kind.NOTHING:
            fault = f": {step.fault}" if step is not None and step.fault else ""
            yield f"there is nothing{fault}"
        elif step.kind is Kind.LINK:
            yield "it is a symbolic link, which the mirror doesn't follow: ask for where it leads"
        elif step.kind is Kind.MOUNT:
            yield f"a file system of kind {step.fault} is mounted there, which isn't walked"
        elif step.kind is Kind.OTHER:
            yield f"it is {step.kind.value}"
        for one in self.steps:
            if one.is_marked and _is_below(path, one.path) and self._is_in_root(one.path):
                yield f"there is a .nowumpus in {os.fsdecode(one.path)}"
        for left in mirror.left_out if mirror is not None else []:
            if name == left.path or name.startswith(left.path.rstrip("/") + "/"):
                yield f"it is left out: {left.path}: {left.why}"
        for shut in mirror.shut if mirror is not None else []:
            if name == shut.path:
                yield _sentence(shut.why)
        yield from self._unwanted(path)
        walk = None if mirror is None else mirror.walk
        if walk is not None and step is not None and step.changed / 1e9 > walk.began:
            ago = time.time() - walk.began
            yield f"it is newer than the last walk, which began {ago:.0f} s ago"
        yield "the mirror hasn't got it: its options may leave it out, or its last turn failed"

    def _is_in_root(self, path: bytes) -> bool:
        """Whether a path is in a root, or it isn't known which roots there are."""
        return self.told.wanted is None or self.told.wanted.root_of(path) is not None

    def _unwanted(self, path: bytes) -> Iterator[str]:
        wanted = self.told.wanted
        if wanted is None:
            return
        if wanted.root_of(path) is None and not any(
            root.startswith(path.rstrip(b"/") + b"/") for root in wanted.roots
        ):
            yield "it is below no root of the mirror's"
        pattern = wanted.pattern_for(path)
        if pattern is not None:
            yield f"it is excluded by the pattern {os.fsdecode(pattern)}"

    def about_text(self) -> Iterator[str]:
        """Where she is told of the file's path, and not of its text."""
        node, step = self.known[-1].node, self.steps[-1]
        if step.kind is not Kind.FILE or not step.size or node.digest:
            return
        if node.origin is None:
            yield "no word of it is found: it is over 16 MiB, or it has bytes that no text has"
        elif node.origin.by:
            yield f"no word of it is found: a document ({node.kind}) that has no text"
        else:
            yield f"no word of it is found: a document ({node.kind}) whose text isn't made yet"


def _sentence(word: str) -> str:
    """The reason of a word in the mirror's status, which another version may have written."""
    known = {reason.value: reason.sentence for reason in Reason}
    return known.get(word, f"it is shut ({word})")


def _is_below(path: bytes, folder: bytes) -> bool:
    return path.startswith(folder.rstrip(b"/") + b"/")


def _waits(node: Node) -> bool:
    """Whether a file has to be looked at."""
    return not node.is_directory and node.changed == 0
