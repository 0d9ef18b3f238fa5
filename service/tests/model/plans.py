"""The order of a batch: a plain model of `wumpus-plan`, for tests where none is built.

It takes each line for what it says, and refuses nothing; names stay spelled as they came.
"""

from collections.abc import Iterator
from typing import IO

ROOT, CLOSED = b"1", b"2"
Fields = list[bytes]


def mode_of(field: bytes) -> int:
    """The mode that an octal field spells."""
    return int(field, 8)


def spelled(mode: int) -> bytes:
    """A mode as three or four octal digits."""
    return b"%03o" % mode


class Change:
    """What a batch changes of one node, by its first line and the further ones."""

    def __init__(self, head: Fields, further: list[Fields]) -> None:
        self.word, self.number, kind = head[:3]
        self.is_directory = kind == b"directory"
        self.has_text = b"text" in head[3:]
        self.keeps_name = b"other" in head[3:]
        self.before = mode_of(head[3]) if self.word == b"stays" else 0
        self.after = self.before
        self.owners: Fields = []
        self.entries: bytes | None = None
        self.going = [line[1:] for line in further if line[0] in (b"unlink", b"rmdir")]
        self.coming = [line[2:4] for line in further if line[0] in (b"link", b"mkdir", b"create")]
        for line in further:
            if line[0] in (b"mkdir", b"create"):
                self.owners, self.after = line[4:6], mode_of(line[6])
            elif line[0] == b"chmod":
                self.after = mode_of(line[2])
            elif line[0] == b"chown":
                self.owners = line[2:]
            elif line[0] == b"acl":
                self.entries = line[2]

    # ---- rights

    def left(self, is_shut: bool) -> int:
        """What is left of the mode of a node that stays, or what one is made with."""
        if self.word == b"made":
            return 0 if is_shut or self.entries else self.after
        is_other = bool(self.owners) or self.entries is not None
        return 0 if is_shut or is_other else self.before & self.after

    def taken(self, is_shut: bool) -> Iterator[Fields]:
        """Takes rights away."""
        if self.word == b"stays" and self.left(is_shut) != self.before:
            yield [b"chmod", self.number, spelled(self.left(is_shut))]

    def given(self, is_shut: bool) -> Iterator[Fields]:
        """Gives the rights after the batch: owner, list and mode."""
        if self.word == b"goes":
            return
        mode = self.left(is_shut)
        if self.owners and self.word == b"stays":
            yield [b"chown", self.number, *self.owners]
        if self.entries == b"":
            yield [b"acl", self.number, b"g::0,m::0"]
            mode = 0
        if self.entries is not None:
            yield [b"acl", self.number, self.entries]
        if self.entries:
            mode = self.after & 0o070
        if mode != self.after:
            yield [b"chmod", self.number, spelled(self.after)]

    # ---- names

    def removed(self) -> Iterator[Fields]:
        """Removes the names that go of a file, of which one that keeps none is set aside."""
        for count, place in enumerate(self.going):
            if count == 0 and self.word == b"stays" and not self.keeps_name:
                yield [b"rename", *place, CLOSED, self.number]
            else:
                yield [b"unlink", *place]

    def placed(self, is_shut: bool) -> Iterator[Fields]:
        """Places the names that come."""
        was_aside = self.word == b"stays" and not self.keeps_name and self.going
        for count, place in enumerate(self.coming):
            if count == 0 and self.word == b"made":
                command = b"mkdir" if self.is_directory else b"create"
                mode = spelled(self.left(is_shut))
                yield [command, self.number, *place, *self.owners, mode]
            elif count == 0 and was_aside:
                yield [b"rename", CLOSED, self.number, *place]
            else:
                yield [b"link", self.number, *place]


def head_of(changes: list[Change], users: list[Fields], shut: set[bytes]) -> Iterator[Fields]:
    """The lines before the texts."""
    for change in changes:
        yield from change.taken(change.number in shut)
    yield from users
    directories = [change for change in changes if change.is_directory]
    files = [change for change in changes if not change.is_directory]
    for change in files:
        yield from change.removed()
    for change in directories:
        if change.word == b"stays":
            yield from change.removed()
    for change in reversed(directories):
        if change.word == b"goes":
            for place in change.going:
                yield [b"rmdir", *place]
    for change in [*directories, *files]:
        yield from change.placed(change.number in shut)


def tail_of(changes: list[Change], shut: set[bytes]) -> Iterator[Fields]:
    """The lines after the texts."""
    for change in changes:
        yield from change.given(change.number in shut)


def plan(users: list[bytes], nodes: list[bytes]) -> tuple[list[bytes], list[bytes]]:
    """The lines before the texts and those after them, of lines as `wumpus-plan` reads them."""
    changes = []
    for node in nodes:
        first, *further = node.removesuffix(b"\n").split(b"\n")
        changes.append(Change(_fields(first), [_fields(line) for line in further]))
    shut = {change.number for change in changes if change.has_text}
    if users:
        shut.add(ROOT)
    head = head_of(changes, [_fields(line) for line in users], shut)
    return [_line(one) for one in head], [_line(one) for one in tail_of(changes, shut)]


def serve(into: IO[bytes], out: IO[bytes]) -> None:
    """Answers batch after batch."""
    while line := into.readline():
        users, count = map(int, _fields(line)[1:])
        lines_of_users = [into.readline() for _ in range(users)]
        nodes = []
        for _ in range(count):
            first = into.readline()
            further = int(_fields(first)[-1])
            nodes.append(b"".join([first, *(into.readline() for _ in range(further))]))
        head, tail = plan(lines_of_users, nodes)
        out.writelines([b"plan\t%d\t%d\n" % (len(head), len(tail)), *head, *tail])
        out.flush()


def _fields(line: bytes) -> Fields:
    return line.removesuffix(b"\n").split(b"\t")


def _line(fields: Fields) -> bytes:
    return b"\t".join(fields) + b"\n"
