"""What the kernel answers: a child with a user's ids opens each path and reads what it may.

The answers that the program is due to give are made of that alone, by the rules of docs/SCRIPT.md
for words, places, lines and snippets.
"""

import json
import os
import re
import sys
from collections.abc import Callable, Iterator
from dataclasses import dataclass

WORD = re.compile(rb"[0-9A-Za-z\x80-\xff]+")


@dataclass(frozen=True)
class User:
    """A user and her groups, the first of which is her own."""

    number: int
    groups: tuple[int, ...]


def become(user: User) -> None:
    """Takes on the user's ids, for good."""
    os.setgroups(list(user.groups))
    os.setresgid(user.groups[0], user.groups[0], user.groups[0])
    os.setresuid(user.number, user.number, user.number)


def paths_below(top: bytes) -> list[bytes]:
    """The paths of all that isn't a directory below one, as root sees them."""
    found = []
    for folder, _, names in os.walk(top):
        found += [os.path.join(folder, name) for name in names]
    return found


Seen = dict[bytes, tuple[int, int]]  # device and inode of each file that was opened, by path


def opened_by(user: User, paths: list[bytes]) -> Seen:
    """The regular files among the paths that the kernel lets the user open and read."""
    return _as_user(user, lambda: _opened(paths))


def found_by(user: User, top: bytes) -> Seen:
    """The regular files below a directory that the user finds by its names, and may open."""
    return _as_user(user, lambda: _opened(paths_below(top)))


def _as_user(user: User, opened: Callable[[], Iterator[tuple[bytes, tuple[int, int]]]]) -> Seen:
    """What a child with the user's ids opens."""
    reading, writing = os.pipe()
    child = os.fork()
    if child == 0:
        status = 1
        try:
            os.close(reading)
            become(user)
            with open(writing, "w", encoding="ascii") as out:
                json.dump([[path.hex(), *told] for path, told in opened()], out)
            status = 0
        finally:
            os._exit(status)
    os.close(writing)
    with open(reading, encoding="ascii") as answer:
        told = answer.read()
    if os.waitpid(child, 0)[1] != 0:
        sys.exit(f"no child with the ids of user {user.number}")
    return {bytes.fromhex(path): (device, inode) for path, device, inode in json.loads(told)}


def _opened(paths: list[bytes]) -> Iterator[tuple[bytes, tuple[int, int]]]:
    for path in paths:
        try:
            descriptor = os.open(path, os.O_RDONLY | os.O_NOFOLLOW | os.O_NONBLOCK)
        except OSError:
            continue
        status = os.fstat(descriptor)
        try:
            if status.st_mode & 0o170000 == 0o100000:
                os.read(descriptor, 1)
                yield path, (status.st_dev, status.st_ino)
        finally:
            os.close(descriptor)


def escaped(field: bytes) -> bytes:
    """A path or a snippet as a reply shows it."""
    return field.replace(b"\\", b"\\\\").replace(b"\t", b"\\t").replace(b"\n", b"\\n")


def files_of(seen: Seen) -> list[list[bytes]]:
    """The paths of each file, in the order of the files' least paths."""
    by_file: dict[tuple[int, int], list[bytes]] = {}
    for path, identity in sorted(seen.items()):
        by_file.setdefault(identity, []).append(path)
    return sorted(by_file.values())


@dataclass(frozen=True)
class Match:
    """A place of a word in a text: its token, and the line with its number."""

    place: int
    line: int
    snippet: bytes


def matches_in(text: bytes, wanted: bytes) -> list[Match]:
    """The places of a word."""
    found = []
    place = 1
    lines = text.split(b"\n")
    if lines[-1] == b"":
        lines.pop()
    for number, line in enumerate(lines, 1):
        place += 1
        for word in WORD.findall(line):
            if word[:64].lower() == wanted:
                found.append(Match(place, number, line[:80]))
            place += 1
        place += 1
    return found


def text_of(path: bytes) -> bytes:
    """The text that the program is to have of a file: none of one that isn't text."""
    with open(path, "rb") as file:
        text = file.read()
    is_none = len(text) > 16_777_216 or b"\0" in text[:8192] or b"%PDF-" in text[:1024]
    return b"" if is_none else text


class Due:
    """The replies that are due to a user, from what the kernel let her open."""

    def __init__(self, seen: Seen) -> None:
        self.files = files_of(seen)

    def paths(self) -> list[bytes]:
        """The lines that answer `paths`."""
        shown = [escaped(path) for paths in self.files for path in paths]
        return [b"paths\t%d" % len(shown), *shown]

    def find(self, word: bytes) -> list[bytes]:
        """The lines that answer `find` of a word with room for all."""
        lines = []
        files = 0
        for paths in self.files:
            matches = matches_in(text_of(paths[0]), word)
            files += bool(matches)
            for one in matches:
                told = b"\t%d\t%d\t%d\t" % (one.place, one.place, one.line)
                lines.append(escaped(paths[0]) + told + escaped(one.snippet))
        shown = min(len(lines), 10_000)
        return [b"find\t%d\t%d\t%d" % (len(lines), files, shown), *lines[:shown]]

    def count(self, word: bytes) -> list[bytes]:
        """The line that answers `count` of a word."""
        _, hits, files, _ = self.find(word)[0].split(b"\t")
        return [b"count\t%s\t%s" % (hits, files)]
