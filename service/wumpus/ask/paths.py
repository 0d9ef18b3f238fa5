"""Conditions on paths: `in:` `name:` `ext:` `path:`.

The program's expressions know no paths, so these are tested here, on what was found. Names are
compared composed, so that é of one code point is é of two.
"""

import fnmatch
import os
import re
import unicodedata
from collections.abc import Callable, Iterable, Sequence
from dataclasses import dataclass

from .asking import Trouble
from .tree import And, Filter, Not, Subject, Tree, text_of

Condition = Callable[[bytes], bool]


@dataclass(frozen=True)
class Standing:
    """Where relative names begin."""

    folder: bytes

    def whole(self, name: bytes) -> bytes:
        """The path from the root on. Symbolic links aren't followed."""
        path = os.path.normpath(os.path.join(self.folder, os.path.expanduser(name)))
        return path[1:] if path.startswith(b"//") else path


def standing_here() -> Standing:
    """The directory in which this process is. Raises `Trouble` where that is gone."""
    try:
        return Standing(os.getcwdb())
    except OSError as error:
        raise Trouble("the directory that you are in is gone") from error


def condition_of(tree: Tree[Filter], standing: Standing) -> Condition:
    """Tells of a path whether it passes."""
    if isinstance(tree, Filter):
        some = [_value(tree.subject, value, standing) for value in tree.values]
        return lambda path: any(one(path) for one in some)
    if isinstance(tree, Not):
        part = condition_of(tree.part, standing)
        return lambda path: not part(path)
    parts = [condition_of(one, standing) for one in tree.parts]
    if isinstance(tree, And):
        return lambda path: all(one(path) for one in parts)
    return lambda path: any(one(path) for one in parts)


def _value(subject: Subject, value: bytes, standing: Standing) -> Condition:
    if subject is Subject.IN:
        return _below(standing.whole(value))
    if subject is Subject.EXTENSION:
        ending = _plain(b"." + value.removeprefix(b".")).casefold()
        return lambda path: _plain(_name_of(path)).casefold().endswith(ending)
    if subject is Subject.NAME:
        named = _glob(value, "")
        return lambda path: named(_name_of(path))
    return _glob(value, "" if value.startswith(b"/") else "*")


def _below(folder: bytes) -> Condition:
    above = _plain(folder.rstrip(b"/") + b"/")
    return lambda path: _plain(path).startswith(above)


def _glob(value: bytes, around: str) -> Condition:
    """Tells whether a name fits a pattern; without a capital in that, case doesn't count."""
    pattern = _plain(value)
    has_case = pattern != pattern.lower()
    flags = re.DOTALL if has_case else re.DOTALL | re.IGNORECASE
    fits = re.compile(fnmatch.translate(around + pattern + around), flags)
    return lambda name: fits.match(_plain(name)) is not None


def _plain(name: bytes) -> str:
    text = text_of(name)
    return text if text.isascii() else unicodedata.normalize("NFC", text)


def _name_of(path: bytes) -> bytes:
    return path.rpartition(b"/")[2]


def missing_folders(tree: Tree[Filter], standing: Standing) -> list[bytes]:
    """The folders of `in:` that aren't there."""
    if isinstance(tree, Filter):
        if tree.subject is not Subject.IN:
            return []
        folders = [standing.whole(value) for value in tree.values]
        return [folder for folder in folders if not os.path.isdir(folder)]
    if isinstance(tree, Not):
        return missing_folders(tree.part, standing)
    return [folder for part in tree.parts for folder in missing_folders(part, standing)]


def passing(
    paths: Sequence[bytes], condition: Condition, all_paths: Callable[[], Iterable[bytes] | None]
) -> tuple[dict[bytes, bytes], bool]:
    """The files that pass: each least path, with the path by which to show it.

    A file passes by any of its links. What else a file is called is told by `all_paths`, which is
    asked only where one that failed has several links; None says that it can't be told, and then
    the second value is False.
    """
    shown = {path: path for path in paths if condition(path)}
    links = _links_of(path for path in paths if path not in shown)
    if not links:
        return shown, True
    others = all_paths()
    if others is None:
        return shown, False
    for other in others:
        if not condition(other):
            continue
        path = links.get(_node_of(other))
        if path is not None:
            shown.setdefault(path, other)
    return shown, True


Node = tuple[int, int]  # device and inode


def _links_of(paths: Iterable[bytes]) -> dict[Node | None, bytes]:
    """Those of the files that have several names, by their nodes."""
    found: dict[Node | None, bytes] = {}
    for path in paths:
        try:
            status = os.lstat(path)
        except OSError:
            continue
        if status.st_nlink > 1:
            found[status.st_dev, status.st_ino] = path
    return found


def _node_of(path: bytes) -> Node | None:
    try:
        status = os.lstat(path)
    except OSError:
        return None
    return status.st_dev, status.st_ino


def once_each(paths: Iterable[bytes]) -> list[bytes]:
    """The paths in order; of those of one file the least alone."""
    found = []
    seen: set[Node] = set()
    for path in sorted(paths):
        node = _node_of(path)
        if node is None or node not in seen:
            found.append(path)
        if node is not None:
            seen.add(node)
    return found
