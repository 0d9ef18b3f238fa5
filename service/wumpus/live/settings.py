"""What a live mirror is told when it begins, what it counts, and how its group is marked."""

from dataclasses import dataclass
from pathlib import Path

from ..mirror.access import Access
from . import calls
from .watcher import Watcher


@dataclass(frozen=True)
class Settings:
    """Where `wumpus-watch` answers, the planner, what is mirrored, and how rights are read.

    Where it is full, all that changes is kept for looks, beside what becomes less.
    """

    watch: Path
    planner: str
    roots: tuple[bytes, ...]
    access: Access
    is_full: bool = False


@dataclass
class Counts:
    """What was done since the mirror began."""

    narrowed: int = 0  # nodes
    batches: int = 0
    lost: int = 0  # times that the kernel, or the reader, had no room for events


class GroupMarks:
    """Marks of one group, which is told of all changes, or of what becomes less."""

    def __init__(self, watcher: Watcher, group: int, is_full: bool) -> None:
        self.watcher = watcher
        self.group = group
        self.is_full = is_full

    def system(self, directory: int) -> None:
        """Of a file system, which the mirror itself may not mark."""
        self.watcher.mark(self.group, directory, self.is_full)

    def one(self, directory: int) -> None:
        """Of one directory."""
        calls.mark_directory(self.group, directory)
