"""What is shut or left out in a turn, and why: counted by owner, and the first paths of it."""

from collections import Counter
from collections.abc import Callable
from dataclasses import dataclass

from .reasons import Reason
from .seen import SeenDirectory

SHOWN = 1000  # paths of what is shut, and of what is left out


@dataclass(frozen=True, slots=True)
class Shut:
    """Something that is shut."""

    path: bytes
    owner: int
    why: Reason


class Remarks:
    """Those of one walk and of the looks after it. `warn` is told a sentence and a path."""

    def __init__(self, warn: Callable[[str, bytes], None]) -> None:
        self.warn = warn
        self.counts: dict[int, Counter[Reason]] = {}
        self.shown: list[Shut] = []
        self.left_out: list[tuple[bytes, str]] = []

    def shut(self, why: Reason, owner: int, above: SeenDirectory | None, name: bytes) -> None:
        """Something isn't shown to anybody."""
        counts = self.counts.setdefault(owner, Counter())
        counts[why] += 1
        if len(self.shown) < SHOWN or counts[why] <= 5:
            path = path_of(above, name)
            if len(self.shown) < SHOWN:
                self.shown.append(Shut(path, owner, why))
            self.warn(why.sentence, path)

    def leave_out(self, path: bytes, why: str) -> None:
        """Something isn't mirrored, and isn't meant to be."""
        if len(self.left_out) < SHOWN:
            self.left_out.append((path, why))
        self.warn(why, path)

    @property
    def count(self) -> int:
        """How much is shut."""
        return sum(sum(counts.values()) for counts in self.counts.values())


def path_of(above: SeenDirectory | None, name: bytes) -> bytes:
    """The path of a name in a directory."""
    return b"/" if above is None else above.path() + b"/" + name
