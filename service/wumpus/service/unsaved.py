"""The batches that went in since the last save, which a program that is begun anew lacks.

A right that was taken away is fed at once, and saved later. Where the program is killed meanwhile
these batches are fed again, before anybody is answered: what was taken away stays so, and who has
the program killed gains no time.
"""

import os
from collections import deque

KEPT = 256  # batches; a mirror saves before there are so many


class Unsaved:
    """Their files and replies, in their order, and those of them that are to be fed again."""

    def __init__(self) -> None:
        self.kept: list[tuple[int, int]] = []
        self.again: deque[tuple[int, int]] = deque()
        self.is_whole = True  # all are kept

    def add(self, file: int, due: int) -> None:
        """A batch went in. The file is this object's."""
        if len(self.kept) < KEPT:
            self.kept.append((file, due))
        else:
            os.close(file)
            self.is_whole = False

    def saved(self) -> None:
        """All is saved."""
        for file, _ in self.kept:
            os.close(file)
        self.kept, self.is_whole = [], True
        self.again.clear()

    def lost(self) -> None:
        """The program is gone: the next one is as it was after the last save."""
        self.again = deque(self.kept)

    def can_be_fed(self) -> bool:
        """Whether all that was lost can be fed again, if anything was."""
        return self.is_whole

    def next(self) -> tuple[int, int] | None:
        """The next batch that is to be fed again: its file, which stays here, and its replies."""
        return self.again[0] if self.again else None

    def went_in(self) -> None:
        """It is in the program again."""
        self.again.popleft()
