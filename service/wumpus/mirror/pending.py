"""The files that wait to be looked at: owners in turn, and of each owner the oldest first.

They are shut as long as they wait. A walk finds them anew; what waited before it goes on waiting
from its first day.
"""

from collections import deque
from collections.abc import Callable, Container, Iterable, Iterator
from dataclasses import dataclass
from itertools import chain

from ..extract.documents import DOCUMENT_MAX
from ..shared.script import TEXT_MAX
from .nodes import Tree
from .remarks import path_of
from .seen import FreshFile, SeenDirectory

FILES_OF_WINDOW = 64
BYTES_OF_WINDOW = 1 << 20
FIRST = 1  # the first walk


@dataclass(frozen=True, slots=True)
class Place:
    """A file that has to be looked at, by one of its names."""

    directory: SeenDirectory
    name: bytes
    file: FreshFile

    @property
    def cost(self) -> int:
        """How many bytes may have to be read."""
        return self.file.size if self.file.size <= DOCUMENT_MAX else 0

    @property
    def text_bytes(self) -> int:
        """How many bytes of text it may have, if it is its text itself."""
        return self.file.size if self.file.size <= TEXT_MAX else 0


class Pending:
    """What waits, by person."""

    def __init__(self) -> None:
        self.walks = 0
        self.since: dict[int, int] = {}  # the walk that found a file first, by its number
        self.queues: dict[int, deque[Place]] = {}
        self.turns: deque[int] = deque()  # the persons that have something in a queue
        self.files = 0
        self.bytes = 0

    def renew(self, places: Iterable[Place], person_of: Callable[[int], int]) -> None:
        """Takes what a walk found in the place of what waits."""
        self.walks += 1
        before, self.since = self.since, {}
        found: dict[int, list[Place]] = {}
        self.files = self.bytes = 0
        for place in places:
            number = place.file.number
            self.since[number] = before.get(number, self.walks)
            found.setdefault(person_of(place.file.owner), []).append(place)
            self.files += 1
            self.bytes += place.cost
        for waiting in found.values():
            # What is looked at for its kind alone isn't shut meanwhile: it comes last.
            waiting.sort(
                key=lambda place: (place.file.known is not None, self.since[place.file.number])
            )
        self.queues = {person: deque(waiting) for person, waiting in found.items()}
        self.turns = deque(sorted(self.queues))

    def staying(
        self, tree: Tree, found: Iterable[Place], inside: Container[int]
    ) -> Iterator[Place]:
        """What waits, and is still there in a tree: but for what was found, and what is inside."""
        numbers = {place.file.number for place in found}
        for place in chain.from_iterable(self.queues.values()):
            number, directory = place.file.number, place.directory.number
            is_there = tree.entries.get(directory, {}).get(place.name) == number
            if is_there and number not in numbers and directory not in inside:
                yield place

    def prefer(self, paths: tuple[bytes, ...]) -> None:
        """Has what is at or below some paths come before all else of its owner's."""
        if not paths:
            return
        for person, queue in self.queues.items():
            first = sorted(queue, key=lambda place: not _is_below(place, paths))
            self.queues[person] = deque(first)
        self.turns = deque(
            sorted(self.turns, key=lambda person: not _is_below(self.queues[person][0], paths))
        )

    def take(self, most: int = FILES_OF_WINDOW) -> list[Place]:
        """The next files of the person whose turn it is, as many as go into a window."""
        taken: list[Place] = []
        size = 0
        if not self.turns:
            return taken
        person = self.turns.popleft()
        queue = self.queues[person]
        while queue and len(taken) < min(most, FILES_OF_WINDOW):
            size += queue[0].cost
            if taken and size > BYTES_OF_WINDOW:
                break
            taken.append(queue.popleft())
        if queue:
            self.turns.append(person)
        for place in taken:
            self.files -= 1
            self.bytes -= place.cost
        return taken

    def put_back(self, places: list[Place], person_of: Callable[[int], int]) -> None:
        """Has files that were taken wait again, before all others."""
        for place in reversed(places):
            person = person_of(place.file.owner)
            self.queues.setdefault(person, deque()).appendleft(place)
            self.since[place.file.number] = FIRST
            if person not in self.turns:
                self.turns.append(person)
            self.files += 1
            self.bytes += place.cost

    def set_aside(self, person: int) -> None:
        """Looks at nothing more of a person's until the next walk."""
        if person in self.turns:
            self.turns.remove(person)

    def is_done(self, number: int) -> None:
        """A file doesn't wait any more."""
        self.since.pop(number, None)

    def waits_since(self, walk: int) -> bool:
        """Whether anything waits that that walk, or one before it, found."""
        return any(since <= walk for since in self.since.values())


def _is_below(place: Place, paths: tuple[bytes, ...]) -> bool:
    path = path_of(place.directory, place.name)
    return any(path == one or path.startswith(one.rstrip(b"/") + b"/") for one in paths)
