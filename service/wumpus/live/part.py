"""The part of the tree that a look walks, and what has to be in it.

What a look feeds shows nobody what a walk over all, at the same time, wouldn't show. So each file
that isn't as it was known is seen at all its known places, or not at all; and where a directory
gives more than before, or is at another place, all below it is read in the same look. What that
adds to the part is told by `wanted_beside`.
"""

from collections.abc import Iterator

from ..mirror.changes import Place
from ..mirror.limits import RootPlace
from ..mirror.nodes import ROOT, Node, Tree, meet
from ..mirror.seen import Entry, FreshFile, Kept, SeenDirectory
from .index import Index

MOST = 20_000  # names at and below what is walked


class TooLarge(Exception):
    """The part is more than one look may walk, or it isn't below a root: a turn has to come."""


class Part:
    """Names that are walked, each with all below it, and directories that are seen on their own.

    `places` has each directory's place, and `above` the numbers of those above the roots.
    """

    def __init__(self, tree: Tree, places: dict[int, Place], above: set[int]) -> None:
        self.tree = tree
        self.places = places
        self.above = above
        self.names: dict[int, set[bytes]] = {}
        self.alone: set[int] = set()

    def add(self, directory: int, name: bytes) -> None:
        """Has a name walked. Raises `TooLarge` where it isn't below a root."""
        if directory in self.above:
            raise TooLarge
        self.names.setdefault(directory, set()).add(name)

    def add_directory(self, number: int) -> None:
        """Has a directory seen on its own."""
        self.alone.add(number)

    def covers(self, directory: int, name: bytes) -> bool:
        """Whether a name is walked, or is below one that is."""
        while name not in self.names.get(directory, ()):
            if directory == ROOT:
                return False
            directory, name = self.places[directory]
        return True

    def is_below(self, number: int) -> bool:
        """Whether a directory is at or below a name that is walked."""
        return number != ROOT and self.covers(*self.places[number])

    def ways(self) -> RootPlace:
        """What is walked, as the walk is told."""
        top = RootPlace(only=set(), is_inner=ROOT not in self.above)
        made = {ROOT: top}
        for directory, names in self.names.items():
            if not self.is_below(directory):
                place = self._way(directory, made)
                place.is_root, place.only = True, names
        for directory in self.alone:
            if not self.is_below(directory):
                self._way(directory, made)
        return top

    def _way(self, number: int, made: dict[int, RootPlace]) -> RootPlace:
        """The way to a directory."""
        found = made.get(number)
        if found is None:
            parent, name = self.places[number]
            found = RootPlace(only=set(), is_inner=number not in self.above)
            self._way(parent, made).below[name] = found
            made[number] = found
        return found

    def known(self) -> Iterator[tuple[int, bytes, int]]:
        """The known names that are walked, with what they name. Raises `TooLarge`."""
        waiting = [
            (directory, name)
            for directory, names in self.names.items()
            if not self.is_below(directory)
            for name in names
        ]
        count, entries = 0, self.tree.entries
        while waiting:
            directory, name = waiting.pop()
            number = entries[directory].get(name)
            if number is None:
                continue
            count += 1
            if count > MOST:
                raise TooLarge
            yield directory, name, number
            if number in entries:
                waiting += [(number, below) for below in entries[number]]

    def check_size(self) -> None:
        """Raises `TooLarge` where more is known of the part than a look may walk."""
        for _ in self.known():
            pass

    def inside(self, top: SeenDirectory) -> Iterator[SeenDirectory]:
        """The directories that a walk saw at and below the names that are walked."""
        for place, seen in self._seen_ways(top):
            waiting = [seen.entries.get(name) for name in place.only or ()]
            while waiting:
                one = waiting.pop()
                if isinstance(one, SeenDirectory):
                    yield one
                    waiting += one.entries.values()

    def _seen_ways(self, top: SeenDirectory) -> Iterator[tuple[RootPlace, SeenDirectory]]:
        """The ways with the directories that a walk saw there, which are the known ones."""
        waiting = [(self.ways(), top)]
        while waiting:
            place, seen = waiting.pop()
            yield place, seen
            for name, below in place.below.items():
                child = seen.entries[name]
                assert isinstance(child, SeenDirectory)
                waiting.append((below, child))

    def before(self, top: SeenDirectory) -> Tree:
        """The part of the tree that a walk saw anew: its directories' names that it walked."""
        nodes, entries = self.tree.nodes, self.tree.entries
        found = Tree()
        for place, seen in self._seen_ways(top):
            number, known = seen.number, entries[seen.number]
            found.nodes[number] = nodes[number]
            names = [*place.below, *(place.only or ())]
            found.entries[number] = {name: known[name] for name in names if name in known}
        for _, _, number in self.known():
            found.nodes[number] = nodes[number]
            if number in entries:
                found.entries[number] = dict(entries[number])
        return found


def wanted_beside(part: Part, top: SeenDirectory, index: Index) -> set[Place]:
    """What has to be walked, too, for what was seen of a part. Raises `TooLarge`."""
    seen = _Seen(part, top)
    return {
        place
        for number in seen.concerned()
        if not seen.is_only_here(number, index)
        for place in _places_of(number, part, index)
        if not part.covers(*place)
    } | seen.wanted


def _places_of(number: int, part: Part, index: Index) -> Iterator[Place]:
    if number in part.tree.entries:
        yield part.places[number]
    else:
        yield from index.places_of(number)


class _Seen:
    """What a walk saw of a part: its directories by their numbers, and those that want more."""

    def __init__(self, part: Part, top: SeenDirectory) -> None:
        self.part = part
        self.wanted: set[Place] = set()
        self.directories: dict[int, SeenDirectory] = {}
        self.inside: list[SeenDirectory] = []  # directories of which all names are walked
        self.walked: list[tuple[SeenDirectory, bytes]] = []  # names of others that are
        self.at: dict[int, Place] = {}  # of the nodes concerned, a known place that is walked
        waiting = [(part.ways(), top)]
        while waiting:
            place, directory = waiting.pop()
            self._take_way(directory)
            for name, below in place.below.items():
                child = directory.entries.get(name)
                known = part.tree.entries[directory.number].get(name)
                if isinstance(child, SeenDirectory) and child.number == known:
                    waiting.append((below, child))
                else:
                    self._want(directory.number, name)
            for name in place.only or ():
                self.walked.append((directory, name))
        for directory, name in list(self.walked):
            self._take_below(directory.entries.get(name))

    def _want(self, directory: int, name: bytes) -> None:
        """Wants a name walked, with all below it. Raises `TooLarge` where it is above the roots."""
        if directory in self.part.above:
            raise TooLarge
        self.wanted.add((directory, name))

    def _take_way(self, directory: SeenDirectory) -> None:
        """A directory on the way: where it gives more, all below it is to be read."""
        number = directory.number
        before = self.part.tree.nodes[number].rights
        if meet(before, directory.rights) != directory.rights:
            if number == ROOT:
                raise TooLarge
            self._want(*self.part.places[number])
        self.directories[number] = directory

    def _take_below(self, entry: Entry | None) -> None:
        waiting = [entry]
        while waiting:
            one = waiting.pop()
            if isinstance(one, SeenDirectory):
                self.inside.append(one)
                if one.number:
                    self.directories[one.number] = one
                waiting += one.entries.values()

    def concerned(self) -> set[int]:
        """The numbers of the nodes that aren't as they were known. Raises `TooLarge`."""
        found: set[int] = set()
        for directory, name, number in self.part.known():
            seen = self.directories.get(directory)
            entry = None if seen is None else seen.entries.get(name)
            if not isinstance(entry, Node | SeenDirectory) or entry.number != number:
                found.add(number)
                self.at[number] = (directory, name)
        entries = self.part.tree.entries
        for above, name in self.walked:
            self._look(above, name, above.entries.get(name), entries, found)
        for one in self.inside:
            for name, below in one.entries.items():
                self._look(one, name, below, entries, found)
        return found

    def _look(
        self,
        directory: SeenDirectory,
        name: bytes,
        entry: Entry | None,
        entries: dict[int, dict[bytes, int]],
        found: set[int],
    ) -> None:
        """Adds what was seen at a name at which it isn't known, or otherwise than it is known."""
        if entry is None or isinstance(entry, Kept) or not entry.number:
            return
        is_there = entries.get(directory.number, {}).get(name) == entry.number
        if not is_there:
            found.add(entry.number)
        elif isinstance(entry, FreshFile):
            found.add(entry.number)
            self.at[entry.number] = (directory.number, name)

    def is_only_here(self, number: int, index: Index) -> bool:
        """Whether the one known place of a file is among those that are walked."""
        place = self.at.get(number)
        return place is not None and index.is_only(number, place[0])
