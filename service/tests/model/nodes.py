"""The tree: directories, files, names, rights, and the events that change them."""

from dataclasses import dataclass, field

ROOT = 1
NAME_MAX = 255
DEPTH_MAX = 255
EXECUTE, READ = 1, 4


class Refused(Exception):
    """An event that changes nothing; the text is the word with which it is refused."""


@dataclass(frozen=True)
class Entries:
    """An access list without its mask, which the mode has."""

    owning: int
    users: dict[int, int]
    groups: dict[int, int]


@dataclass
class Node:
    """A file or a directory: `names` are a directory's, `text` and `links` a file's.

    `text` is the number under which the store has the text, 0 for the empty one.
    """

    owner: int
    group: int
    mode: int
    names: dict[bytes, int] | None = None
    above: int = 0
    entries: Entries | None = None
    text: int = 0
    links: int = 0

    def grants(self, user: int, groups: frozenset[int], bit: int) -> bool:
        """Whether a user with these groups is granted what the bit says."""
        if user == 0:
            return True
        if user == self.owner:
            return bool(self.mode >> 6 & bit)
        if self.entries is None:
            return bool(self.mode >> (3 if self.group in groups else 0) & bit)
        mask = self.mode >> 3 & 7
        if user in self.entries.users:
            return bool(self.entries.users[user] & mask & bit)
        hers = [bits for group, bits in self.entries.groups.items() if group in groups]
        if self.group in groups:
            hers.append(self.entries.owning)
        if hers:
            return any(bits & mask & bit for bits in hers)
        return bool(self.mode & bit)


def _check_name(name: bytes) -> None:
    fits = 1 <= len(name) <= NAME_MAX and name not in (b".", b"..")
    if not fits or b"/" in name or b"\0" in name:
        raise Refused("badname")


@dataclass
class Tree:
    """All nodes by their numbers, and the users' groups."""

    nodes: dict[int, Node] = field(default_factory=lambda: {ROOT: Node(0, 0, 0o755, {})})
    users: dict[int, frozenset[int]] = field(default_factory=dict)

    def names(self, number: int) -> dict[bytes, int]:
        """The names in a directory. Raises `Refused`."""
        node = self.node(number)
        if node.names is None:
            raise Refused("kind")
        return node.names

    def node(self, number: int) -> Node:
        """The node of this number. Raises `Refused`."""
        if number not in self.nodes:
            raise Refused("nosuch")
        return self.nodes[number]

    def _depth(self, number: int) -> int:
        depth = 1
        while number != ROOT:
            number = self.nodes[number].above
            depth += 1
        return depth

    def _height(self, number: int) -> int:
        """How many directories are one below the other from this one on."""
        height, row = 0, [number]
        while row:
            height += 1
            below = [child for one in row for child in (self.nodes[one].names or {}).values()]
            row = [child for child in below if self.nodes[child].names is not None]
        return height

    def user(self, user: int, groups: list[int]) -> None:
        """Sets a user's groups."""
        self.users[user] = frozenset(groups)

    def make(self, number: int, parent: int, name: bytes, node: Node) -> None:
        """Makes a file or a directory."""
        _check_name(name)
        names = self.names(parent)
        if number in self.nodes or name in names:
            raise Refused("exists")
        if node.names is not None:
            if self._depth(parent) >= DEPTH_MAX:
                raise Refused("deep")
            node.above = parent
        else:
            node.links = 1
        self.nodes[number] = node
        names[name] = number

    def link(self, number: int, parent: int, name: bytes) -> None:
        """Makes another link to a file."""
        _check_name(name)
        node = self.node(number)
        self.node(parent)
        if node.names is not None:
            raise Refused("kind")
        names = self.names(parent)
        if name in names:
            raise Refused("exists")
        names[name] = number
        node.links += 1

    def unlink(self, parent: int, name: bytes) -> None:
        """Removes a name of a file."""
        self._remove(parent, name, False)

    def rmdir(self, parent: int, name: bytes) -> None:
        """Removes an empty directory."""
        self._remove(parent, name, True)

    def _remove(self, parent: int, name: bytes, is_directory: bool) -> None:
        _check_name(name)
        names = self.names(parent)
        if name not in names:
            raise Refused("nosuch")
        node = self.nodes[names[name]]
        if (node.names is not None) is not is_directory:
            raise Refused("kind")
        if node.names:
            raise Refused("notempty")
        self._drop(names, name)

    def _drop(self, names: dict[bytes, int], name: bytes) -> None:
        """Takes a name away, and with the last one its node."""
        number = names.pop(name)
        node = self.nodes[number]
        node.links -= 1
        if node.links <= 0:
            del self.nodes[number]

    def rename(self, parent: int, name: bytes, other: int, new: bytes) -> None:
        """Moves a name, perhaps over another one."""
        for one in (name, new):
            _check_name(one)
        for number in (parent, other):
            self.node(number)
        names, others = self.names(parent), self.names(other)
        if name not in names:
            raise Refused("nosuch")
        moved = names[name]
        there = others.get(new)
        if there == moved:
            return
        self._check_move(moved, other, there)
        if there is not None:
            self._drop(others, new)
        others[new] = names.pop(name)
        if self.nodes[moved].names is not None:
            self.nodes[moved].above = other

    def _check_move(self, moved: int, other: int, there: int | None) -> None:
        is_directory = self.nodes[moved].names is not None
        above = other
        while is_directory and above != ROOT:
            if above == moved:
                raise Refused("loop")
            above = self.nodes[above].above
        if is_directory and moved == ROOT:
            raise Refused("loop")
        if there is not None:
            if (self.nodes[there].names is not None) is not is_directory:
                raise Refused("kind")
            if self.nodes[there].names:
                raise Refused("notempty")
        if is_directory and self._depth(other) + self._height(moved) > DEPTH_MAX:
            raise Refused("deep")

    def chmod(self, number: int, mode: int) -> None:
        """Gives a node a mode."""
        self.node(number).mode = mode

    def chown(self, number: int, owner: int, group: int) -> None:
        """Gives a node an owner and a group."""
        node = self.node(number)
        node.owner, node.group = owner, group

    def acl(self, number: int, entries: Entries | None, mask: int) -> None:
        """Gives a node an access list, or takes it away."""
        node = self.node(number)
        if entries is not None:
            node.mode = node.mode & ~0o070 | mask << 3
        elif node.entries is not None:
            node.mode = node.mode & ~0o070 | node.entries.owning << 3
        node.entries = entries
