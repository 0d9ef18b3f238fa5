"""What a batch changes, and how `wumpus-plan` is told of it.

Each node of which something changes is told once, with the names that go and those that come. In
which order the program is to hear of it isn't decided here.
"""

from collections import Counter
from collections.abc import Iterator
from dataclasses import dataclass, field
from itertools import chain

from ..shared.script import escape, spell, spell_mode
from .nodes import ROOT, Node, Rights, Tree

Groups = dict[int, tuple[int, ...]]
Pairs = list[tuple[Node, Node]]  # of one node each, before and after
Place = tuple[int, bytes]  # a directory, and a name in it
Links = dict[int, list[Place]]


@dataclass(slots=True)
class Changes:
    """The names that go and those that come, by what they name."""

    going: Links = field(default_factory=dict)
    coming: Links = field(default_factory=dict)


@dataclass(frozen=True, slots=True)
class Told:
    """A batch as `wumpus-plan` reads it: a line of each user, and the lines of so many nodes.

    Numbers are spelled as they are: `wumpus-plan` refuses those that no line can have.
    """

    users: list[bytes]
    count: int
    nodes: Iterator[bytes]


def told_of_trees(old: Tree, new: Tree, old_users: Groups, new_users: Groups) -> Told:
    """What leads from one tree with its users to another.

    Each directory stands behind the one in which it comes to stand, or stood where it goes.
    """
    users = set_users(old_users, new_users)
    changes = changes_of(old, new)
    changed = (after.number for _, after in changed_nodes(old, new))
    numbers = dict.fromkeys(chain(changes.going, changes.coming, changed, [ROOT] if users else []))
    ordered = _in_order(list(numbers), old, new, changes)
    return Told(users, len(ordered), _lines_of(ordered, old, new, changes))


def told_of_pairs(pairs: Pairs) -> Told:
    """What leads from some nodes to what they are now; no name changes."""
    changed = [pair for pair in pairs if _differ(*pair)]
    lines = (_staying(before, after, [], [], True) for before, after in changed)
    return Told([], len(changed), lines)


# ---- what differs


def changes_of(old: Tree, new: Tree) -> Changes:
    """The names in which the trees differ."""
    changes = Changes()
    for parent, names in old.entries.items():
        others = new.entries.get(parent, {})
        if names is not others and names != others:
            for name, child in names.items():
                if others.get(name) != child:
                    changes.going.setdefault(child, []).append((parent, name))
    for parent, names in new.entries.items():
        others = old.entries.get(parent, {})
        if names is not others and names != others:
            for name, child in names.items():
                if others.get(name) != child:
                    changes.coming.setdefault(child, []).append((parent, name))
    return changes


def changed_nodes(old: Tree, new: Tree) -> Pairs:
    """The nodes of both trees that have other rights or another text, before and after."""
    pairs = []
    for number, node in new.nodes.items():
        before = old.nodes.get(number)
        if before is not None and before is not node and _differ(before, node):
            pairs.append((before, node))
    return pairs


def _differ(before: Node, after: Node) -> bool:
    return before.rights != after.rights or before.digest != after.digest


def set_users(old: Groups, new: Groups) -> list[bytes]:
    """Sets the groups of each user who has others now."""
    lines = [spell(b"user", user) for user, groups in old.items() if groups and user not in new]
    for user, groups in new.items():
        if groups != old.get(user, ()):
            lines.append(spell(b"user", user, *groups))
    return lines


def count_kept(new: Tree, changes: Changes) -> Counter[int]:
    """How many of its names each file keeps of which some name goes."""
    kept: Counter[int] = Counter()
    if not any(child in new.nodes for child in changes.going):
        return kept
    for _, _, child in new.links():
        if child in changes.going:
            kept[child] += 1
    for child, places in changes.coming.items():
        if child in changes.going:
            kept[child] -= len(places)
    return kept


# ---- in which order nodes are told, and their lines


def _in_order(numbers: list[int], old: Tree, new: Tree, changes: Changes) -> list[int]:
    """The same numbers: directories that are there after the batch, those that go, and files."""
    there = [number for number in numbers if number in new.entries]
    gone = [number for number in numbers if number in old.entries and number not in new.entries]
    files = [one for one in numbers if one not in new.entries and one not in old.entries]
    if any(number in changes.coming for number in there):
        depths = new.depths()
        there.sort(key=lambda number: depths[number])
    if gone:
        depths = old.depths()
        gone.sort(key=lambda number: depths[number])
    return [*there, *gone, *files]


def _lines_of(numbers: list[int], old: Tree, new: Tree, changes: Changes) -> Iterator[bytes]:
    """The lines of each node."""
    kept = count_kept(new, changes)
    for number in numbers:
        going, coming = changes.going.get(number, []), changes.coming.get(number, [])
        before, after = old.nodes.get(number), new.nodes.get(number)
        if after is None:
            yield _gone(old.nodes[number], going)
        elif before is None:
            yield _made(after, coming)
        else:
            keeps_name = _keeps_name(after, going, coming, kept[number])
            yield _staying(before, after, going, coming, keeps_name)


def _keeps_name(node: Node, going: list[Place], coming: list[Place], kept: int) -> bool:
    """Whether a node that stays has a name before the batch and after it; the root counts so."""
    if node.is_directory:
        return not going and not coming
    return not going or kept > 0


def _kind(node: Node) -> bytes:
    return b"directory" if node.is_directory else b"file"


def _names(word: bytes, places: list[Place]) -> list[bytes]:
    """A line of each name, which begin with these fields."""
    return [b"%s\t%d\t%s\n" % (word, parent, escape(name)) for parent, name in places]


def _gone(node: Node, going: list[Place]) -> bytes:
    head = b"goes\t%d\t%s\t%d\n" % (node.number, _kind(node), len(going))
    return head + b"".join(_names(b"unlink", going))


def _made(node: Node, coming: list[Place]) -> bytes:
    number, (mode, owner, group, entries) = node.number, node.rights
    parent, name = coming[0]
    command = b"mkdir" if node.is_directory else b"create"
    further = _names(b"link\t%d" % number, coming[1:]) if len(coming) > 1 else []
    if entries:
        further.append(b"acl\t%d\t%s\n" % (number, _masked(node.rights)))
    return b"made\t%d\t%s\t%s\t%d\n%s\t%d\t%d\t%s\t%d\t%d\t%s\n%s" % (
        number, _kind(node), b"text" if node.digest else b"same", 1 + len(further),
        command, number, parent, escape(name), owner, group, spell_mode(mode), b"".join(further),
    )  # fmt: skip


def _staying(
    before: Node, after: Node, going: list[Place], coming: list[Place], keeps_name: bool
) -> bytes:
    further = [
        *_rights_changed(after.number, before.rights, after.rights),
        *_names(b"unlink", going),
        *_names(b"link\t%d" % after.number, coming),
    ]
    return b"stays\t%d\t%s\t%s\t%s\t%s\t%d\n%s" % (
        after.number, _kind(after), spell_mode(before.rights.mode),
        b"text" if before.digest != after.digest else b"same",
        b"other" if keeps_name else b"none", len(further), b"".join(further),
    )  # fmt: skip


def _rights_changed(number: int, before: Rights, after: Rights) -> Iterator[bytes]:
    """What is told of rights that aren't the same."""
    if before.mode != after.mode:
        yield b"chmod\t%d\t%s\n" % (number, spell_mode(after.mode))
    if (before.owner, before.group) != (after.owner, after.group):
        yield b"chown\t%d\t%d\t%d\n" % (number, after.owner, after.group)
    if before.entries != after.entries:
        yield b"acl\t%d\t%s\n" % (number, _masked(after))


def _masked(rights: Rights) -> bytes:
    """The list with the mask that the mode has, as the program keeps both: one digit."""
    if not rights.entries:
        return b""
    return b"%s%d" % (rights.entries[:-1], rights.mode >> 3 & 7)
