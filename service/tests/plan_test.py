"""The order of a batch by `wumpus-plan`, over random pairs of trees.

Each line is carried out on a small model of the program's tree: none may be refused, the last tree
is the new one, and between two lines nobody sees a path, or a text, that she sees neither before
nor after the batch. So a batch may be cut after each line. While texts are given nobody sees a file
that is given one. What wasn't seen is kept, and nobody is shown what is behind a name that is kept. The lines are those of a plain model of the order, too.
"""

import random
import sys
from dataclasses import dataclass, field, replace

from harness import Pace, Score, absolute, options, planner_of
from model import plans

from wumpus.mirror.changes import (  # isort: skip
    Groups,
    Told,
    told_of_pairs,
    told_of_trees,
)
from wumpus.mirror.keep import Top, keep  # isort: skip
from wumpus.mirror.nodes import CLOSED, ROOT, Node, Rights, Tree  # isort: skip
from wumpus.mirror.planner import BadPlan, Plan, Planner  # isort: skip
from wumpus.shared.script import unescape  # isort: skip

USERS = (5, 6, 7, 8)
NAMES = (b"a", b"b", b"c", b"d", b"e\t", b"\n", b"\\n\\", b"\xff\r\x01 ", b"." * 200)


@dataclass
class Model:
    """The program's tree, by the rules of docs/SCRIPT.md; `do` fails where a line is refused."""

    rights: dict[int, Rights] = field(default_factory=dict)
    texts: dict[int, bytes] = field(default_factory=dict)
    entries: dict[int, dict[bytes, int]] = field(default_factory=dict)
    groups: dict[int, set[int]] = field(default_factory=dict)

    def do(self, line: bytes) -> None:
        """Carries out one line."""
        fields = [unescape(one) or b"" for one in line.rstrip(b"\n").split(b"\t")]
        getattr(self, "do_" + fields[0].decode())(*fields[1:])

    def do_user(self, user: bytes, *groups: bytes) -> None:
        self.groups[int(user)] = {int(group) for group in groups}

    def _make(self, number: bytes, parent: bytes, name: bytes, rights: Rights) -> None:
        names = self.entries[int(parent)]
        assert name not in names and int(number) not in self.rights
        names[name] = int(number)
        self.rights[int(number)] = rights

    def do_mkdir(self, i: bytes, p: bytes, n: bytes, u: bytes, g: bytes, m: bytes) -> None:
        self._make(i, p, n, Rights(int(m, 8), int(u), int(g)))
        self.entries[int(i)] = {}

    def do_create(self, i: bytes, p: bytes, n: bytes, u: bytes, g: bytes, m: bytes) -> None:
        self._make(i, p, n, Rights(int(m, 8), int(u), int(g)))
        self.texts[int(i)] = b""

    def do_link(self, i: bytes, parent: bytes, name: bytes) -> None:
        assert int(i) in self.texts and name not in self.entries[int(parent)]
        self.entries[int(parent)][name] = int(i)

    def do_unlink(self, parent: bytes, name: bytes) -> None:
        child = self.entries[int(parent)].pop(name)
        assert child in self.texts
        if not any(child in names.values() for names in self.entries.values()):
            del self.texts[child], self.rights[child]

    def do_rmdir(self, parent: bytes, name: bytes) -> None:
        child = self.entries[int(parent)].pop(name)
        assert self.entries[child] == {}
        del self.entries[child], self.rights[child]

    def do_rename(self, parent: bytes, name: bytes, other: bytes, new: bytes) -> None:
        child = self.entries[int(parent)][name]
        assert new not in self.entries[int(other)]
        above = int(other)
        while above != ROOT:
            assert above != child
            above = next(at for at, names in self.entries.items() if above in names.values())
        del self.entries[int(parent)][name]
        self.entries[int(other)][new] = child

    def do_chmod(self, i: bytes, mode: bytes) -> None:
        old = self.rights[int(i)]
        self.rights[int(i)] = Rights(int(mode, 8), *old[1:])

    def do_chown(self, i: bytes, owner: bytes, group: bytes) -> None:
        old = self.rights[int(i)]
        self.rights[int(i)] = Rights(old.mode, int(owner), int(group), old.entries)

    def do_acl(self, i: bytes, entries: bytes) -> None:
        old = self.rights[int(i)]
        mode = old.mode
        if entries:
            mode = mode & ~0o070 | int(entries[-1:]) << 3
        elif old.entries:
            mode = mode & ~0o070 | int(old.entries[3:4]) << 3
        self.rights[int(i)] = Rights(mode, old.owner, old.group, entries)

    def allows(self, user: int, number: int, bit: int) -> bool:
        """Whether the node grants the user this bit."""
        rights = self.rights[number]
        groups = self.groups.get(user, set())
        if user == rights.owner:
            return bool(rights.mode >> 6 & bit)
        if not rights.entries:
            return bool(rights.mode >> (3 if rights.group in groups else 0) & bit)
        mask = rights.mode >> 3 & 7
        granting = []
        for entry in rights.entries.split(b",")[:-1]:
            kind, who, bits = entry.split(b":")
            if kind == b"u" and int(who) == user:
                return bool(int(bits) & mask & bit)
            if kind == b"g" and (int(who) if who else rights.group) in groups:
                granting.append(int(bits))
        if granting:
            return bool(mask & bit) and any(bits & bit for bits in granting)
        return bool(rights.mode & bit)

    def seen(self) -> set[tuple[int, int, bytes]]:
        """Which user sees which file with which text."""
        found: set[tuple[int, int, bytes]] = set()
        for user in USERS:
            waiting = [ROOT]
            while waiting:
                directory = waiting.pop()
                if not self.allows(user, directory, 1):
                    continue
                for child in self.entries[directory].values():
                    if child in self.entries:
                        waiting.append(child)
                    elif self.allows(user, child, 4):
                        found.add((user, child, self.texts[child]))
        return found


def some_rights(draw: random.Random) -> Rights:
    """Random rights, with a list one time in four."""
    mode, owner, group = draw.choice((0o755, 0o700, 0o640, 0o077, 0o711, 0)), 0, 0
    owner, group = draw.choice(USERS), draw.choice((20, 21))
    if draw.random() < 0.75:
        return Rights(mode, owner, group)
    mask = draw.randrange(1, 8)
    entries = b"g::%d,u:%d:%d,g:%d:%d,m::%d" % (
        draw.randrange(8), draw.choice(USERS), draw.randrange(8),
        draw.choice((20, 21, 22)), draw.randrange(8), mask,
    )  # fmt: skip
    return Rights(mode & ~0o070 | mask << 3, owner, group, entries)


def some_tree(draw: random.Random, old: Tree, following: int) -> tuple[Tree, int]:
    """A tree in which most nodes of an old one are again, at other places and with other rights."""
    tree = Tree({ROOT: Node(ROOT, True, some_rights(draw), b"", 0, 1, 0)}, {ROOT: {}})
    kept = [node for node in old.nodes.values() if node.number != ROOT and draw.random() < 0.8]
    draw.shuffle(kept)
    for _ in range(draw.randrange(5)):
        kept.append(Node(following, draw.random() < 0.5, Rights(0, 0, 0), b"", 0, 1, 0))
        following += 1
    for node in kept:
        again = draw.random() < 0.5
        rights = node.rights if again and node.number in old.nodes else some_rights(draw)
        same = node.is_directory or draw.random() < 0.5
        text = node.digest if same else b"%d" % draw.randrange(3)
        tree.nodes[node.number] = Node(
            node.number, node.is_directory, rights, text, 0, draw.randrange(9), 0
        )
        if node.is_directory:
            tree.entries[node.number] = {}
    placed = [ROOT]
    for node in kept:
        for _ in range(1 if node.is_directory else draw.choice((1, 1, 1, 2, 3))):
            names = tree.entries[draw.choice(placed)]
            name = draw.choice((*NAMES, b"%d" % node.number))
            while name in names:
                name += b"x"
            names[name] = node.number
        if node.is_directory:
            placed.append(node.number)
    entries = list(tree.entries.items())
    draw.shuffle(entries)
    return Tree(tree.nodes, dict(entries)), following


def reached(tree: Tree) -> Tree:
    """What of a tree is reached from its root."""
    numbers = {ROOT}
    waiting = [ROOT]
    while waiting:
        for child in tree.entries[waiting.pop()].values():
            if child in tree.entries and child not in numbers:
                waiting.append(child)
            numbers.add(child)
    return Tree(
        {number: tree.nodes[number] for number in numbers},
        {number: names for number, names in tree.entries.items() if number in numbers},
    )


def unseen(draw: random.Random, old: Tree, new: Tree) -> tuple[Tree, list[Top]]:
    """A tree in which some names weren't seen that the old one has, and the names that are kept."""
    chosen = [link for link in old.links() if link[0] in new.entries and draw.random() < 0.3]
    for parent, name, _ in chosen:
        new.entries[parent].pop(name, None)
    tree = reached(new)
    tops = [Top(*link) for link in chosen if link[0] in tree.entries]
    before = {number: set(names) for number, names in tree.entries.items()}
    keep(old, tree, tops)
    kept = [top for top in tops if top.name in tree.entries[top.parent]]
    kept = [top for top in kept if top.name not in before.get(top.parent, set())]
    gone = [top for top in tops if top not in kept and top.number not in before]
    assert not [top for top in gone if top.number not in tree.nodes], "something is gone"
    return tree, kept


def shown_through(model: Model, tops: list[Top]) -> set[tuple[int, int]]:
    """Which user is shown which file by a way through one of these names."""
    names = {(top.parent, top.name) for top in tops}
    shown = set()
    for user in USERS:
        waiting = [(ROOT, False)]
        while waiting:
            directory, is_through = waiting.pop()
            if not model.allows(user, directory, 1):
                continue
            for name, child in model.entries[directory].items():
                through = is_through or (directory, name) in names
                if child in model.entries:
                    waiting.append((child, through))
                elif through and model.allows(user, child, 4):
                    shown.add((user, child))
    return shown


def lines_of(plan: Plan, old: Tree, new: Tree) -> list[bytes | tuple[int, bytes]]:
    """The lines of a batch, and the texts in their midst."""
    texts: list[bytes | tuple[int, bytes]] = []
    for number, node in new.nodes.items():
        before = old.nodes[number].digest if number in old.nodes else b""
        if before != node.digest:
            texts.append((number, node.digest))
    return [*plan.head, *texts, *plan.tail]


def planned(planner: Planner, told: Told) -> Plan:
    """The program's plan, which has the lines of the model in the same order."""
    nodes = list(told.nodes)
    plan = planner.order(Told(told.users, told.count, iter(nodes)))
    assert (plan.head, plan.tail) == plans.plan(told.users, nodes), "other lines"
    return plan


def groups_in(model: Model) -> Groups:
    """The groups of each user."""
    return {user: tuple(sorted(groups)) for user, groups in model.groups.items()}


def some_slice(draw: random.Random, tree: Tree) -> tuple[Tree, Told]:
    """The tree with other texts and rights of some files, and what is told of them."""
    files = [node for node in tree.nodes.values() if not node.is_directory]
    chosen = [node for node in files if draw.random() < 0.4]
    pairs = []
    for node in chosen:
        text = node.digest if draw.random() < 0.5 else b"%d" % draw.randrange(3)
        rights = node.rights if draw.random() < 0.3 else some_rights(draw)
        pairs.append((node, replace(node, rights=rights, digest=text)))
    nodes = tree.nodes | {after.number: after for _, after in pairs}
    return Tree(nodes, tree.entries), told_of_pairs(pairs)


def round_of(model: Model, old: Tree, new: Tree, users: Groups, plan: Plan) -> None:
    """Carries out one batch, and looks at each moment of it."""
    seen = [model.seen()]
    for line in lines_of(plan, old, new):
        if isinstance(line, bytes):
            model.do(line)
        else:
            model.texts[line[0]] = line[1]
        seen.append(model.seen())
    for moment in seen:
        assert moment <= seen[0] | seen[-1], moment - (seen[0] | seen[-1])
    texted = {line[0] for line in lines_of(plan, old, new) if not isinstance(line, bytes)}
    for moment in seen[len(plan.head) : len(plan.head) + len(texted) + 1]:
        shown = {number for _, number, _ in moment}
        assert not texted or not shown & texted, "a file is shown that is given a text"
    assert model.entries.pop(CLOSED) == {}
    del model.entries[ROOT][b"closed"]
    assert model.entries == new.entries
    assert model.rights == {number: node.rights for number, node in new.nodes.items()} | {
        CLOSED: Rights(0, 0, 0)
    }
    model.entries[CLOSED] = {}
    model.entries[ROOT][b"closed"] = CLOSED
    assert model.texts == {n: one.digest for n, one in new.nodes.items() if not one.is_directory}
    assert {user: tuple(sorted(model.groups.get(user, ()))) for user in users} == users


def history(seed: int, planner: Planner) -> None:
    """Twelve batches, one after the other, and after each a slice of files that were looked at."""
    draw = random.Random(seed)
    model = Model({ROOT: Rights(0o755, 0, 0), CLOSED: Rights(0, 0, 0)}, {}, {})
    model.entries = {ROOT: {b"closed": CLOSED}, CLOSED: {}}
    first = Node(ROOT, True, Rights(0o755, 0, 0), b"", 0, 1, 0)
    tree, following = Tree({ROOT: first}, {ROOT: {}}), 4
    users: Groups = {}
    for _ in range(12):
        new, following = some_tree(draw, tree, following)
        tops: list[Top] = []
        if draw.random() < 0.5:
            new, tops = unseen(draw, tree, new)
        if not users or draw.random() < 0.2:
            users = {user: tuple(g for g in (20, 21, 22) if draw.random() < 0.5) for user in USERS}
        told = told_of_trees(tree, new, groups_in(model), users)
        round_of(model, tree, new, users, planned(planner, told))
        assert not shown_through(model, tops), "what is kept is shown"
        tree, told = some_slice(draw, new)
        round_of(model, new, tree, users, planned(planner, told))


def main() -> int:
    """Runs the test; where no `wumpus-plan` is built, the stand-in orders."""
    parser = options(__doc__ or "")
    parser.add_argument("--histories", type=int, default=2000)
    parser.add_argument("--planner", type=absolute)
    given = parser.parse_args()
    score = Score("plan")
    pace = Pace("plan", given.histories, "histories")
    planner = Planner(given.planner or planner_of(given.program))
    for seed in range(given.seed, given.seed + given.histories):
        try:
            history(seed, planner)
            score.check(True, "")
        except (AssertionError, KeyError, BadPlan) as error:
            score.check(False, f"history {seed}: {type(error).__name__} {error}")
        pace.tell(seed - given.seed)
    planner.close()
    return score.end()


if __name__ == "__main__":
    sys.exit(main())
