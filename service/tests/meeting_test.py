"""Batches of walks and looks that meet what is taken away beside them.

Walks and looks are fed to a small model of the program while rights are taken away at each moment
of them: what the model has is what the mirror knows, on disk too, and nobody is given back what was
taken away since the walk, or the look, began.
"""

import random
import sys
import tempfile
from contextlib import ExitStack
from dataclasses import dataclass, field, replace
from pathlib import Path
from unittest import mock

from harness import Score, options, planner_of
from plan_test import Model, some_rights, some_tree

from wumpus.mirror import feed  # isort: skip
from wumpus.mirror.batch import Batch, Texts  # isort: skip
from wumpus.mirror.feed import Feeder  # isort: skip
from wumpus.mirror.ledger import less, narrowed  # isort: skip
from wumpus.mirror.nodes import CLOSED, MARK, ROOT, Node, Rights, Tree  # isort: skip
from wumpus.mirror.planner import Plan, Planner  # isort: skip
from wumpus.mirror.state import apply, read_state  # isort: skip
from wumpus.shared.progress import Progress  # isort: skip
from wumpus.shared.store import Failed  # isort: skip

PLAIN = Rights(0o644, 5, 20)
OPEN = Rights(0o755, 0, 0)


class Saving(Model):
    """The model of a program, with saves."""

    def do_save(self) -> None:
        """Nothing is lost here."""

    def do_text(self, i: bytes, text: bytes) -> None:
        """A text, as `Reaching` reads it."""
        self.texts[int(i)] = text


@dataclass
class Reaching:
    """Feeds a model."""

    model: Saving = field(default_factory=lambda: Saving({ROOT: OPEN}, {}, {ROOT: {}}))
    words: list[bytes] = field(default_factory=list)

    def feed(self, batch: Batch, word: bytes = b"batch") -> None:
        """Carries out a batch."""
        self.words.append(word)
        batch.file.seek(0)
        while line := batch.file.readline():
            fields = line.rstrip(b"\n").split(b"\t")
            if fields[0] == b"text":
                self.model.do_text(fields[1], batch.file.read(int(fields[2])))
                batch.file.read(1)
            else:
                self.model.do(line)


def masked(rights: Rights) -> Rights:
    """The same, its list with the mask that the mode has: the program keeps one of both."""
    if not rights.entries:
        return rights
    return rights._replace(entries=b"%s%d" % (rights.entries[:-1], rights.mode >> 3 & 7))


class Meeting:
    """A feeder over a model, and rights that are taken away at random moments."""

    def __init__(self, seed: int, folder: Path, planner: Planner) -> None:
        self.draw = random.Random(seed)
        self.reach = Reaching()
        self.own = planner
        progress = Progress("live", True)
        self.feeder = Feeder(self.reach, folder, progress, planner)  # type: ignore[arg-type]
        self.feeder.state.lists = True
        self.following = 4
        self.caps: dict[int, Rights] = {}

    def take(self) -> None:
        """Something is seen of some nodes, and what is less is fed."""
        nodes = self.feeder.state.tree.nodes
        if not self.feeder.state.serial or self.draw.random() < 0.4:
            return
        numbers = [number for number in nodes if number != ROOT and self.draw.random() < 0.2]
        with self.feeder.ledger:
            found = {}
            for number in numbers:
                seen = nodes[number].rights
                if self.draw.random() < 0.5:
                    seen = seen._replace(mode=self.draw.choice((0o755, 0o750, 0o711, 0o640, 0)))
                elif self.draw.random() < 0.3:
                    seen = some_rights(self.draw)
                self.feeder.ledger.see(number, seen)
                self.caps[number] = less(self.caps.get(number, seen), seen)
                after = narrowed(nodes[number], seen)
                if after is not nodes[number]:
                    found[number] = after
            if found:
                self.feeder.take_away(
                    list(found.values()), self.reach, self.own  # type: ignore[arg-type]
                )

    def begin(self) -> None:
        """A walk or a look begins."""
        self.take()
        self.feeder.ledger.begin()
        self.caps.clear()

    def turn(self) -> None:
        """A walk, during which rights are taken away."""
        self.begin()
        old = self.feeder.state.tree
        tree = self.found(old)
        for number, node in tree.nodes.items():
            before = old.nodes.get(number)
            if before is not node:
                node.digest = before.digest if before is not None else b""
                node.identity = number
        tree.nodes[ROOT] = old.nodes[ROOT]
        self.take()

        plan_trees = self.feeder.planner.plan

        def planned(*words: object) -> Plan:
            if not self.feeder.ledger.lock.locked():
                self.take()
            plan = plan_trees(*words)  # type: ignore[arg-type]
            if not self.feeder.ledger.lock.locked():
                self.take()
            return plan

        same_names = feed._have_same_names

        def same(*words: Tree) -> bool:
            self.take()
            return same_names(*words)

        prepare = self.feeder.files.prepare

        def prepared(state: object) -> None:
            prepare(state)  # type: ignore[arg-type]
            self.take()

        with ExitStack() as stack:
            stack.enter_context(mock.patch.object(self.feeder.planner, "plan", planned))
            stack.enter_context(mock.patch.object(feed, "_have_same_names", same))
            stack.enter_context(mock.patch.object(self.feeder.files, "prepare", prepared))
            self.feeder.feed_tree(tree, {}, self.following, False)
        self.compare("a walk")

    def found(self, old: Tree) -> Tree:
        """What a walk found: all as it was, or other rights, or another tree."""
        kind = self.draw.randrange(4)
        if kind > 1:
            tree, self.following = some_tree(self.draw, old, self.following)
            for _ in range(4):
                self.following += 1
                number, given = self.following, some_rights(self.draw)
                tree.nodes[number] = Node(number, False, given, b"", number, 1, 0)
                tree.entries[ROOT][b"new%d" % number] = number
            self.following += 1
            return tree
        nodes = dict(old.nodes)
        for number, node in nodes.items():
            if kind and number != ROOT and self.draw.random() < 0.7:
                other = some_rights(self.draw)
                if self.draw.random() < 0.7:
                    mode = self.draw.choice((0o777, 0o755, 0o751, 0o640, 0o600))
                    other = node.rights._replace(mode=mode)
                nodes[number] = replace(node, rights=other)
        return Tree(nodes, {number: dict(names) for number, names in old.entries.items()})

    def look(self, folder: Path) -> None:
        """Looks at some files, during which rights are taken away."""
        self.begin()
        texts = Texts(folder)
        after = []
        for node in self.feeder.state.tree.nodes.values():
            if not node.is_directory and self.draw.random() < 0.4:
                text = b"%d" % self.draw.randrange(3)
                if text != node.digest:
                    texts.add(node.number, text)
                given = some_rights(self.draw)
                after.append(Node(node.number, False, given, text, node.number, 5, 0))
        self.take()
        self.feeder.feed_texts(after, texts)
        texts.close()
        self.compare("looks")

    def compare(self, what: str) -> None:
        """The model has what the mirror knows, which is on the disk; nothing is given back."""
        state, model = self.feeder.state, self.reach.model
        known = {number: masked(node.rights) for number, node in state.tree.nodes.items()}
        numbers = model.rights.keys() - {CLOSED, MARK}
        has = {number: masked(model.rights[number]) for number in numbers}
        assert has == known, f"{what}: {dict(set(has.items()) ^ set(known.items()))}"
        files = [one for one in state.tree.nodes.values() if not one.is_directory]
        texts = {one.number: one.digest for one in files}
        assert model.texts == texts, f"{what}: texts"
        assert b"serial-" + state.serial.encode() in model.entries[CLOSED], f"{what}: the serial"
        for number, cap in self.caps.items():
            node = state.tree.nodes.get(number)
            assert node is None or less(node.rights, cap) == node.rights, (
                f"{what}: {number} is given {known[number]}, and {cap} was seen"
            )
        written = read_state(self.feeder.files.path)
        assert written is not None
        for addition in written[1]:
            apply(written[0], addition)
        assert written[0].serial == state.serial, f"{what}: the serial on disk"
        assert written[0].tree.nodes == state.tree.nodes, f"{what}: what is on disk"


def meeting(seed: int, planner: Planner) -> None:
    """Twelve turns with looks."""
    with tempfile.TemporaryDirectory() as name:
        meeting = Meeting(seed, Path(name), planner)
        for _ in range(12):
            meeting.turn()
            for _ in range(meeting.draw.randrange(3)):
                meeting.look(Path(name))
            meeting.take()
            meeting.compare("afterwards")


def prepared_state(score: Score, planner: Planner) -> None:
    """A kill while the batch of a walk is fed, into which something had been taken away."""
    with tempfile.TemporaryDirectory() as name:
        one = Meeting(1, Path(name), planner)
        for _ in range(8):
            one.turn()
        feeder, draw = one.feeder, one.draw
        feeder.ledger.begin()
        nodes = feeder.state.tree.nodes
        number = next(n for n, node in nodes.items() if n != ROOT and node.rights.mode)
        tree, _ = some_tree(draw, feeder.state.tree, 9000)
        tree.nodes[number] = Node(number, nodes[number].is_directory, PLAIN, b"", number, 1, 0)
        if nodes[number].is_directory:
            tree.entries.setdefault(number, {})
        tree.entries[ROOT][b"it"] = number
        with feeder.ledger:
            feeder.ledger.see(number, Rights(0, 5, 20))
        with mock.patch.object(feeder, "_feed_lines", mock.Mock(side_effect=Failed("killed"))):
            try:
                feeder.feed_tree(tree, {}, 9999, False)
            except Failed:
                pass
        found = feeder._prepared()
        is_shut = found is not None and found.tree.nodes[number].rights.mode == 0
        score.check(is_shut, "a prepared state lacks what was taken away")


def of_root(score: Score, planner: Planner) -> None:
    """Where the root of all has less it isn't opened by a walk that saw it open."""
    with tempfile.TemporaryDirectory() as name:
        one = Meeting(1, Path(name), planner)
        one.turn()
        with one.feeder.ledger:
            one.feeder.ledger.see(ROOT, Rights(0o700, 0, 0))
        old = one.feeder.state.tree
        one.feeder.feed_tree(Tree(dict(old.nodes), dict(old.entries)), {5: (20,)}, 99, False)
        score.check(one.reach.model.rights[ROOT].mode == 0o700, "it is opened")


def main() -> int:
    """Runs the test; where no `wumpus-plan` is built, the stand-in orders."""
    parser = options(__doc__ or "")
    parser.add_argument("--histories", type=int, default=150)
    given = parser.parse_args()
    score = Score("meeting")
    planner = Planner(planner_of(given.program))
    prepared_state(score, planner)
    of_root(score, planner)
    for seed in range(given.seed, given.seed + given.histories):
        try:
            meeting(seed, planner)
            score.check(True, "")
        except (AssertionError, KeyError) as error:
            score.check(False, f"history {seed}: {type(error).__name__} {error}")
    planner.close()
    return score.end()


if __name__ == "__main__":
    sys.exit(main())
