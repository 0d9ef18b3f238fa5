"""What the program has, and how it is brought to have something else: batch by batch.

The state of after a batch is written before the batch is fed. Which state is true the program
tells, by the serial of its last batch.
"""

from dataclasses import replace
from pathlib import Path
from typing import Protocol

from ..shared.progress import Progress
from ..shared.script import spell
from ..shared.store import Failed
from .batch import SAVE, Batch, Texts, begin, end, question
from .changes import Groups, Pairs
from .ledger import Ledger
from .nodes import MARK, ROOT, Node, Tree
from .planner import Plan, Planner
from .reach import NoMemory, Reach, Served
from .state import FORMAT, Addition, BadState, Files, State, apply, new_serial, read_state

LINES_AT_LEAST = 1000  # of a piece of a batch for which memory is short


class Reaches(Protocol):
    """Reaches a program that a service holds."""

    def feed(self, batch: Batch, word: bytes) -> None:
        """Feeds a batch whole, or not at all; by the word `live` one that isn't saved."""


class Follower(Protocol):
    """Keeps something that is made of the tree, and is told of each change by a look."""

    def failed(self) -> None:
        """The batch isn't in the program. Under the lock of the batches."""

    def is_less(self, number: int) -> None:
        """A node is given less than the look saw, since something of it was taken away."""

    def takes_away(self, tree: Tree, addition: Addition) -> None:
        """The tree is about to be changed."""

    def adds(self, tree: Tree, addition: Addition) -> None:
        """It was."""


class Feeder:
    """The program, and `state`: what it has. `files` has the state between two runs."""

    def __init__(
        self, reach: Reach, folder: Path, progress: Progress, planner: Planner
    ) -> None:
        self.reach = reach
        self.folder = folder
        self.planner = planner
        self.files = Files(folder)
        self.progress = progress
        self.state = State()
        self.batches = 0
        self.ledger = Ledger()

    # ---- where the program stands

    def begin(self, anew: bool, dry: bool = False) -> None:
        """Finds out where the program stands. Raises `Failed`, and `BadState`.

        Where that isn't known all is fed anew; before a dry run nothing is moved aside for it.
        """
        self.planner.start()
        found = None if anew else self._stand()
        if found is None:
            if not dry:
                self._anew(anew)
            found = State()
        self.state = found
        node = MARK if found.serial else ROOT
        reply = self.reach.ask(spell(b"acl", node, b""))
        if reply not in (b"ok", b"refused\tsyntax"):
            raise Failed(f"the program answered {reply!r} to an access list")
        self.state.lists = reply == b"ok"

    def _anew(self, wanted: bool) -> None:
        """Begins with an empty store; one that no mirror filled is moved aside where that's wanted.

        Raises `Failed` where it isn't.
        """
        if self.files.path.exists() or wanted:
            self.progress.warn("the store isn't as the mirror left it; all is fed anew")
            self.reach.reset()
        elif self.reach.ask(b"stat\n").split(b"\t")[:2] != [b"stat", b"0"]:
            raise Failed("the store has files that no mirror put there: --anew moves it aside")
        self.files.forget()

    def _stand(self) -> State | None:
        """The state that the program is in, of those that are written."""
        prepared = self._prepared()
        if prepared is not None and self._is_at(prepared.serial):
            self.files.commit()
            return prepared
        self.files.drop()
        written = read_state(self.files.path)
        if written is None:
            return None
        state, additions = written
        serials = [state.serial, *(addition.serial for addition in additions)]
        for count in reversed(range(len(serials))):
            if self._is_at(serials[count]):
                for addition in additions[:count]:
                    apply(state, addition)
                if additions or state.format != FORMAT or not self.files.is_whole():
                    state.format = FORMAT
                    self.files.prepare(state)
                    self.files.commit()
                return state
        return None

    def _prepared(self) -> State | None:
        """The state that was about to be fed; one that was cut off was never fed."""
        try:
            found = read_state(self.files.next)
        except BadState:
            return None
        if found is None:
            return None
        for addition in found[1]:
            apply(found[0], addition)
        return found[0]

    def _is_at(self, serial: str) -> bool:
        return self.reach.ask(question(serial)) == b"ok"

    # ---- batches

    def feed_tree(self, tree: Tree, users: Groups, following: int, unlisted: bool) -> None:
        """Brings the program to a tree and users: names and rights in one batch, and no text.

        Raises `Failed`, also where there is no plan: then nothing is fed.
        """
        old, before = self.state, self.state.serial
        plan = self.planner.plan(old.tree, tree, old.users, users)
        written = before if before and plan.is_empty() else new_serial(before)
        new = replace(
            old, serial=written, tree=tree, users=users, following=following, unlisted=unlisted
        )
        nodes = old.tree.nodes
        changed = {number for number, node in tree.nodes.items() if nodes.get(number) is not node}
        is_small = before and users == old.users and unlisted == old.unlisted
        is_small = is_small and not self.files.is_long()
        is_small = is_small and _have_same_names(old.tree, tree)
        if not is_small:
            self.files.prepare(new)
        with self.ledger:
            is_other, seen = self._correct(tree)
            if is_other or old.serial != before:
                plan = self.planner.plan(old.tree, tree, old.users, users)
            is_fed = written != before or not plan.is_empty()
            if written == before:
                new.serial = new_serial(old.serial) if is_fed else old.serial
            # Where only nodes changed the whole state isn't written: it may be large.
            told = changed | seen if is_small else seen
            if told or new.serial != written or (is_small and is_fed):
                addition = Addition(new.serial, [tree.nodes[number] for number in told])
                self.files.add(addition, self.files.path if is_small else self.files.next)
            if is_fed:
                self._feed_lines(old.serial, new.serial, [*plan.head, *plan.tail])
            if not is_small:
                self.files.commit()
            self.state = new

    def _correct(self, tree: Tree) -> tuple[bool, set[int]]:
        """Has a walk's tree give nothing that was taken away since the walk began.

        Whether that changed it, and the numbers of all nodes that were seen since then.
        """
        nodes, seen = self.state.tree.nodes, self.ledger.seen
        numbers = {number for number in seen if number in nodes and number in tree.nodes}
        is_other = False
        for number in numbers:
            node = self.ledger.corrected(tree.nodes[number])
            is_other = is_other or node is not tree.nodes[number]
            tree.nodes[number] = node
        return is_other, numbers

    def take_away(self, nodes: list[Node], reach: Served, planner: Planner) -> None:
        """Feeds rights that became less, under the lock. It isn't saved. Raises `Failed`."""
        before = self.state.serial
        addition = Addition(new_serial(before), nodes)
        plan = planner.plan_nodes([(self.state.tree.nodes[node.number], node) for node in nodes])
        self.files.add(addition)
        ended = end(addition.serial)[:-1]
        lines = [*begin(before, addition.serial), *plan.head, *plan.tail, *ended]
        batch = Batch(self.folder, lines, None, [])
        try:
            reach.feed(batch, b"live")
        finally:
            batch.close()
        apply(self.state, addition)

    def feed_part(
        self,
        old: Tree,
        new: Tree,
        following: int,
        texts: Texts,
        reach: Reaches,
        follower: Follower,
    ) -> bool:
        """Brings the program from a part of its tree to another one, texts among it, in one batch.

        The part has all names of each file in it that changes, and the ways to it. Nothing is given
        that was taken away since the look began, and nothing is saved. Tells whether something was
        fed. Raises `NoMemory`, and `Failed`.
        """
        planned = self.state.serial
        plan = self.planner.plan(old, new, {}, {})
        with self.ledger:
            before = self.state.serial
            if self._correct_part(old, new, follower) or before != planned:
                plan = self.planner.plan(old, new, {}, {})
            addition = _difference(old, new)
            addition.following = following
            if plan.is_empty() and not texts.count:
                addition.serial = before
                self._follow(addition, follower)
                return False
            addition.serial = new_serial(before)
            head = [*begin(before, addition.serial), *plan.head]
            tail = [*plan.tail, *end(addition.serial)[:-1]]
            self.files.add(addition)
            batch = Batch(self.folder, head, texts, tail)
            try:
                reach.feed(batch, b"live")
            except NoMemory:
                self.files.take_back()
                follower.failed()
                raise
            finally:
                batch.close()
            self._follow(addition, follower)
            self.batches += 1
            return True

    def _correct_part(self, old: Tree, new: Tree, follower: Follower) -> bool:
        """Has a look's part begin with what the program has by now, and give nothing that was taken
        away since the look began: whether that changed it. Under the lock."""
        known, is_other = self.state.tree.nodes, False
        for number, node in old.nodes.items():
            if known[number] is not node:
                old.nodes[number], is_other = known[number], True
        for number in self.ledger.seen.keys() & old.nodes.keys() & new.nodes.keys():
            node = self.ledger.corrected(new.nodes[number])
            if node is not new.nodes[number]:
                new.nodes[number], is_other = node, True
                follower.is_less(number)
        return is_other

    def _follow(self, addition: Addition, follower: Follower) -> None:
        """Brings the state to what it is now, and whoever goes by it."""
        follower.takes_away(self.state.tree, addition)
        apply(self.state, addition)
        follower.adds(self.state.tree, addition)

    def save_taken(self, reach: Served) -> None:
        """Saves what was taken away so, under the lock. Raises `Failed`."""
        batch = Batch(self.folder, [SAVE], None, [])
        try:
            reach.feed(batch)
        finally:
            batch.close()

    def feed_texts(self, after: list[Node], texts: Texts) -> None:
        """Brings some files to other texts and rights; no name changes.

        None is given a right that was taken away since the looks began. Raises `NoMemory`, and
        `Failed`, also where there is no plan: then nothing is fed.
        """
        with self.ledger:
            before, known = self.state.serial, self.state.tree.nodes
            pairs: Pairs = [(known[one.number], self.ledger.corrected(one)) for one in after]
            plan = self.planner.plan_nodes(pairs)
            is_fed = not plan.is_empty() or texts.count > 0
            nodes = [after for before, after in pairs if before != after]
            addition = Addition(new_serial(before) if is_fed else before, nodes)
            if not nodes:
                return
            self.files.add(addition)
            if is_fed:
                self._feed_addition(before, addition, plan, texts)
            apply(self.state, addition)

    def save(self) -> None:
        """Writes the whole state, in which more is known than was fed."""
        with self.ledger:
            self.files.prepare(self.state)
            self.files.commit()

    def _feed_addition(self, before: str, addition: Addition, plan: Plan, texts: Texts) -> None:
        head = [*begin(before, addition.serial), *plan.head]
        tail = [*plan.tail, *end(addition.serial)]
        try:
            self._feed(Batch(self.folder, head, texts, tail))
        except NoMemory:
            self.files.take_back()
            raise

    def _feed_lines(self, before: str, serial: str, lines: list[bytes]) -> None:
        """Feeds a batch without texts: in pieces, where the program has no memory for it.

        After each line of a plan nobody sees more than before or after all of it, so that it may be
        cut anywhere. Where the rest doesn't go in, the mark tells so, and all is fed anew.
        """
        whole = [*begin(before, serial), *lines, *end(serial)]
        size, at = len(whole), 0
        while at < len(whole):
            is_last = at + size >= len(whole)
            try:
                piece = whole[at : at + size]
                self._feed(Batch(self.folder, piece, None, [] if is_last else [SAVE]))
            except NoMemory:
                if size <= LINES_AT_LEAST:
                    raise
                size = max(LINES_AT_LEAST, -(-size // 2))
                continue
            at += size

    def _feed(self, batch: Batch) -> None:
        try:
            self.reach.feed(batch)
        finally:
            batch.close()
        self.batches += 1


def _have_same_names(old: Tree, new: Tree) -> bool:
    """Whether both trees have the same names, of the same nodes."""
    if len(old.nodes) != len(new.nodes) or old.entries.keys() != new.entries.keys():
        return False
    return all(
        names is new.entries[number] or names == new.entries[number]
        for number, names in old.entries.items()
    )


def _difference(old: Tree, new: Tree) -> Addition:
    """What leads from a part of a tree to another one, without a serial."""
    nodes = [node for number, node in new.nodes.items() if old.nodes.get(number) != node]
    gone = [number for number in old.nodes if number not in new.nodes]
    names: list[tuple[int, bytes, int]] = []
    for directory, before in old.entries.items():
        if directory in new.entries:
            after = new.entries[directory]
            names += [(directory, name, 0) for name in before if name not in after]
    for directory, after in new.entries.items():
        before = old.entries.get(directory, {})
        names += [(directory, name, one) for name, one in after.items() if before.get(name) != one]
    return Addition("", nodes, names, gone)
