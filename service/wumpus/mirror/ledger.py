"""What is narrowed beside a walk or a look, which knows nothing of it, and the lock of the batches.

A walk says what was so at some moment, and is fed later. Where a right was taken away in between,
and that was fed already, the walk's batch mustn't give it again: so whatever gives rights meets
what was seen since it began to look.
"""

import threading
from dataclasses import replace
from types import TracebackType

from .nodes import Node, Rights

def less(known: Rights, seen: Rights) -> Rights:
    """Rights that give nobody more than either, and differ from the known ones in the mode alone.

    Where owner, group or list differ nobody but user 0 is given anything.
    """
    mode = known.mode & seen.mode if known[1:] == seen[1:] else 0
    return known if mode == known.mode else known._replace(mode=mode)


def narrowed(node: Node, seen: Rights) -> Node:
    """A node that gives no more than was seen: the same, or one that has to be looked at again."""
    rights = less(node.rights, seen)
    return node if rights == node.rights else replace(node, rights=rights, changed=0)


class Ledger:
    """What was seen of nodes since a walk, or a slice of looks, began: the meet of it, by number.

    Held as a context it is the lock under which batches are fed. Who waits for it is next.
    """

    def __init__(self) -> None:
        self.seen: dict[int, Rights] = {}
        self.queue = threading.Lock()
        self.lock = threading.Lock()

    def __enter__(self) -> "Ledger":
        with self.queue:
            self.lock.acquire()
        return self

    def __exit__(
        self,
        kind: type[BaseException] | None,
        error: BaseException | None,
        trace: TracebackType | None,
    ) -> None:
        self.lock.release()

    def begin(self) -> None:
        """A walk or a slice begins: what was seen before is in what it will see."""
        with self:
            self.seen.clear()

    def see(self, number: int, rights: Rights) -> None:
        """Something was seen of a node. Under the lock."""
        before = self.seen.get(number)
        self.seen[number] = rights if before is None else less(before, rights)

    def corrected(self, node: Node) -> Node:
        """A node that a walk or a look wants to have, with no more than was seen meanwhile."""
        seen = self.seen.get(node.number)
        return node if seen is None else narrowed(node, seen)
