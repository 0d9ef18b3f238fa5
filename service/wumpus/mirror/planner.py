"""The program `wumpus-plan` as a child that orders batches, one after the other over its pipes.

What a batch changes goes in as lines, which `crates/wumpus_plan/README.md` tells; the events come
back as lines of the script. That the order shows nobody more than before or after is proved there:
here it is only passed on. The program keeps nothing from one batch to the next.
"""

import re
import subprocess
from dataclasses import dataclass
from itertools import islice
from typing import IO

from ..shared.store import Failed
from .changes import Groups, Pairs, Told, told_of_pairs, told_of_trees
from .nodes import Tree

PROGRAM = "wumpus-plan"
LARGE = 20_000  # nodes of a batch after which the program is ended, as it keeps its memory
END_SECONDS = 10.0
_COUNTS = re.compile(rb"plan\t([0-9]{1,12})\t([0-9]{1,12})\n")


class BadPlan(Failed):
    """There is no plan: the program isn't there, ended, or answered something else."""


@dataclass(slots=True)
class Plan:
    """The lines of a batch: those before the texts, and those after them."""

    head: list[bytes]
    tail: list[bytes]

    def is_empty(self) -> bool:
        """Whether nothing is to be done."""
        return not self.head and not self.tail


class Planner:
    """One `wumpus-plan`, which is kept from batch to batch. After a failure the next is begun."""

    def __init__(self, program: str = PROGRAM) -> None:
        self.program = program
        self.child: subprocess.Popen[bytes] | None = None

    def plan(self, old: Tree, new: Tree, old_users: Groups, new_users: Groups) -> Plan:
        """From one tree with its users to another; the texts come in between. Raises `BadPlan`."""
        return self.order(told_of_trees(old, new, old_users, new_users))

    def plan_nodes(self, pairs: Pairs) -> Plan:
        """From some nodes to what they are now; no name changes. Raises `BadPlan`."""
        return self.order(told_of_pairs(pairs))

    def order(self, told: Told) -> Plan:
        """The order of a batch. Raises `BadPlan`; then nothing of the plan is given."""
        if not told.users and told.count == 0:
            return Plan([], [])
        child = self.start()
        try:
            plan = _ordered(child, told)
        except BaseException:
            self._kill()
            raise
        if told.count > LARGE:
            self.close()
        return plan

    def start(self) -> subprocess.Popen[bytes]:
        """The program, which is begun where it doesn't run. Raises `BadPlan`."""
        if self.child is not None and self.child.poll() is not None:
            self._kill()
        if self.child is None:
            pipe = subprocess.PIPE
            try:
                self.child = subprocess.Popen(
                    [self.program], stdin=pipe, stdout=pipe, stderr=pipe
                )
            except OSError as error:
                raise BadPlan(f"{self.program} can't be run: {error.strerror}") from error
        return self.child

    def close(self) -> None:
        """Ends the program, if it runs: it ends where its input does."""
        if self.child is not None:
            try:
                _pipe(self.child.stdin).close()
                self.child.wait(END_SECONDS)
            except (BrokenPipeError, subprocess.TimeoutExpired):
                pass
            self._kill()

    def _kill(self) -> None:
        """Ends the program at once; nothing is lost by that."""
        child, self.child = self.child, None
        if child is None:
            return
        child.kill()
        child.wait()
        for pipe in (child.stdin, child.stdout, child.stderr):
            try:
                _pipe(pipe).close()
            except BrokenPipeError:
                pass


def _ordered(child: subprocess.Popen[bytes], told: Told) -> Plan:
    """Hands a batch over, and reads the plan: all of it, or `BadPlan` is raised."""
    into, out = _pipe(child.stdin), _pipe(child.stdout)
    try:
        into.write(b"batch\t%d\t%d\n" % (len(told.users), told.count))
        into.writelines(told.users)
        into.writelines(told.nodes)
        into.flush()
    except BrokenPipeError as error:
        raise _end_of(child) from error
    counts = _COUNTS.fullmatch(out.readline())
    if counts is None:
        raise _end_of(child)
    head, tail = (list(islice(out, int(count))) for count in counts.groups())
    is_whole = (len(head), len(tail)) == tuple(map(int, counts.groups()))
    if not is_whole or not all(lines[-1].endswith(b"\n") for lines in (head, tail) if lines):
        raise _end_of(child)
    return Plan(head, tail)


def _end_of(child: subprocess.Popen[bytes]) -> BadPlan:
    """What the program says of its end; one that goes on all the same is killed."""
    try:
        _, said = child.communicate(timeout=END_SECONDS)
    except (subprocess.TimeoutExpired, ValueError, OSError):
        return BadPlan("wumpus-plan answered something else than a plan")
    last = said.decode("utf-8", "replace").strip()
    return BadPlan(last or f"wumpus-plan ended with status {child.returncode}")


def _pipe(pipe: IO[bytes] | None) -> IO[bytes]:
    if pipe is None:
        raise ValueError("a pipe to wumpus-plan wasn't asked for")
    return pipe
