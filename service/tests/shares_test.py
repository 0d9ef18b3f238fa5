"""Who asks much doesn't keep others from asking, part by part: by clocks and disks of the test's.

Whose a number is, how long one waits after kills, whose query is next, which groups the program
keeps, and when it merges.
"""

import socket
import sys
import tempfile
from pathlib import Path

from harness import Score, options

from wumpus.service.clients import Client, Query
from wumpus.service.groups import USERS_AT_MOST, Groups
from wumpus.service.merging import HELD_AFTER, Merging
from wumpus.service.tasks import Cause, Failure, Line, Task
from wumpus.service.turns import Turns
from wumpus.service.waits import FIRST, FORGIVEN, LONGEST, Waits
from wumpus.shared.peers import Peer
from wumpus.shared.persons import Persons

EVE = 3000  # who has the numbers from FIRST_OF_EVE on
FIRST_OF_EVE = 300_000


def of_persons(score: Score) -> None:
    """Whose a number is, by files that change."""
    said: list[str] = []
    with tempfile.TemporaryDirectory() as name:
        subordinate, accounts = Path(name) / "subuid", Path(name) / "passwd"
        accounts.write_text("eve:x:3000:1::/:\nann:x:1000:1::/:\nbroken\nfar:x:300010:1::/:\n")
        bad = ["eve:1:", "eve:x:9", "eve:5", "eve:1:0", "eve:4294967295:2", ":1:1", "eve:-1:5"]
        good = ["eve:300000:65536", "", "# a remark", "1000:400000:10", "gone:500000:100",
                "0:600000:100"]  # fmt: skip
        subordinate.write_text("\n".join([*bad, *good, "ann:300000:70000"]) + "\n")
        persons = Persons(said.append, subordinate, accounts)
        persons.look()
        due = {3000: 3000, 300_000: 3000, 365_535: 3000, 299_999: 299_999, 300_010: 300_010,
               400_009: 1000, 400_010: 400_010, 500_000: 500_000, 500_099: 500_000,
               600_000: 600_000, 600_099: 600_000, 0: 0,
               65_534: 65_534, 4_294_967_295: 4_294_967_295, 369_999: 1000}  # fmt: skip
        found = {user: persons.of(user) for user in due}
        score.check(found == due, f"whose numbers are: {found}")
        score.check(len(said) == 6, f"bad lines, and how many more there are: {said}")
        persons.look()
        subordinate.write_text("eve:5:\n" + "ann:300000:1\n" + "\n".join(bad) + "\n")
        persons.look()
        score.check(persons.of(300_000) == 1000, "a file that changed")
        score.check(len(said) == 7, f"lines that were told already: {said}")
        subordinate.unlink()
        persons.look()
        score.check(persons.of(300_000) == 300_000, "a file that is gone")


def of_waits(score: Score) -> None:
    """How long a person waits after kills, by a clock of the test's."""
    now = [0.0]
    waits = Waits(lambda: now[0])
    told = [waits.kill(EVE, 0.1) for _ in range(3)]
    score.check(told == [FIRST, 2 * FIRST, 4 * FIRST], f"three kills: {told}")
    score.check(waits.has_to_wait(EVE) and not waits.has_to_wait(1000), "she waits, no other does")
    now[0] = 4 * FIRST
    score.check(not waits.has_to_wait(EVE), "until then")
    now[0] = 4 * FORGIVEN
    score.check(waits.kill(EVE, 0.1) == FIRST, "long after")
    score.check(waits.kill(1001, 60.0) == 600.0, "a dear start of the program")
    waits.suspect(1002, 0.1)
    score.check(not waits.has_to_wait(1002), "an end of the program")
    waits.suspect(1002, 0.1)
    score.check(waits.has_to_wait(1002), "a second one")
    told = []
    until = now[0] + 24 * 3600.0
    while now[0] < until:  # who never rests, for a day
        told.append(waits.kill(1003, 0.1))
        now[0] += told[-1]
    score.check(len(told) < 40, f"a user who kills whenever she may: {len(told)} times in a day")
    score.check(max(told) <= LONGEST, f"her longest wait: {max(told)}")
    for person in range(20_000):
        waits.suspect(10_000 + person, 0.1)
    score.check(len(waits.records) <= 10_000, f"{len(waits.records)} records")


def query_of(person: int, user: int, since: float) -> Query:
    """A query that waits."""
    peer = Peer(1, user, (user,))
    return Query(Client(socket.socket(), peer, person, 0, 0.0), b"", since)


def of_turns(score: Score) -> None:
    """Whose query is next, by a clock of the test's: seconds count, and not queries."""
    now = [0.0]
    turns = Turns(lambda: now[0])
    for user in (1, 2):
        turns.note(user, user)
    served: dict[int, float] = {1: 0.0, 2: 0.0}
    counts = {1: 0, 2: 0}
    for one in (1, 2, 1, 2):
        turns.put(query_of(one, one, now[0]))
    for _ in range(400):
        query = turns.take()
        if query is None:
            break
        taken = 1.0 if query.person == 1 else 0.01
        now[0] += taken
        served[query.person] += taken
        counts[query.person] += 1
        turns.note(query.person, query.user)
        turns.count_time(query.person, taken)
        turns.put(query_of(query.person, query.user, now[0]))
    score.check(counts[2] > 50 * counts[1], f"queries of a slow and a quick one: {counts}")
    score.check(abs(served[1] - served[2]) < 1.5, f"their seconds: {served}")
    for person in range(20_000):
        turns.charge(person, 0.1)
    score.check(len(turns.used) <= 10_000, f"{len(turns.used)} clocks are kept")


def of_newcomers(score: Score) -> None:
    """Twelve who are new, with slow queries, don't all go before one who asked quick ones."""
    turns = Turns(lambda: 10.0)
    order: list[int] = []

    def next_one() -> None:
        query = turns.take()
        if query is not None:
            order.append(query.person)
            turns.note(query.person, query.user)
            turns.count_time(query.person, 0.01 if query.person == 2 else 2.0)

    for _ in range(5):
        turns.put(query_of(2, 2, 0.0))
        next_one()
    for person in range(10, 22):
        turns.note(person, person)
        turns.put(query_of(person, person, 0.0))
    for _ in range(4):
        turns.put(query_of(2, 2, 0.0))
        next_one()
        next_one()
    quick = [place for place, person in enumerate(order) if person == 2]
    score.check(len(quick) == 9, f"each of her queries waits for one of theirs at most: {order}")


def of_groups(score: Score) -> None:
    """Of one person the program keeps the groups of a few numbers."""
    groups = Groups()
    lines: list[bytes] = []
    for user in range(3 * USERS_AT_MOST):
        lines += groups.lines_for(EVE, Peer(1, FIRST_OF_EVE + user, (1, 2)))
    taken = sum(line.count(b"\t") == 1 for line in lines)
    score.check(len(lines) - taken == 3 * USERS_AT_MOST, "each number is told once")
    score.check(taken == 2 * USERS_AT_MOST, f"{taken} are taken away again")
    peer = Peer(1, 1000, (1000, 7))
    score.check(groups.lines_for(1000, peer) == [b"user\t1000\t1000\t7\n"], "an honest user")
    score.check(groups.lines_for(1000, peer) == [], "the same groups")
    groups.doubt()
    score.check(len(groups.lines_for(1000, peer)) == 1, "where the program may know others")
    taken = sum(
        line.count(b"\t") == 1
        for user in range(USERS_AT_MOST)
        for line in groups.lines_for(EVE, Peer(1, FIRST_OF_EVE + 1000 + user, (1, 2)))
    )
    score.check(taken == USERS_AT_MOST, "what was told before is taken away in the end")


def line_of(task: Task | None) -> bytes:
    """The line of a task; empty where there is none."""
    return b"" if task is None else task.more()


class Merged:
    """Merging by a clock and a disk of the test's."""

    def __init__(self) -> None:
        self.now = 100.0
        self.room = 1
        self.merging = Merging(
            Path("/"), lambda _: None, lambda: self.now, lambda _: self.room
        )

    def give(self, told: bytes | Failure, taken: float, is_asked: bool = False) -> bytes:
        """Does what is next, which is answered so: its line, empty where nothing is."""
        task = self.merging.next_task(is_asked)
        line = line_of(task)
        if isinstance(task, Line):
            task.ends(told, taken)
        self.now += max(taken, 3.0)
        return line


def of_merging(score: Score) -> None:
    """When the program merges and saves."""
    merged = Merged()
    merging, give = merged.merging, merged.give
    score.check(merging.next_task(False) is None, "nothing to merge")
    merging.opened()
    score.check(give(b"busy", 0.1, True) == b"", "while queries wait they go first")
    merging.queried(10.0)
    score.check(give(b"busy", 0.1, True) == b"work\t200\n", "but it has a share")
    told = [give(b"busy", 10.0), give(b"busy", 25.0), give(b"ok", 0.2), give(b"idle", 0.3)]
    score.check(told == [b"work\t200\n"] * 2 + [b"save\n", b"work\t200\n"], f"{told}")
    score.check(give(b"ok", 0.25) == b"save\n" and merging.is_idle, "what was merged is saved")
    score.check(give(b"ok", 0.1) == b"", "once")
    merging.fed()
    give(b"busy", 0.1)
    merged.room = -1
    score.check(give(b"ok", 0.1) == b"save\n", "a short disk: what was merged is given back")
    score.check(give(b"ok", 0.1) == b"", "and nothing is merged")


def of_losses(score: Score) -> None:
    """Who loses merges, and merges at which the program fails."""
    merged = Merged()
    merging, give = merged.merging, merged.give
    merging.opened()
    for _ in range(HELD_AFTER):
        score.check(not merging.holds(EVE), "who lost few merges")
        give(b"busy", 0.1)
        merging.killed_by(EVE)
        merging.opened()
    score.check(merging.holds(EVE) and not merging.holds(1000), "who loses merges waits for them")
    merging.owed = 0.0
    merging.queried(1.0)
    score.check(merging.owed > 0.9, f"and they get more of the time: {merging.owed}")
    give(b"idle", 5.0)
    give(b"ok", 0.1)
    score.check(not merging.holds(EVE), "until they are done")
    merging.fed()
    give(Failure(Cause.ENDED, "no room"), 0.1)
    score.check(give(b"busy", 0.1) == b"", "where the program fails at it, it isn't tried at once")
    merged.now += 60.0
    score.check(give(b"busy", 0.1) == b"work\t200\n", "but later")


def main() -> int:
    """Runs the test."""
    options(__doc__ or "").parse_args()
    score = Score("shares")
    for part in (of_persons, of_waits, of_turns, of_newcomers, of_groups, of_merging, of_losses):
        part(score)
    return score.end()


if __name__ == "__main__":
    sys.exit(main())
