"""What is taken away at once: events as bytes, who is next, and the meet of rights."""

import os
import struct
import sys
import tempfile
from collections.abc import Callable
from pathlib import Path
from unittest import mock

from harness import Score, options

from wumpus.live import calls, directories, emptier, waiting  # isort: skip
from wumpus.live.directories import Directories  # isort: skip
from wumpus.live.emptier import Kept  # isort: skip
from wumpus.live.events import Told, Unreadable, key_of, split, told_in  # isort: skip
from wumpus.live.narrowing import ALONE, OUTSIDE, Narrowing  # isort: skip
from wumpus.live.reader import events_in  # isort: skip
from wumpus.live.replaced import Replaced  # isort: skip
from wumpus.live.waiting import Item, Waiting  # isort: skip
from wumpus.mirror.ledger import less, narrowed  # isort: skip
from wumpus.mirror.nodes import ROOT, Node, Rights, Tree  # isort: skip
from wumpus.service.merging import Merging  # isort: skip
from wumpus.shared.clock import moment  # isort: skip

PLAIN = Rights(0o644, 5, 20)


def piece(kind: int, key: bytes, name: bytes = b"") -> bytes:
    """What an event names once."""
    rest = name + b"\0" * (4 - len(name) % 4) if name else b""
    return struct.pack("=BBH", kind, 0, 4 + len(key) + len(rest)) + key + rest


def event(what: int, *pieces: bytes, version: int = 3) -> bytes:
    """An event as the kernel writes it."""
    names = b"".join(pieces)
    return struct.pack("=IBBHQii", 24 + len(names), version, 0, 24, what, -1, 7) + names


def events(score: Score) -> None:
    """Bytes of events, and bytes that are none."""
    place, file = key_of(9, struct.pack("=Ii", 8, 1) + b"directory"[:8]), key_of(9, struct.pack(
        "=Ii", 12, 1) + b"file" * 3)  # fmt: skip
    data = event(calls.FAN_ATTRIB, piece(2, place, b"name"), piece(1, file))
    data += event(calls.FAN_Q_OVERFLOW)
    data += event(calls.FAN_MOVE_SELF, piece(2, place, b"."))
    data += event(calls.FAN_ATTRIB, piece(1, file))
    found = [(what, first, told_in(names)) for what, first, names in split(data)]
    due = [
        (calls.FAN_ATTRIB, place, Told(place, b"name", file)),
        (calls.FAN_Q_OVERFLOW, b"", Told()),
        (calls.FAN_MOVE_SELF, place, Told(place, b".")),
        (calls.FAN_ATTRIB, file, Told(file=file)),
    ]
    score.check(found == due, f"events: {found}")
    for bad in (event(4, version=4), data[:30], data[:-1]):
        try:
            list(split(bad))
            score.check(False, f"{bad[:40]!r} is read")
        except (Unreadable, struct.error):
            score.check(True, "")


def kept(score: Score) -> None:
    """What waits for the mirror: equal events once, bounded for each directory, in turn."""
    places = [key_of(9, struct.pack("=Ii", 8, 1) + b"place%03d" % one) for one in range(2)]
    wait = Kept()
    with mock.patch.multiple(emptier, OF_ONE=3, OF_TURN=1, AT_ONCE=2):
        for name in (b"a", b"a", b"b", b"c"):
            wait.add(event(calls.FAN_DELETE, piece(2, places[0], name)))
        wait.add(event(calls.FAN_ATTRIB, piece(2, places[0], b"a")))
        wait.add(event(calls.FAN_ATTRIB, piece(2, places[1], b"x")))
        score.check(wait.flags == 0, "nothing is lost")
        wait.add(event(calls.FAN_DELETE, piece(2, places[0], b"d")))
        score.check(wait.flags == emptier.LOST_OF_ONE, f"one directory has too many: {wait.flags}")
        for number in range(5):
            wait.add(event(calls.FAN_ATTRIB, piece(1, places[0] + b"%d" % number)))
        score.check(wait.flags == emptier.LOST_OF_ONE, "files alone are no reason for a walk")
        score.check(wait.add(event(calls.FAN_Q_OVERFLOW)) == 1, "how many came")
        wait.until = 7
        first = wait.give()
        size, flags, until = emptier.HEAD.unpack_from(first)
        score.check(flags == emptier.LOST_OF_ONE | emptier.LOST, f"what was lost: {flags}")
        score.check(until == 0, f"a turn is left: {until}")
        score.check(len(first) == emptier.HEAD.size + size, "how long it is")
        told = [(what, told_in(names).name) for what, names in events_in(first[emptier.HEAD.size :])]
        due = [(calls.FAN_DELETE | calls.FAN_ATTRIB, b"a"), (calls.FAN_ATTRIB, b"x")]
        score.check(told == due, f"of each directory one: {told}")
        wait.until = 9
        more = []
        while not wait.is_empty():
            one = wait.give()
            _, _, until = emptier.HEAD.unpack_from(one)
            more.append((until, len(events_in(one[emptier.HEAD.size :]))))
        score.check(more == [(7, 2), (9, 2), (9, 1)], f"then the rest: {more}")
        score.check(wait.size == 0, "nothing is left")
        with mock.patch.object(emptier, "BYTES_MAX", 0):
            wait.add(event(calls.FAN_ATTRIB, piece(2, places[0], b"a")))
        score.check((wait.flags, len(wait.events)) == (emptier.LOST, 0), "no room is none")


def crowded(score: Score) -> None:
    """Who has very many directories told of: what others change in one comes all the same."""
    ours, count = key_of(9, struct.pack("=Ii", 8, 1) + b"ofothers"), 150
    wait = Kept()

    def make() -> None:
        for number in range(1000):
            key = key_of(9, struct.pack("=IiQ", 8, 1, number))
            wait.add(event(calls.FAN_ATTRIB, piece(2, key, b".")))

    with mock.patch.object(emptier, "AT_ONCE", 400):
        make()
        for number in range(count):
            wait.add(event(calls.FAN_ATTRIB, piece(2, ours, b"file%d" % number)))
        wait.until, rounds, given = 5, 0, 0
        while any(b"file" in name for name in names_in(wait)):
            score.check(given < 5, "it is told that all came")
            given = emptier.HEAD.unpack_from(wait.give())[2]
            rounds += 1
            wait.until += 1
            make()
        score.check(rounds == 3, f"it came after {rounds} rounds")
        for _ in range(3):
            before, given = given, emptier.HEAD.unpack_from(wait.give())[2]
            make()
        score.check(given > before or given >= 7, f"the moment doesn't go on: {given}")


def emptied(score: Score) -> None:
    """What waits at a moment is read, and not on and on what comes meanwhile."""
    with tempfile.TemporaryDirectory() as name:
        group, place = calls.new_group(), os.open(name, os.O_RDONLY)
        calls.mark_directory(group, place)
        wait, reads, count = Kept(), os.read, [0]

        def make() -> None:
            count[0] += 1
            os.chmod(name, 0o700 + count[0] % 8)
            path = Path(name) / f"{count[0]}"
            path.touch()
            path.unlink()

        def read(descriptor: int, size: int) -> bytes:
            told = reads(descriptor, 200)
            for _ in range(20 if count[0] < 2000 else 0):
                make()
            return told

        for _ in range(20):
            make()
        before = moment()
        with mock.patch("os.read", read):
            emptier._read(group, wait)
        score.check(before <= wait.until <= moment(), f"up to when: {wait.until}")
        score.check(b"20" in names_in(wait), "what was there is read")
        score.check(count[0] < 1000 and b"%d" % count[0] not in names_in(wait), "and no more")
        for one in (group, place):
            os.close(one)


def names_in(wait: Kept) -> set[bytes]:
    """The names of which events wait."""
    return {told_in(names).name for of in wait.events.values() for names in of}


def persons(score: Score) -> None:
    """Each in turn; who causes many batches waits, and user 0 doesn't."""
    now = [0.0]
    line = Waiting(lambda: now[0])
    for number in range(50):
        line.put(5, Item(number))
        line.put(5, Item(number))
    line.put(6, Item(100))
    line.put(0, Item(200))
    first = [line.take() for _ in range(3)]
    score.check(first == [(5, Item(0)), (6, Item(100)), (0, Item(200))], f"in turn: {first}")
    for _ in range(20):
        line.charge(5)
    line.put(6, Item(101))
    score.check([line.take(), line.take()] == [(6, Item(101)), None], "who had twenty waits")
    score.check(line.seconds() == 0.5, f"for half a second: {line.seconds()}")
    now[0] = 0.5
    score.check(line.take() == (5, Item(1)), "and is next then")
    line.charge(5)
    score.check(line.take() is None, "once")
    for number in range(40):
        line.put(0, Item(number))
        line.charge(0)
    score.check(line.take() == (0, Item(0)), "user 0 isn't bounded")
    with mock.patch.object(waiting, "AT_MOST", 3):
        due = [line.put(7, Item(number)) for number in range(5)]
        score.check(due == [True] * 3 + [False] * 2, f"not more than there is room for: {due}")
    now[0] = 100.0
    while line.take() is not None:
        pass
    line.tidy()
    score.check(not line.persons and line.seconds() is None, f"nothing is left: {line.persons}")


def small_tree(place: int = 4) -> Tree:
    """Directories 4 of user 5 and 5 of all, a file 7 in 4, and a directory 6 at some place."""
    made = ((ROOT, 0o755, 0), (4, 0o755, 5), (5, 0o1777, 0), (6, 0o755, 5))
    nodes = {
        number: Node(number, True, Rights(mode, owner, 0), b"", 100 + number, 1, 0)
        for number, mode, owner in made
    }
    nodes[7] = Node(7, False, PLAIN, b"", 107, 1, 0)
    entries: dict[int, dict[bytes, int]] = {ROOT: {b"a": 4, b"b": 5}, 4: {b"f": 7}, 5: {}, 6: {}}
    entries[place][b"d"] = 6
    return Tree(nodes, entries)


def moved(score: Score) -> None:
    """A directory that a walk saw at another place is looked at once more when that was fed."""
    known = Directories(mock.Mock(), (b"/",))
    with mock.patch.object(directories, "_Taking") as taking:
        taking.return_value.differing = []
        score.check(known.renew(small_tree()) == [], "at first")
        score.check(known.renew(small_tree()) == [], "where nothing moved")
        score.check(known.renew(small_tree(5)) == [6], "one that moved")


def replaced(score: Score) -> None:
    """Files at the names of others: the last one of each name, until a tree has it there."""
    tree, names = small_tree(), Replaced()
    names.put((4, b"f"), 200)
    score.check(names.nodes_of(200, tree) == {7}, "which node it concerns")
    names.renew(tree)
    score.check(names.nodes_of(200, tree) == {7}, "a walk that saw the one of before")
    names.put((4, b"f"), 201)
    score.check((names.nodes_of(200, tree), names.nodes_of(201, tree)) == (set(), {7}), "one each")
    tree.nodes[8] = Node(8, False, PLAIN, b"", 201, 1, 0)
    tree.entries[4][b"f"] = 8
    names.renew(tree)
    score.check(not names.at and not names.names, "a walk that saw it")
    names.put((4, b"f"), 202)
    del tree.entries[4][b"f"]
    names.renew(tree)
    score.check(not names.at and not names.names, "a name that is gone")


def lines(score: Score) -> None:
    """To whom events count, and what comes where there is no room for one."""
    mirror = mock.Mock()
    mirror.state.tree = small_tree()
    beside = Narrowing(mirror, mock.Mock(), mock.Mock(), int)
    known = mock.Mock()
    place, other, file = (key_of(9, struct.pack("=Ii8s", 8, 1, one)) for one in (b"a", b"b", b"f"))
    known.number_of = {place: 4, other: 5}.get

    def told(what: int, *pieces: bytes) -> None:
        beside._sort([(what, b"".join(pieces))], known)

    def waits(person: int) -> list[Item]:
        found = beside.waiting.persons.pop(person, None)
        return [] if found is None else list(found.items)

    told(calls.FAN_ATTRIB, piece(2, other, b"new"), piece(1, file))
    score.check(waits(0) == [] and waits(OUTSIDE) == [Item(file=file)], "where others make names")
    told(calls.FAN_ATTRIB, piece(2, place, b"new"), piece(1, file))
    score.check(waits(5) == [Item(file=file)], "where the owner alone does")
    mirror.state.tree.nodes[4].changed = 0
    told(calls.FAN_ATTRIB, piece(2, place, b"new"), piece(1, file))
    score.check(waits(OUTSIDE) == [Item(file=file)], "where it isn't known who does")
    told(calls.FAN_DELETE, piece(2, place, b"f"))
    told(calls.FAN_ATTRIB, piece(2, place, b"."))
    score.check(waits(5) == [Item(4, b"f"), Item(4)], "what is known by its name")
    with mock.patch.object(waiting, "AT_MOST", 0):
        told(calls.FAN_ATTRIB, piece(1, file))
        score.check(waits(ALONE) == [] and not beside.is_lost, "a file alone")
        told(calls.FAN_DELETE, piece(2, place, b"f"))
        score.check(beside.is_lost and beside.counts.lost == 1, "a walk comes for what is lost")


def merged(score: Score) -> None:
    """A save of what was merged saves what was taken away, too."""
    saved = mock.Mock()
    merging = Merging(Path("/"), print, saved=saved)
    merging._saved(b"refused", 1.0)
    score.check(saved.call_count == 0, "a save that failed")
    merging._saved(b"ok", 1.0)
    score.check(saved.call_count == 1, "a save")


def rights(score: Score) -> None:
    """The meet of rights, and a node that is looked at again where it gives less."""
    listed = Rights(0o640, 5, 20, b"g::4,u:6:4,m::4")
    cases = (
        (PLAIN, Rights(0o600, 5, 20), 0o600),
        (PLAIN, Rights(0o755, 5, 20), 0o644),
        (PLAIN, Rights(0o644, 6, 20), 0),
        (PLAIN, Rights(0o644, 5, 21), 0),
        (PLAIN, listed, 0),
        (listed, listed._replace(mode=0o600), 0o600),
        (listed, PLAIN, 0),
        (Rights(0, 5, 20), PLAIN, 0),
    )
    for known, seen, mode in cases:
        found = less(known, seen)
        score.check(found == known._replace(mode=mode), f"{known} and {seen}: {found}")
    node = Node(9, False, PLAIN, b"text", 1, 77, 4)
    score.check(narrowed(node, PLAIN) is node, "a node that gives what was seen")
    after = narrowed(node, Rights(0o600, 5, 20))
    score.check((after.rights.mode, after.changed, node.changed) == (0o600, 0, 77), f"{after}")


def main() -> int:
    """Runs the test; it needs no program."""
    options(__doc__ or "").parse_args()
    score = Score("live")
    parts: tuple[Callable[[Score], None], ...] = (
        events, kept, crowded, emptied, persons, moved, replaced, lines, merged, rights
    )  # fmt: skip
    for part in parts:
        part(score)
    return score.end()


if __name__ == "__main__":
    sys.exit(main())
