"""What the mirror keeps between its turns, written and read back."""

import json
import os
import sys
from pathlib import Path

from harness import Score, folder_of_own, options

from wumpus.mirror.nodes import FIRST, ROOT, Node, Origin, Rights, Tree, first_tree  # isort: skip
from wumpus.mirror.state import (  # isort: skip
    FORMAT,
    PIECE,
    Addition,
    BadState,
    Files,
    State,
    apply,
    read_state,
    spell_state,
)

SIZES = (0, 1, PIECE - 1, PIECE, PIECE + 1, 3 * PIECE + 5)
KNOWN = (("pdf", "early %PDF-"), ("html", "suffix html"))


def node(number: int, is_directory: bool) -> Node:
    """A node that differs from each other one."""
    rights = Rights(0o640 + number % 8, number % 5, number % 7, b"")
    one = Node(number, is_directory, rights, b"%d" % number, number, number + 1, number + 2)
    if number % 3 == 0 and not is_directory:
        one.origin = Origin("pdf", b"%20d" % number, "f" * (number % 2), number)
    return one


def tree_of(size: int) -> Tree:
    """A directory with so many names: files, each tenth with a second name there, and directories."""
    tree = first_tree()
    big = FIRST
    tree.nodes[big] = node(big, True)
    tree.entries[ROOT][b"big"] = big
    names = tree.entries[big] = {}
    for place in range(size):
        number = big + 1 + place
        if place % 10 == 9:
            names[b"link%d" % place] = big + 1 + place // 10 * 10
        elif place % 10 == 8:
            names[b"folder%d" % place] = number
            tree.nodes[number] = node(number, True)
            tree.entries[number] = {b"\xff": big + 1}
        else:
            names[b"file%d" % place] = number
            tree.nodes[number] = node(number, False)
    return tree


def same(one: State, other: State) -> bool:
    """Whether two states are equal, names in their order too."""
    tree, others = one.tree, other.tree
    return (
        (one.serial, one.users, one.following, one.lists, one.known)
        == (other.serial, other.users, other.following, other.lists, other.known)
        and tree.nodes == others.nodes
        and {key: list(names.items()) for key, names in tree.entries.items()}
        == {key: list(names.items()) for key, names in others.entries.items()}
    )


def written_and_read(folder: Path, size: int, score: Score) -> None:
    """A state with a directory of that size, and a later batch."""
    state = State("1-a", tree_of(size), {5: (6, 7)}, FIRST + size + 2, True, known=KNOWN)
    files = Files(folder)
    files.prepare(state)
    files.commit()
    found = read_state(files.path)
    score.check(found is not None and same(found[0], state) and not found[1], f"{size} names")
    lines = list(spell_state(state))
    longest = max(len(json.loads(line)[1]) for line in lines[1:])
    score.check(longest <= PIECE, f"{size} names: a line with {longest}")
    later = Addition("2-b", [node(FIRST, True), node(3 * FIRST, False)])
    files.add(later)
    found = read_state(files.path)
    score.check(found is not None and found[1] == [later], f"{size} names: the later batch")


def names(folder: Path, score: Score) -> None:
    """Later batches with names that come, go and lead elsewhere, and nodes that are gone."""
    state = State("1-a", tree_of(3), {}, FIRST + 10, True)
    files = Files(folder)
    files.prepare(state)
    files.commit()
    new, other = node(FIRST + 8, True), node(FIRST + 9, False)
    changes = [(ROOT, b"new\xff", new.number), (new.number, b"file", other.number)]
    first = Addition("2-b", [new, other], changes, [], FIRST + 20)
    moved = [(FIRST, b"file0", 0), (FIRST, b"file1", other.number), (ROOT, b"moved", FIRST + 1)]
    second = Addition("3-c", [], [*moved, (new.number, b"file", 0)], [FIRST + 2], FIRST + 21)
    last = Addition("4-d", [], [(ROOT, b"new\xff", 0)], [new.number], FIRST + 21)
    for later in (first, second, last):
        files.add(later)
    found = read_state(files.path)
    if not score.check(found is not None and found[1] == [first, second, last], "names are read"):
        return
    assert found is not None
    for later in found[1]:
        apply(found[0], later)
    tree, due = found[0].tree, tree_of(3)
    due.nodes[other.number] = other
    del due.nodes[FIRST + 2]
    due.entries[ROOT][b"moved"] = FIRST + 1
    due.entries[FIRST] = {b"file1": other.number, b"file2": FIRST + 3}
    score.check((tree.nodes, tree.entries) == (due.nodes, due.entries), f"applied: {tree}")
    score.check((found[0].serial, found[0].following) == ("4-d", FIRST + 21), "serial and number")
    os.truncate(files.path, files.path.stat().st_size - 9)
    found = read_state(files.path)
    score.check(found is not None and found[1] == [first, second], "a line that was cut off")


def older(folder: Path, score: Score) -> None:
    """States of the first format, which had each directory in one line, and of later ones.

    The first two knew no documents.
    """
    state = State("1-a", tree_of(2 * PIECE), {}, FIRST, False)
    for one in state.tree.nodes.values():
        one.origin = None
    head, *lines = map(json.loads, spell_state(state))
    del head["known"]
    path = folder / "older"
    for number in (2, 3):
        told = (head | {"format": number}, *lines)
        path.write_text("".join(json.dumps(one) + "\n" for one in told))
        found = read_state(path)
        score.check(found is not None and same(found[0], state), f"format {number}")
        score.check(found is not None and found[0].format == number, f"format {number} is known")
    whole: dict[int, list[list[object]]] = {}
    for line in lines:
        before = whole.setdefault(line[0][0], [line[0], [], [], []])
        for part in (1, 2, 3):
            before[part].extend(line[part])
    head.update(format=1, directories=len(whole))
    del head["lines"]
    path.write_text("".join(json.dumps(one) + "\n" for one in (head, *whole.values())))
    found = read_state(path)
    score.check(found is not None and same(found[0], state), "the first format")
    score.check(FORMAT == 4, "the format of new states")
    path.write_text(json.dumps(head | {"format": FORMAT + 1}) + "\n")
    try:
        read_state(path)
        score.check(False, "a state of a later mirror is read")
    except BadState:
        score.check(True, "")


def sorting(score: Score) -> None:
    """Which files are looked at again where documents are known by something else."""
    state = State("1-a", tree_of(30), {}, FIRST, False)
    files = {number for number, one in state.tree.nodes.items() if not one.is_directory}
    pages = {number for number in files if state.tree.nodes[number].kind}
    for known, due in (
        (KNOWN, files), (KNOWN, set()), (KNOWN[1:], pages), (KNOWN[::-1], files),
        ((KNOWN[1], ("pdf", "magic %PDF-")), files), ((), pages),
    ):  # fmt: skip
        state.sort_by(known)
        score.check(state.unsorted == due, f"{known}: {len(state.unsorted)} of {len(files)}")
        head = json.loads(next(spell_state(state)))
        is_kept = head["known"] == ([] if due else json.loads(json.dumps(known)))
        score.check(is_kept, f"{known}: as {head['known']}")
        state.unsorted.clear()


def links(folder: Path, score: Score) -> None:
    """Links and others' files in the place of a state: nothing is written or read through them."""
    files = Files(folder)
    elsewhere = folder / "elsewhere"
    elsewhere.write_text("kept\n")
    files.next.symlink_to(elsewhere)
    files.prepare(State("1-a", tree_of(3), {}, FIRST, False))
    score.check(elsewhere.read_text() == "kept\n", "a link in the place of a state to be written")
    score.check(not files.next.is_symlink(), "the state stands in its place")
    files.commit()
    os.rename(files.path, elsewhere)
    files.path.symlink_to(elsewhere)
    for path, what in ((files.path, "a link"), (folder, "a directory")):
        try:
            read_state(path)
            score.check(False, f"{what} in the place of a state is read")
        except BadState:
            score.check(True, "")
    try:
        files.add(Addition("2-b", []))
        score.check(False, "a link is written through")
    except OSError:
        score.check("2-b" not in elsewhere.read_text(), "a link is written through")


def main() -> int:
    """Runs the test."""
    options(__doc__ or "").parse_args()
    score = Score("state")
    with folder_of_own() as name:
        for size in SIZES:
            folder = Path(name) / str(size)
            os.mkdir(folder)
            written_and_read(folder, size, score)
        (Path(name) / "names").mkdir()
        names(Path(name) / "names", score)
        older(Path(name), score)
        sorting(score)
        links(Path(name), score)
    return score.end()


if __name__ == "__main__":
    sys.exit(main())
