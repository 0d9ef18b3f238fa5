#!/usr/bin/env python3
"""Measures the built program beside SQLite's FTS5 and Xapian, and prints a table: bench/run.py --size 10|100 --wumpus PATH --out FILE.md."""

import argparse
import datetime
import os
import shutil
import sqlite3
import subprocess
import sys
import tempfile
from collections.abc import Callable, Iterator, Sequence
from dataclasses import dataclass, field
from typing import Any

sys.dont_write_bytecode = True

import corpus
import measure
import peer
import queries
from measure import PeerSession, Session, Usage, least

SEED = 37
MEGABYTE = 1_000_000
ROUNDS = 5
BATCH_SECONDS = 0.02
WORD_GOALS = {"frequent": 5.0, "medium": 5.0, "rare": 2.0}
PAIR_GOALS = {"frequent": 4.0, "medium": 1.0, "rare": 1.0}
SYSTEM_PYTHON = "/usr/bin/python3"
WUMPUS, FTS5, XAPIAN = "wumpus", "FTS5", "Xapian"


@dataclass
class Form:
    """A form of a peer's questions, which has a column of its own: the peer, and the form's name in its process."""

    column: str
    peer: str
    name: str


JOIN = Form("FTS5, join", FTS5, peer.JOIN)
SUBQUERY = Form("FTS5, subquery", FTS5, peer.SUBQUERY)
FILTER = Form("Xapian", XAPIAN, "filter")
FORMS = [JOIN, SUBQUERY, Form("FTS5, no filter", FTS5, peer.UNFILTERED), FILTER, Form("Xapian, no filter", XAPIAN, peer.UNFILTERED)]


@dataclass
class Module:
    """Xapian's module: the Python that has it, and its version."""

    python: str
    version: str


@dataclass
class Bench:
    """Where things are, and what is known of the corpus."""

    program: str
    room: str
    size: int
    runs: int
    xapian: Module | None
    text_bytes: int = 0
    rows: list[str] = field(default_factory=list)
    cells: list[str] = field(default_factory=list)

    @property
    def script(self) -> str:
        return os.path.join(self.room, "corpus.script")

    @property
    def folder(self) -> str:
        return os.path.join(self.room, "folder")

    @property
    def store(self) -> str:
        return os.path.join(self.folder, measure.STORE)

    @property
    def database(self) -> str:
        return os.path.join(self.room, "peer.db")

    @property
    def index(self) -> str:
        return os.path.join(self.room, "xapian")

    @property
    def peers(self) -> list[str]:
        return [FTS5, XAPIAN] if self.xapian else [FTS5]

    @property
    def forms(self) -> list[Form]:
        return [form for form in FORMS if form.peer in self.peers]


def module(name: str, python: str = sys.executable) -> list[str]:
    """Returns the words that run a module of the bench."""
    return [python, os.path.join(measure.HERE, f"{name}.py")]


def find_xapian() -> Module | None:
    """Looks for Xapian's module in the Python that runs this, and in the system's, for which Debian has it."""
    for python in (sys.executable, SYSTEM_PYTHON):
        if os.path.exists(python):
            asked = subprocess.run([python, "-c", "import xapian; print(xapian.version_string())"], capture_output=True, text=True)
            if asked.returncode == 0:
                return Module(python, asked.stdout.strip())
    return None


def xapian_peer(bench: Bench) -> list[str]:
    """Returns the words that run the module of Xapian."""
    assert bench.xapian is not None
    return module("xapian_peer", bench.xapian.python)


def peer_session(bench: Bench, name: str = FTS5) -> PeerSession:
    """Begins a session of a peer, which isn't opened yet."""
    words = [*module("peer"), "serve", bench.database] if name == FTS5 else [*xapian_peer(bench), "serve", bench.index]
    return PeerSession(words)


def progress(what: str) -> None:
    """Tells on standard error how far the run is."""
    print(f"{datetime.datetime.now():%H:%M:%S} {what}", file=sys.stderr, flush=True)


def table_row(fields: Sequence[str]) -> str:
    """Returns a row of a table."""
    return f"| {' | '.join(fields)} |"


def row(bench: Bench, what: str, ours: str, theirs: Sequence[str], ratio: str = "", goal: str = "", met: bool | None = None) -> None:
    """Adds a row to the table of single figures, with those of the first peers or of all. The ratio is that beside FTS5."""
    verdict = "" if met is None else "yes" if met else "no"
    missing = [""] * (len(bench.peers) - len(theirs))
    bench.rows.append(table_row([what, ours, *theirs, *missing, ratio, goal, verdict]))


def texts(bench: Bench) -> Iterator[tuple[int, bytes]]:
    """Yields the files of the corpus with their texts."""
    with open(bench.script, "rb") as script:
        for event in corpus.read_events(script):
            if event.fields[0] == "text":
                yield int(event.fields[1]), event.body


def build_ours(bench: Bench) -> Usage:
    """Builds the store from nothing in one session, whose end saves."""
    usages = []
    for _ in range(bench.runs):
        shutil.rmtree(bench.folder, ignore_errors=True)
        os.mkdir(bench.folder)
        usages.append(measure.run_child([bench.program, "run"], bench.folder, bench.script))
    return least(usages)


def build_theirs(bench: Bench) -> Usage:
    """Builds the database from nothing in one transaction."""
    usages = []
    for _ in range(bench.runs):
        if os.path.exists(bench.database):
            os.remove(bench.database)
        usages.append(measure.run_child([*module("peer"), "build", bench.script, bench.database], bench.room))
    return least(usages)


def build_xapian(bench: Bench) -> Usage:
    """Builds Xapian's index from nothing, once, as it takes long. FTS5's database tells who may read which file."""
    return measure.run_child([*xapian_peer(bench), "build", bench.script, bench.database, bench.index], bench.room)


def measure_build(bench: Bench) -> None:
    """Builds all. FTS5's table of readable files is there before Xapian's index, which has its rows as terms."""
    ours, theirs = build_ours(bench), [build_theirs(bench)]
    access = measure.run_child([*module("peer"), "access", bench.database], bench.room)
    if bench.xapian:
        theirs.append(build_xapian(bench))
    size = bench.text_bytes / MEGABYTE
    for what, mine, others in (
        ("of the clock", ours.wall, [it.wall for it in theirs]),
        ("of the processor", ours.processor, [it.processor for it in theirs]),
    ):
        ratio, speeds = others[0] / mine, [f"{size / other:.1f}" for other in others]
        row(bench, f"build and save, MB a second {what}", f"{size / mine:.1f}", speeds, f"{ratio:.2f}", "1.5", ratio >= 1.5)
    row(bench, "peak memory of the build, MB", f"{ours.peak:.0f}", [f"{it.peak:.0f}" for it in theirs], "", "64", ours.peak <= 64)
    row(bench, "the table of readable files, seconds of the processor (not in the build)", "none", [f"{access.processor:.2f}"])


def measure_merge(bench: Bench) -> None:
    """Merges each until nothing is left to do, and saves."""
    ours = measure.run_child([bench.program, "run"], bench.folder, input_bytes=b"work\t1000000\n" * 40)
    theirs = [measure.run_child([*module("peer"), "optimize", bench.database], bench.room)]
    if bench.xapian:
        theirs.append(measure.run_child([*xapian_peer(bench), "compact", bench.index], bench.room))
    row(bench, "merging all, seconds of the processor", f"{ours.processor:.2f}", [f"{it.processor:.2f}" for it in theirs])
    row(bench, "peak memory with merges, MB", f"{ours.peak:.0f}", [f"{it.peak:.0f}" for it in theirs], "", "110", ours.peak <= 110)


def peer_bytes(bench: Bench, name: str) -> int:
    """Returns the bytes of a peer's index."""
    session = peer_session(bench, name)
    session.timed("open")
    size = int(session.timed("index_bytes")[1])
    session.close()
    return size


def measure_bytes(bench: Bench) -> None:
    """Compares the bytes of the index."""
    folder = sum(entry.stat().st_size for entry in os.scandir(bench.store))
    ours = (folder - bench.text_bytes) / bench.text_bytes
    theirs = [f"{peer_bytes(bench, name) / bench.text_bytes:.3f}" for name in bench.peers]
    row(bench, "index without texts / text, after merging", f"{ours:.3f}", theirs, "", "0.45", ours <= 0.45)


def peer_opening(bench: Bench, name: str) -> Usage:
    """Opens a peer, and tells its time."""
    session = peer_session(bench, name)
    usage, _ = session.timed("open")
    session.close()
    return usage


def measure_opening(bench: Bench) -> None:
    """Opens each several times."""
    ours, whole = [], []
    theirs: dict[str, list[Usage]] = {name: [] for name in bench.peers}
    for _ in range(2 * ROUNDS):
        usage, session = measure.opened(bench.program, bench.folder)
        session.close()
        ours.append(usage)
        for name, usages in theirs.items():
            usages.append(peer_opening(bench, name))
        whole.append(measure.run_child([bench.program, "run"], bench.folder))
    best, session_best = least(ours), least(whole)
    others = [least(usages) for usages in theirs.values()]
    for what, mine, some in (
        ("of the clock", best.wall, [f"{it.wall * 1e3:.1f}" for it in others]),
        ("of the processor", best.processor, [f"{it.processor * 1e3:.1f}" for it in others]),
    ):
        row(bench, f"opening until the first reply, ms {what}", f"{mine * 1e3:.1f}", some, "", "30", mine <= 0.03)
    text = f"{session_best.wall * 1e3:.1f}, {session_best.processor * 1e3:.1f}"
    row(bench, "a session without input, with its save: ms of the clock, of the processor", text, [])
    row(bench, "peak memory after opening, MB", f"{best.peak:.0f}", [])


def files_of(reply: bytes) -> int:
    """Returns the number of files that a reply to `count` tells."""
    return int(reply.split()[2])


def check_files(cell: queries.Cell, ours: list[bytes], theirs: dict[str, list[int]]) -> None:
    """Stops where files are counted differently: those of a word by any two, those of a phrase or of near words by two forms or peers.

    For the peers a text has no lines, so that a few of their matches go over the end of one, which the program doesn't count.
    """
    counts = {**theirs, WUMPUS: [files_of(reply) for reply in ours]} if cell.question == "word" else theirs
    if any(files != theirs[JOIN.column] for files in counts.values()):
        raise RuntimeError(f"different answers for {[query.match for query in cell.queries]} of {cell.user}: {counts}")


def goal_of(cell: queries.Cell) -> float | None:
    """Returns how many times faster the cell is to be. Words of unlike frequency have no goal."""
    if cell.kind == "word":
        return WORD_GOALS[cell.frequency] if cell.who == "10 %" else None
    if cell.kind in ("phrase", "near"):
        return PAIR_GOALS[cell.frequency]
    return 1.0 if cell.kind == "rank" else None


def verdict_of(goal: float | None, by_join: float, by_faster: float) -> str:
    """Tells whether a goal is met, and whether only beside the join."""
    if goal is None:
        return ""
    return "yes" if by_faster >= goal else "beside the join" if by_join >= goal else "no"


def forms_of(bench: Bench, cell: queries.Cell) -> list[Form]:
    """Returns the forms in which the peers are asked. Only user 0 may read all that is found without a filter."""
    return [form for form in bench.forms if form.name != peer.UNFILTERED or cell.user == corpus.ROOT_USER]


def ask(session: PeerSession, form: Form, cell: queries.Cell, some: Sequence[queries.Query], repeat: int) -> tuple[Usage, Any]:
    """Asks a peer some queries of a cell again and again: the time of all, and the answers of the last time."""
    asked = [query.match if form.peer == FTS5 else query.words for query in some]
    return session.timed("ask", form.name, cell.question, asked, cell.user, repeat)


def peer_files(session: PeerSession, form: Form, cell: queries.Cell) -> list[int]:
    """Returns how many files a peer counts for each query of a cell."""
    return [rows[0][0] for rows in ask(session, form, cell, cell.queries, 1)[1]]


def batch_of(session: PeerSession, form: Form, cell: queries.Cell) -> Callable[[int], float]:
    """Returns what asks a peer the queries of a cell so many times, and tells the processor time."""
    return lambda repeat: ask(session, form, cell, cell.queries, repeat)[0].processor


def warm_times(forms: Sequence[Form], cell: queries.Cell, ours: Session, theirs: dict[str, PeerSession]) -> dict[str, float]:
    """Returns the processor time of one query of a cell: of the program, and of each form of the peers."""
    lines = [query.line for query in cell.queries]
    batches: dict[str, Callable[[int], float]] = {WUMPUS: lambda repeat: ours.timed(lines * repeat)[0].processor}
    batches |= {form.column: batch_of(theirs[form.peer], form, cell) for form in forms}
    return {column: measure.seconds_for_one(batch, len(lines), ROUNDS, BATCH_SECONDS) for column, batch in batches.items()}


def first_time(bench: Bench, cell: queries.Cell) -> Usage:
    """Returns the time of the first query of a session, whose files the system has forgotten."""
    measure.drop_pages(bench.store)
    _, ours = measure.opened(bench.program, bench.folder)
    usage, _ = ours.timed([cell.queries[0].line])
    ours.close()
    return usage


def peer_first_time(bench: Bench, form: Form, cell: queries.Cell) -> Usage:
    """Returns the same time of a peer."""
    measure.drop_pages(bench.database if form.peer == FTS5 else bench.index)
    session = peer_session(bench, form.peer)
    session.timed("open")
    usage, _ = ask(session, form, cell, cell.queries[:1], 1)
    session.close()
    return usage


def first_times(bench: Bench, cell: queries.Cell) -> list[Usage]:
    """Returns the times of the first query of a session: of the program, and of each peer."""
    peers = [form for form in (JOIN, FILTER) if form in bench.forms]
    return [first_time(bench, cell)] + [peer_first_time(bench, form, cell) for form in peers]


def measure_cell(bench: Bench, cell: queries.Cell, firsts: list[Usage], ours: Session, theirs: dict[str, PeerSession]) -> None:
    """Measures one kind of query, and adds its row."""
    forms = forms_of(bench, cell)
    replies = ours.ask([query.line for query in cell.queries])
    if cell.question != "rank":
        check_files(cell, replies, {form.column: peer_files(theirs[form.peer], form, cell) for form in forms})
    times = warm_times(forms, cell, ours, theirs)
    mine, joined, chosen = times[WUMPUS], times[JOIN.column], times[SUBQUERY.column]
    by_join, by_faster, goal = joined / mine, min(joined, chosen) / mine, goal_of(cell)
    found = "/".join(reply.split()[1].decode() for reply in replies)
    columns = [WUMPUS, *(form.column for form in bench.forms)]
    bench.cells.append(
        table_row(
            [cell.who, cell.kind, cell.frequency, found]
            + [f"{times[column] * 1e6:.0f}" if column in times else "" for column in columns]
            + [f"{by_join:.1f}", f"{by_faster:.1f}", "" if goal is None else f"{goal:g}", verdict_of(goal, by_join, by_faster)]
            + [f"{first.wall * 1e3:.1f}, {first.processor * 1e3:.1f}" for first in firsts]
        )
    )


def query_columns(bench: Bench) -> list[str]:
    """Returns the head of the table of queries."""
    head = ["user", "kind", "words", "found", WUMPUS, *(form.column for form in bench.forms)]
    head += ["times faster than the join", "than the faster", "goal", "met"]
    return head + [f"{name}, first" for name in (WUMPUS, *bench.peers)]


def measure_queries(bench: Bench) -> None:
    """Asks every query in one session of each, and tells the peaks of their memory. A store has one session at a time."""
    cells = list(queries.cells())
    firsts = [first_times(bench, cell) for cell in cells]
    _, ours = measure.opened(bench.program, bench.folder)
    theirs = {name: peer_session(bench, name) for name in bench.peers}
    for session in theirs.values():
        session.timed("open")
    for cell, first in zip(cells, firsts):
        progress(f"{cell.kind}, {cell.frequency}, {cell.who}")
        measure_cell(bench, cell, first, ours, theirs)
    peaks = [f"{session.peak():.0f}" for session in theirs.values()]
    mine = ours.peak()
    row(bench, "peak memory of the session of queries, MB", f"{mine:.0f}", peaks, "", "32", mine <= 32)
    for session in theirs.values():
        session.close()
    ours.close()


def mode_change(user: int, mode: int, match: str) -> list[bytes]:
    """Returns a change of the mode of the directory with half of all files, and a count."""
    return [corpus.line("chmod", corpus.SERVICE, f"{mode:o}"), corpus.line("count", user, match)]


def mean_of_least(usages: dict[int, list[Usage]]) -> float:
    """Returns the mean over the modes of the least processor time, in milliseconds."""
    return sum(least(some).processor for some in usages.values()) / len(usages) * 1e3


def measure_mode(bench: Bench, who: str) -> None:
    """Shuts and opens the directory with half of all files, and counts each time. FTS5 renews all rows of that directory, or the user's."""
    user, match, modes = queries.USERS[who], queries.cell("word", "medium", "all").queries[0].match, [0o700, 0o755]
    _, ours = measure.opened(bench.program, bench.folder)
    theirs = peer_session(bench)
    theirs.timed("open")
    mine: dict[int, list[Usage]] = {mode: [] for mode in modes}
    others: dict[int | None, dict[int, list[Usage]]] = {renewed: {mode: [] for mode in modes} for renewed in (None, user)}
    for mode in modes * ROUNDS:
        usage, replies = ours.timed(mode_change(user, mode, match))
        mine[mode].append(usage)
        for renewed, usages in others.items():
            other, answer = theirs.timed("change_mode", corpus.SERVICE, mode, renewed, match, user)
            usages[mode].append(other)
            if files_of(replies[1]) != answer[0][0]:
                raise RuntimeError(f"different answers after a chmod: {replies} and {answer}")
    ours.close()
    theirs.close()
    for renewed, usages in others.items():
        first, second = mean_of_least(mine), mean_of_least(usages)
        ratio, whose = second / first, "all users' rows" if renewed is None else "that user's rows"
        what = f"chmod of half of all, and a count, user who sees {who}: ms of the processor; FTS5 renews {whose}"
        goal = ("100", ratio >= 100) if who == "10 %" else ("", None)
        row(bench, what, f"{first:.2f}", [f"{second:.1f}"], f"{ratio:.0f}", *goal)


def measure_change(bench: Bench) -> None:
    """Gives one file another text, saves, and counts, some times."""
    some = texts(bench)
    ino, _ = next(some)
    user, match = corpus.SOME_USER, queries.cell("word", "medium", "all").queries[0].match
    _, ours = measure.opened(bench.program, bench.folder)
    theirs = peer_session(bench)
    theirs.timed("open")
    mine, others = [], []
    for _ in range(2 * ROUNDS):
        body = next(some)[1]
        text = corpus.line("text", ino, len(body)) + body + b"\n"
        usage, replies = ours.timed([text, b"save\n", corpus.line("count", user, match)])
        other, answer = theirs.timed("change_text", ino, body.decode(), match, user)
        mine.append(usage)
        others.append(other)
        if files_of(replies[2]) != answer[0][0]:
            raise RuntimeError(f"different answers after a text: {replies} and {answer}")
    ours.close()
    theirs.close()
    best, other_best = least(mine), least(others)
    for what, first, second in (
        ("of the clock, the least", best.wall, other_best.wall),
        ("of the clock, the median", measure.median_wall(mine), measure.median_wall(others)),
        ("of the processor, the least", best.processor, other_best.processor),
    ):
        ratio = second / first
        name = f"a text changed, saved, asked: ms {what}"
        row(bench, name, f"{first * 1e3:.1f}", [f"{second * 1e3:.1f}"], f"{ratio:.2f}", "0.2", ratio >= 0.2)


def processor_name() -> str:
    """Returns the model of the machine's processor."""
    with open("/proc/cpuinfo", encoding="utf-8") as information:
        return next((line.split(":")[1].strip() for line in information if line.startswith("model name")), "unknown")


def report(bench: Bench, started: datetime.datetime, load: str) -> str:
    """Returns the table."""
    now = " ".join(f"{it:.1f}" for it in os.getloadavg())
    figures = ["Measure", WUMPUS, *bench.peers, "times better", "goal", "met"]
    xapian = f", Xapian {bench.xapian.version}" if bench.xapian else "; without Xapian, which isn't there"
    return "\n".join(
        [
            f"{bench.text_bytes / MEGABYTE:.1f} MB of texts in {corpus.FILES_OF_SIZE[bench.size]} files. {started:%Y-%m-%d %H:%M} UTC, "
            f"{os.cpu_count()} x {processor_name()},",
            f"load {load} at the start and {now} at the end; SQLite {sqlite3.sqlite_version}{xapian}.",
            "",
            table_row(figures),
            "|" + "---|" * len(figures),
            *bench.rows,
            "",
            "Queries: microseconds of the processor for one, warm; and the first one of a session, its files not in memory, in",
            "milliseconds of the clock and of the processor.",
            "",
            table_row(query_columns(bench)),
            "|" + "---|" * len(query_columns(bench)),
            *bench.cells,
            "",
        ]
    )


def measure_all(bench: Bench) -> None:
    """Makes the corpus, and measures one thing after the other."""
    if bench.xapian is None:
        progress("Xapian isn't there (python3-xapian): its columns are left out")
    progress("the corpus")
    subprocess.run([*module("corpus"), str(SEED), str(bench.size), bench.script], check=True)
    bench.text_bytes = sum(len(body) for _, body in texts(bench))
    for what, step in (
        ("build", measure_build),
        ("merge", measure_merge),
        ("bytes", measure_bytes),
        ("opening", measure_opening),
        ("queries", measure_queries),
        ("modes", lambda it: measure_mode(it, "10 %")),
        ("modes", lambda it: measure_mode(it, "all")),
        ("texts", measure_change),
    ):
        progress(what)
        step(bench)


def arguments() -> argparse.Namespace:
    """Returns the arguments of the command line."""
    parser = argparse.ArgumentParser(description=__doc__)
    parser.add_argument("--size", type=int, choices=sorted(corpus.FILES_OF_SIZE), default=10, help="MB of texts")
    parser.add_argument("--wumpus", required=True, help="the built program")
    parser.add_argument("--out", help="a file for the table too")
    parser.add_argument("--runs", type=int, default=3, help="how many times each build runs; the least counts")
    parser.add_argument("--keep", help="an empty folder for what the run leaves, instead of one that is removed")
    return parser.parse_args()


def main() -> None:
    """Measures, and prints the table."""
    given = arguments()
    started, load = datetime.datetime.now(datetime.timezone.utc), " ".join(f"{it:.1f}" for it in os.getloadavg())
    with tempfile.TemporaryDirectory(prefix="wumpus-bench-") as room:
        bench = Bench(os.path.abspath(given.wumpus), os.path.abspath(given.keep or room), given.size, given.runs, find_xapian())
        measure_all(bench)
    table = report(bench, started, load)
    print(table)
    if given.out:
        with open(given.out, "w", encoding="utf-8") as out:
            out.write(table)


if __name__ == "__main__":
    main()
