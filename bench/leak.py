#!/usr/bin/env python3
"""Shows that what others keep changes no byte of a user's answers: bench/leak.py --wumpus PATH.

It tries the law `two_machines_tell_her_alike`: whatever others do, the same queries over equal views are told the same bytes.
Two stores agree on what one user may search, and differ in ten thousand files of others. She asks both the same queries: with many
parts, in the midst of merges, after them, and in another session. The bytes of the replies have to be the same. FTS5 is asked the same
words over the same texts, restricted to her files: its bm25() takes its statistics from all files, so its scores differ. Bytes are
compared, not times.
"""

import argparse
import os
import random
import sqlite3
import sys
import tempfile
from collections.abc import Iterator, Sequence
from dataclasses import dataclass

sys.dont_write_bytecode = True

import corpus
import measure
import peer

ASKER, HER_GROUP, OTHER = 7, 70, 8
HER_FILES, OTHER_FILES = 300, 10_000
OPEN, CLOSED = 2, 3
VOCABULARY = 2_000
QUERIES_OF_KIND = 200
POSTINGS_OF_FLUSH = 30_000
UNITS_OF_SOME_WORK = 3_000


@dataclass
class File:
    """A file of one of the two stores."""

    ino: int
    name: str
    is_hers: bool
    text: bytes


def text(generator: random.Random, words: int, favourite: int) -> bytes:
    """Returns a text in lines of eight words. Words near the favourite number are frequent in it."""
    numbers = [(favourite + int(generator.paretovariate(0.6))) % VOCABULARY for _ in range(words)]
    lines = [" ".join(corpus.word(number) for number in numbers[at : at + 8]) for at in range(0, words, 8)]
    return "\n".join(lines).encode() + b"\n"


def files(seed: int) -> Iterator[File]:
    """Yields the files of a store: hers are the same in each, and those of others, their numbers and their order depend on the seed."""
    hers, others = random.Random(0), random.Random(seed)
    kinds = [True] * HER_FILES + [False] * OTHER_FILES
    others.shuffle(kinds)
    ino, number = 10, 0
    for is_hers in kinds:
        ino += others.randrange(1, 4)
        if is_hers:
            yield File(ino, f"h{number}", True, text(hers, 120, 0))
            number += 1
        else:
            yield File(ino, f"o{ino}", False, text(others, others.randrange(1, 100), 400 * seed))


def script(seed: int) -> Iterator[bytes]:
    """Yields the commands that make a store. Others' files lie in a closed directory or beside hers, and some have a second link there."""
    others = random.Random(-seed)
    yield corpus.line("user", ASKER, HER_GROUP)
    yield corpus.line("mkdir", OPEN, corpus.ROOT, "open", 0, 0, "755")
    yield corpus.line("mkdir", CLOSED, corpus.ROOT, "closed", OTHER, OTHER, "700")
    for file in files(seed):
        directory = OPEN if file.is_hers or others.random() < 0.5 else CLOSED
        owner, mode = (ASKER, "600") if file.is_hers else (OTHER, "644" if directory == CLOSED else "600")
        yield corpus.line("create", file.ino, directory, file.name, owner, HER_GROUP if file.is_hers else OTHER, mode)
        yield corpus.line("text", file.ino, len(file.text)) + file.text + b"\n"
        if not file.is_hers and others.random() < 0.1:
            yield corpus.line("link", file.ino, CLOSED, f"l{file.ino}")


def some_word(generator: random.Random) -> str:
    """Returns a word that is in her texts or in others', or in both."""
    return corpus.word(int(generator.paretovariate(0.4)) % VOCABULARY)


def asked(generator: random.Random) -> Iterator[bytes]:
    """Yields one query of each kind."""
    first, second = some_word(generator), some_word(generator)
    yield corpus.line("count", ASKER, f'"{first}"')
    yield corpus.line("count", ASKER, f'"{first} {second}"')
    yield corpus.line("count", ASKER, f'("{first}" ^ "{second}") < [10]')
    yield corpus.line("count", ASKER, f'line > "{first}" /> "{second}"')
    yield corpus.line("find", ASKER, 20, f'"{first}" .. "{second}"')
    yield corpus.line("rank", ASKER, 20, "file", f"{first} {second}")
    yield corpus.line("rank", ASKER, 20, "line", f"{first} {second}")
    yield corpus.line("weighed", ASKER, 20, "line", f"{first} {second}")
    yield corpus.line("terms", ASKER, 20, first[:2])
    yield corpus.line("top", ASKER, 20, second[:1])


def all_queries() -> list[bytes]:
    """Returns two hundred queries of each kind, her paths, all her words, and her files."""
    generator = random.Random(1)
    once = [corpus.line("paths", ASKER), corpus.line("terms", ASKER, 10_000, ""), corpus.line("export", ASKER)]
    return [*once, *(line for _ in range(QUERIES_OF_KIND) for line in asked(generator))]


def ask_each_alone(session: measure.Session) -> list[bytes]:
    """Asks all queries one after the other, since replies may be long."""
    return [session.ask([line])[0] for line in all_queries()]


def size_of(session: measure.Session) -> str:
    """Returns what the session tells of the size of the index."""
    return session.ask([b"stat\n"])[0].decode().strip()


def answers(program: str, folder: str, seed: int) -> dict[str, list[bytes]]:
    """Makes a store, and returns her replies at each time."""
    os.mkdir(folder)
    found = {}
    session = measure.Session(program, folder, f"--flush={POSTINGS_OF_FLUSH}")
    session.ask(list(script(seed)))
    print(f"store {seed}, before merges: {size_of(session)}")
    found["before merges"] = ask_each_alone(session)
    session.ask([corpus.line("work", UNITS_OF_SOME_WORK)])
    found["in the midst of merges"] = ask_each_alone(session)
    session.work_until_idle()
    print(f"store {seed}, after merges:  {size_of(session)}")
    found["after merges"] = ask_each_alone(session)
    session.close()
    session = measure.Session(program, folder)
    found["in another session"] = ask_each_alone(session)
    session.close()
    return found


def peer_database(seed: int) -> sqlite3.Connection:
    """Returns the same texts in FTS5, with the table of her files."""
    connection = sqlite3.connect(":memory:")
    connection.executescript(
        "CREATE VIRTUAL TABLE texts USING fts5(body, tokenize = 'ascii'); CREATE TABLE readable(uid, ino, name, PRIMARY KEY (uid, ino))"
    )
    for file in files(seed):
        connection.execute("INSERT INTO texts(rowid, body) VALUES (?, ?)", (file.ino, file.text.decode()))
        if file.is_hers:
            connection.execute("INSERT INTO readable VALUES (?, ?, ?)", (ASKER, file.ino, file.name))
    return connection


def peer_answers(seed: int) -> tuple[list[int], list[list[tuple[str, float]]]]:
    """Returns FTS5's counts and rankings of her files."""
    connection, generator = peer_database(seed), random.Random(1)
    counts, rankings = [], []
    for _ in range(QUERIES_OF_KIND):
        match = f'"{some_word(generator)}" OR "{some_word(generator)}"'
        counts.append(connection.execute(peer.COUNT["join"], (match, ASKER)).fetchone()[0])
        ranked = connection.execute(
            """SELECT name, bm25(texts) AS score FROM texts CROSS JOIN readable ON readable.ino = texts.rowid
 WHERE texts MATCH ? AND readable.uid = ? ORDER BY score, name LIMIT 20""",
            (match, ASKER),
        )
        rankings.append(ranked.fetchall())
    return counts, rankings


def differing(some: Sequence[object], others: Sequence[object]) -> int:
    """Returns the number of places where two lists differ."""
    return sum(first != second for first, second in zip(some, others, strict=True))


def compare_program(program: str) -> int:
    """Compares the program's answers over two stores, prints what differs, and returns how much does."""
    with tempfile.TemporaryDirectory(prefix="wumpus-leak-") as room:
        first, second = (answers(program, os.path.join(room, str(seed)), seed) for seed in (1, 2))
    total = 0
    for when in first:
        number, size = differing(first[when], second[when]), sum(len(reply) for reply in first[when])
        hits = sum(reply.split(b"\t")[1].strip() not in (b"0", b"") for reply in first[when])
        print(f"wumpus {when}: {number} of {len(first[when])} replies differ; {hits} aren't empty, {size} bytes in all")
        total += number
    times = list(first.values())
    drifting = sum(differing(times[0], later) for later in times[1:])
    print(f"wumpus, one time against another over one store: {drifting} replies differ")
    return total + drifting


def compare_peer() -> None:
    """Compares FTS5's answers over the same texts, and prints what differs."""
    (counts, rankings), (other_counts, other_rankings) = peer_answers(1), peer_answers(2)
    orders, other_orders = ([[name for name, _ in ranked] for ranked in some] for some in (rankings, other_rankings))
    print(f"FTS5 counts of her files: {differing(counts, other_counts)} of {len(counts)} differ")
    print(f"FTS5 bm25() of her files: the scores of {differing(rankings, other_rankings)} of {len(rankings)} rankings differ", end="")
    print(f", and the order of {differing(orders, other_orders)}")


def main() -> None:
    """Compares both, and ends with status 1 where the program's answers differ."""
    parser = argparse.ArgumentParser(description=__doc__, formatter_class=argparse.RawDescriptionHelpFormatter)
    parser.add_argument("--wumpus", required=True, help="the built program")
    leaks = compare_program(os.path.abspath(parser.parse_args().wumpus))
    compare_peer()
    sys.exit(1 if leaks else 0)


if __name__ == "__main__":
    main()
