#!/usr/bin/env python3
"""Measures a user's terms and exports at 100 MB, beside FTS5: bench/terms.py --wumpus PATH [--size 10|100].

The words that begin with a prefix, each with the number of the user's files that have it. FTS5's dictionary (fts5vocab) tells the words
of all files; the peer is asked for her files' words alone, by a join of its instances with the table of her files, which is the one way
that tells her no more. An export is timed by the session that writes it, with the peak of its memory.
"""

import argparse
import os
import random
import sqlite3
import sys
import tempfile
import time

sys.dont_write_bytecode = True

import corpus
import measure
import peer
import queries

SEED = 1
SHOWN = 10
ROUNDS = 5
LETTERS = [1, 2, 3, 5]
PREFIXES = 3
TERMS = """SELECT term, count(DISTINCT doc) FROM words JOIN readable ON readable.ino = words.doc AND readable.uid = :user
 WHERE term >= :low AND term < :high GROUP BY term ORDER BY term"""


def prefixes(letters: int) -> list[str]:
    """Returns some prefixes of words that stand in the texts."""
    generator = random.Random(letters)
    longer = (corpus.word(generator.randrange(20_000)) for _ in range(1_000))
    return [word[:letters] for word in longer if len(word) >= letters][:PREFIXES]


def seconds_of_terms(session: measure.Session, user: int, prefix: str) -> tuple[float, int]:
    """Returns the time of a list, the least of some, and how many words there are."""
    line = corpus.line("terms", user, SHOWN, prefix)
    times = []
    for _ in range(ROUNDS):
        used, replies = session.timed([line])
        times.append(used.processor)
    return min(times), int(replies[0].split()[1])


def seconds_of_peer(connection: sqlite3.Connection, user: int, prefix: str) -> tuple[float, int]:
    """Returns the peer's time of the same list, and how many words it has."""
    given = {"user": user, "low": prefix, "high": prefix[:-1] + chr(ord(prefix[-1]) + 1)}
    start = time.process_time()
    found = connection.execute(TERMS, given).fetchall()
    return time.process_time() - start, len(found)


def measure_terms(session: measure.Session, connection: sqlite3.Connection) -> None:
    """Prints a row for each length of a prefix and each user."""
    print("| User | Letters | Words | Wumpus, ms | FTS5, ms |\n|---|---|---|---|---|")
    for who, user in queries.USERS.items():
        for letters in LETTERS:
            some = prefixes(letters)
            mine = [seconds_of_terms(session, user, prefix) for prefix in some]
            theirs = [seconds_of_peer(connection, user, prefix) for prefix in some]
            words = [count for _, count in mine]
            if words != [count for _, count in theirs]:
                sys.exit(f"bench/terms.py: {who}, {some}: {words} words, and {[count for _, count in theirs]} of FTS5")
            own, other = (sum(it for it, _ in times) / len(some) * 1e3 for times in (mine, theirs))
            print(f"| {who} | {letters} | {sum(words) // len(some)} | {own:.2f} | {other:.0f} |", flush=True)


def measure_whole(program: str, folder: str, what: str, line: bytes) -> None:
    """Prints what one long reply takes, in a session of its own."""
    opened = measure.run_child([program, "run"], folder)
    used = measure.run_child([program, "run"], folder, input_bytes=line)
    seconds, beside = used.processor - opened.processor, f"{opened.peak:.0f} MB of a session that asks nothing"
    print(f"{what}: {seconds:.2f} s of the processor, {used.peak:.0f} MB at the peak, beside {beside}")


def main() -> None:
    """Builds both indexes, and measures."""
    parser = argparse.ArgumentParser(description=__doc__, formatter_class=argparse.RawDescriptionHelpFormatter)
    parser.add_argument("--wumpus", required=True, help="the built program")
    parser.add_argument("--size", type=int, choices=[10, 100], default=100, help="MB of texts")
    given = parser.parse_args()
    program = os.path.abspath(given.wumpus)
    with tempfile.TemporaryDirectory(prefix="wumpus-terms-") as room:
        script, database = os.path.join(room, "script"), os.path.join(room, "peer.db")
        corpus.write_script(SEED, given.size, script)
        measure.run_child([program, "run"], room, script)
        peer.build(script, database)
        peer.access(database)
        connection = peer.connect(database)
        connection.execute("CREATE VIRTUAL TABLE words USING fts5vocab(texts, 'instance')")
        session = measure.Session(program, room)
        measure_terms(session, connection)
        session.close()
        root = corpus.ROOT_USER
        measure_whole(program, room, "all words of user 0, 10,000 shown", corpus.line("terms", root, 10_000, ""))
        measure_whole(program, room, "an export of all files", corpus.line("export", root))


if __name__ == "__main__":
    main()
