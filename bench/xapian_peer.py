#!/usr/bin/python3
"""Xapian over the same corpus, in a process of its own.

`xapian_peer.py build SCRIPT DATABASE FOLDER` loads a corpus; who may read which file is taken from the table of FTS5's database.
`xapian_peer.py compact FOLDER` merges the index. `xapian_peer.py serve FOLDER` reads one request a line in JSON, and writes one reply a
line with the time it took. It needs Xapian's module for Python, `python3-xapian` of Debian, which serves the system's own Python.
"""

import os
import shutil
import sys
from collections import defaultdict
from collections.abc import Callable, Iterable
from typing import Any

import xapian  # type: ignore

import corpus
import peer
import queries

DOCUMENTS_OF_FLUSH = 1_000


def reader_term(user: int) -> str:
    """Returns the term of the files that a user may read. No word has it, since words have no capital letters."""
    return f"XU{user}"


def readers_of_files(database: str) -> dict[int, list[int]]:
    """Returns the users who may read each file."""
    readers = defaultdict(list)
    connection = peer.connect(database)
    for ino, user in connection.execute("SELECT ino, uid FROM readable"):
        readers[ino].append(user)
    connection.close()
    return readers


def document(generator: Any, body: bytes, readers: Iterable[int]) -> Any:
    """Returns the document of a text: its words with their positions, a term for each user who may read it, and the text itself."""
    made = xapian.Document()
    generator.set_document(made)
    generator.set_termpos(0)
    generator.index_text(body)
    for user in readers:
        made.add_boolean_term(reader_term(user))
    made.set_data(body)
    return made


def build(script_path: str, database: str, folder: str) -> None:
    """Loads a corpus, and saves. The generator of terms has no stemmer and no stop words. A document has the number of its file."""
    os.environ["XAPIAN_FLUSH_THRESHOLD"] = str(DOCUMENTS_OF_FLUSH)
    readers = readers_of_files(database)
    index, generator = xapian.WritableDatabase(folder, xapian.DB_CREATE_OR_OVERWRITE), xapian.TermGenerator()
    with open(script_path, "rb") as script:
        for event in corpus.read_events(script):
            if event.fields[0] == "text":
                ino = int(event.fields[1])
                index.replace_document(ino, document(generator, event.body, readers[ino]))
    index.commit()
    index.close()


def compact(folder: str) -> None:
    """Merges the index into one piece, and puts it in the place of the other."""
    whole = f"{folder}.compact"
    index = xapian.Database(folder)
    index.compact(whole)
    index.close()
    shutil.rmtree(folder)
    os.rename(whole, folder)


def query_of(kind: str, words: list[str]) -> Any:
    """Returns the query of this kind for some words."""
    if kind == "phrase":
        return xapian.Query(xapian.Query.OP_PHRASE, words, len(words))
    if kind == "near":
        return xapian.Query(xapian.Query.OP_NEAR, words, queries.NEAR_TOKENS)
    return xapian.Query(xapian.Query.OP_OR, words)


def exact_count(found: Any) -> int:
    """Returns how many documents a search found, which is exact where it looked at all of them."""
    count = int(found.get_matches_estimated())
    if not found.get_matches_lower_bound() == count == found.get_matches_upper_bound():
        raise RuntimeError(f"the count of {count} documents is not exact")
    return count


class Server:
    """One session of the index, opened at the first request."""

    index: Any
    enquire: Any

    def __init__(self, path: str) -> None:
        self.path = path

    def open(self) -> Any:
        """Opens the index and asks for a word that no text has."""
        self.index = xapian.Database(self.path)
        self.enquire = xapian.Enquire(self.index)
        return self.ask(peer.UNFILTERED, "word", [[peer.ABSENT_WORD]], corpus.ROOT_USER, 1)

    def ask(self, form: str, kind: str, asked: list[list[str]], user: int, repeat: int) -> list[Any]:
        """Asks some queries as one user, again and again, and returns the answers of the last time: the best files, or how many there are.

        A count weighs nothing and looks at all files, so that it is exact.
        """
        wanted = [query_of(kind, words) for words in asked]
        if form != peer.UNFILTERED:
            wanted = [xapian.Query(xapian.Query.OP_FILTER, query, xapian.Query(reader_term(user))) for query in wanted]
        self.enquire.set_weighting_scheme(xapian.BM25Weight() if kind == "rank" else xapian.BoolWeight())
        limits = (0, queries.RANKED) if kind == "rank" else (0, 0, self.index.get_doccount())
        found = []
        for _ in range(repeat):
            found = [self.search(query, limits) for query in wanted]
        if kind == "rank":
            return [[[match.docid, match.weight] for match in some] for some in found]
        return [[[exact_count(some)]] for some in found]

    def search(self, query: Any, limits: tuple[int, ...]) -> Any:
        """Returns what one query finds."""
        self.enquire.set_query(query)
        return self.enquire.get_mset(*limits)

    def index_bytes(self) -> int:
        """Returns the bytes of the index: all its files but the one that keeps the texts."""
        return sum(entry.stat().st_size for entry in os.scandir(self.path) if not entry.name.startswith("docdata."))


def main(arguments: list[str]) -> None:
    """Does what the first argument tells."""
    if arguments[0] == "serve":
        peer.serve(Server(arguments[1]))
    else:
        commands: dict[str, Callable[..., None]] = {"build": build, "compact": compact}
        commands[arguments[0]](*arguments[1:])


if __name__ == "__main__":
    main(sys.argv[1:])
