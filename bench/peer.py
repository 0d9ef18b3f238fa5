#!/usr/bin/env python3
"""SQLite's FTS5 over the same corpus, in a process of its own.

`peer.py build SCRIPT DATABASE` loads a corpus. `peer.py optimize DATABASE` merges the index. `peer.py access DATABASE` computes which
user may read which file. `peer.py serve DATABASE` reads one request a line in JSON, and writes one reply a line with the time it took.
"""

import json
import sqlite3
import sys
import time
from collections.abc import Callable
from typing import Any

import corpus

ABSENT_WORD = "zzzzzz"

TABLES = """
CREATE VIRTUAL TABLE texts USING fts5(body, tokenize = 'ascii');
CREATE TABLE node(ino INTEGER PRIMARY KEY, is_directory INTEGER, uid INTEGER, gid INTEGER, mode INTEGER);
CREATE TABLE link(parent INTEGER, ino INTEGER, PRIMARY KEY (parent, ino)) WITHOUT ROWID;
CREATE INDEX link_of_node ON link(ino);
CREATE TABLE account(uid INTEGER PRIMARY KEY);
CREATE TABLE member(uid INTEGER, gid INTEGER, PRIMARY KEY (uid, gid)) WITHOUT ROWID;
CREATE TABLE reach(uid INTEGER, ino INTEGER, PRIMARY KEY (uid, ino)) WITHOUT ROWID;
CREATE TABLE readable(uid INTEGER, ino INTEGER, PRIMARY KEY (uid, ino)) WITHOUT ROWID;
CREATE TABLE touched_directory(ino INTEGER PRIMARY KEY);
CREATE TABLE touched_file(ino INTEGER PRIMARY KEY);
INSERT INTO node VALUES (1, 1, 0, 0, 493);
INSERT INTO account VALUES (0);
"""

# What a mode grants: {bit} is 4 for read and 1 for execute, {user} a column.
GRANTS = """CASE WHEN {user} = 0 THEN 1
 WHEN node.uid = {user} THEN node.mode >> 6 & {bit}
 WHEN EXISTS (SELECT 1 FROM member WHERE member.uid = {user} AND member.gid = node.gid) THEN node.mode >> 3 & {bit}
 ELSE node.mode & {bit} END"""
EXECUTES = GRANTS.replace("{bit}", "1")
READS = GRANTS.replace("{bit}", "4")

# The steps after the mode of the directory :top changed. Where :user is null, the rows of all users are made anew, else hers alone.
ACCESS_STEPS = [
    "DELETE FROM touched_directory",
    """INSERT INTO touched_directory
 WITH RECURSIVE below(ino) AS (
  SELECT :top UNION
  SELECT link.ino FROM below JOIN link ON link.parent = below.ino JOIN node ON node.ino = link.ino WHERE node.is_directory)
 SELECT ino FROM below""",
    "DELETE FROM touched_file",
    """INSERT INTO touched_file
 SELECT DISTINCT link.ino FROM touched_directory JOIN link ON link.parent = touched_directory.ino JOIN node ON node.ino = link.ino
 WHERE NOT node.is_directory""",
    """DELETE FROM reach WHERE uid IN (SELECT uid FROM account WHERE :user IS NULL OR uid = :user)
 AND ino IN (SELECT ino FROM touched_directory)""",
    f"""INSERT INTO reach
 WITH RECURSIVE open(uid, ino) AS (
  SELECT account.uid, node.ino FROM account CROSS JOIN node WHERE node.ino = :top AND (:user IS NULL OR account.uid = :user)
   AND (:top = 1 OR EXISTS (SELECT 1 FROM link JOIN reach ON reach.uid = account.uid AND reach.ino = link.parent WHERE link.ino = :top))
   AND {EXECUTES.replace("{user}", "account.uid")}
  UNION
  SELECT open.uid, link.ino FROM open JOIN link ON link.parent = open.ino JOIN node ON node.ino = link.ino
  WHERE node.is_directory AND {EXECUTES.replace("{user}", "open.uid")})
 SELECT uid, ino FROM open""",
    """DELETE FROM readable WHERE uid IN (SELECT uid FROM account WHERE :user IS NULL OR uid = :user)
 AND ino IN (SELECT ino FROM touched_file)""",
    f"""INSERT OR IGNORE INTO readable
 SELECT account.uid, touched_file.ino FROM account CROSS JOIN touched_file CROSS JOIN node ON node.ino = touched_file.ino
 WHERE (:user IS NULL OR account.uid = :user) AND {READS.replace("{user}", "account.uid")}
  AND EXISTS (SELECT 1 FROM link CROSS JOIN reach ON reach.uid = account.uid AND reach.ino = link.parent
   WHERE link.ino = touched_file.ino)""",
]

# Two forms of one question, and one without a filter, for the user who may read all. In the join the planner's own order is the other one,
# which looks the word up for each readable file, so it is forced; the plus has the subquery's rows kept in a list.
JOIN, SUBQUERY, UNFILTERED = "join", "subquery", "unfiltered"
COUNT = {
    JOIN: "SELECT count(*) FROM texts CROSS JOIN readable ON readable.ino = texts.rowid WHERE texts MATCH ? AND readable.uid = ?",
    SUBQUERY: "SELECT count(*) FROM texts WHERE texts MATCH ? AND +rowid IN (SELECT ino FROM readable WHERE uid = ?)",
    UNFILTERED: "SELECT count(*) FROM texts WHERE texts MATCH ?",
}
RANK = {
    JOIN: """SELECT texts.rowid, bm25(texts) AS score FROM texts CROSS JOIN readable ON readable.ino = texts.rowid
 WHERE texts MATCH ? AND readable.uid = ? ORDER BY score LIMIT 10""",
    SUBQUERY: """SELECT rowid, bm25(texts) AS score FROM texts
 WHERE texts MATCH ? AND +rowid IN (SELECT ino FROM readable WHERE uid = ?) ORDER BY score LIMIT 10""",
    UNFILTERED: "SELECT rowid, bm25(texts) AS score FROM texts WHERE texts MATCH ? ORDER BY score LIMIT 10",
}
STATEMENTS = {"word": COUNT, "phrase": COUNT, "near": COUNT, "rank": RANK}


def connect(path: str) -> sqlite3.Connection:
    """Opens a database. The cache is larger than SQLite's default of 2 MB, which makes it faster."""
    connection = sqlite3.connect(path, isolation_level=None)
    connection.execute("PRAGMA cache_size = -16000")
    return connection


def load_event(connection: sqlite3.Connection, event: corpus.Event) -> None:
    """Adds what one command of the script tells."""
    word, *fields = event.fields
    if word == "user":
        connection.execute("INSERT INTO account VALUES (?)", fields[:1])
        connection.executemany("INSERT INTO member VALUES (?, ?)", [(fields[0], group) for group in fields[1:]])
    elif word in ("mkdir", "create"):
        ino, parent, _, owner, group, mode = fields
        connection.execute("INSERT INTO node VALUES (?, ?, ?, ?, ?)", (ino, word == "mkdir", owner, group, int(mode, 8)))
        connection.execute("INSERT INTO link VALUES (?, ?)", (parent, ino))
    elif word == "link":
        connection.execute("INSERT OR IGNORE INTO link VALUES (?, ?)", (fields[1], fields[0]))
    elif word == "text":
        connection.execute("INSERT INTO texts(rowid, body) VALUES (?, ?)", (int(fields[0]), event.body.decode()))


def build(script_path: str, path: str) -> None:
    """Loads a corpus in one transaction."""
    connection = connect(path)
    connection.executescript(TABLES)
    connection.execute("BEGIN")
    with open(script_path, "rb") as script:
        for event in corpus.read_events(script):
            load_event(connection, event)
    connection.execute("COMMIT")
    connection.close()


def optimize(path: str) -> None:
    """Merges the index into one piece."""
    connection = connect(path)
    connection.execute("INSERT INTO texts(texts) VALUES ('optimize')")
    connection.close()


def renew_access(connection: sqlite3.Connection, top: int, user: int | None) -> None:
    """Makes the rows of the files below a directory anew, for one user or for all."""
    for step in ACCESS_STEPS:
        connection.execute(step, {"top": top, "user": user})


def access(path: str) -> None:
    """Computes the table of readable files from nothing."""
    connection = connect(path)
    connection.execute("BEGIN")
    renew_access(connection, corpus.ROOT, None)
    connection.execute("COMMIT")
    connection.close()


def timed(work: Callable[[], Any]) -> dict[str, Any]:
    """Does some work, and returns what it gave with the seconds of the clock and of the processor."""
    wall, processor = time.perf_counter(), time.process_time()
    answer = work()
    return {"processor": time.process_time() - processor, "wall": time.perf_counter() - wall, "answer": answer}


class Server:
    """One session of the database, opened at the first request."""

    connection: sqlite3.Connection

    def __init__(self, path: str) -> None:
        self.path = path

    def open(self) -> Any:
        """Opens the database and asks for a word that no text has, so that the index is opened too."""
        self.connection = connect(self.path)
        return self.connection.execute("SELECT count(*) FROM texts WHERE texts MATCH ?", (ABSENT_WORD,)).fetchone()

    def ask(self, form: str, kind: str, matches: list[str], user: int, repeat: int) -> list[Any]:
        """Asks some queries as one user, again and again, and returns the answers of the last time."""
        statement, answers = STATEMENTS[kind][form], []
        given = [(match,) if form == UNFILTERED else (match, user) for match in matches]
        for _ in range(repeat):
            answers = [self.connection.execute(statement, some).fetchall() for some in given]
        return answers

    def change_mode(self, ino: int, mode: int, renewed: int | None, match: str, user: int) -> Any:
        """Changes the mode of a directory, renews the readable files of one user or of all, and counts."""
        self.connection.execute("BEGIN")
        self.connection.execute("UPDATE node SET mode = ? WHERE ino = ?", (mode, ino))
        renew_access(self.connection, ino, renewed)
        answer = self.connection.execute(COUNT[JOIN], (match, user)).fetchall()
        self.connection.execute("COMMIT")
        return answer

    def change_text(self, ino: int, body: str, match: str, user: int) -> Any:
        """Gives a file another text, saves, and counts."""
        self.connection.execute("UPDATE texts SET body = ? WHERE rowid = ?", (body, ino))
        return self.connection.execute(COUNT[JOIN], (match, user)).fetchall()

    def index_bytes(self) -> int:
        """Returns the bytes of the index: all tables of FTS5 but the one that keeps the texts."""
        statement = "SELECT sum(pgsize) FROM dbstat WHERE name LIKE 'texts_%' AND name <> 'texts_content'"
        return int(self.connection.execute(statement).fetchone()[0])


def serve(server: object) -> None:
    """Answers requests, which name a method of the server, until the input ends."""
    for request in sys.stdin:
        name, arguments = json.loads(request)
        print(json.dumps(timed(lambda: getattr(server, name)(*arguments))), flush=True)


def main(arguments: list[str]) -> None:
    """Does what the first argument tells."""
    if arguments[0] == "serve":
        serve(Server(arguments[1]))
    else:
        commands: dict[str, Callable[..., None]] = {"build": build, "optimize": optimize, "access": access}
        commands[arguments[0]](*arguments[1:])


if __name__ == "__main__":
    main(sys.argv[1:])
