"""The page: who reaches its server and with what, what it tells, and the page in a browser.

The server is run by one user; others, user 0 among them, do what they can. Where Chromium is
there, the page is used by the keyboard, and attacked by another user's page in the same browser.
"""

import errno
import hmac
import json
import os
import signal
import socket
import subprocess
import sys
import threading
import time
from collections.abc import Callable, Iterator
from contextlib import contextmanager
from dataclasses import dataclass
from http.server import BaseHTTPRequestHandler, ThreadingHTTPServer
from pathlib import Path
from unittest import mock

import browser
from browser import Browser
from harness import SERVICE, Score, folder_of_own, needs_program, needs_root, options
from kernel import User, become
from service_test import Served, as_user, mirror_until_done, wait_for

from wumpus.web import command, guard, server  # isort: skip
from wumpus.web.answers import (  # isort: skip
    Answers, directories_of, kinds_of, narrowed_by,
)  # fmt: skip
from wumpus.web.guard import Keys, Refusal  # isort: skip
from wumpus.ask import language  # isort: skip
from wumpus.ask.search import File  # isort: skip

ANN, BOB, ROOT = User(1000, (1000,)), User(1001, (1001,)), User(0, (0,))
EVIL = "evil<img src=x onerror=alert(1)>\u202e\x1b[1m"
SEEN = 30  # files of a list


@dataclass
class Page:
    """A running `wumpus-web`, and what a browser is told of it."""

    process: "subprocess.Popen[bytes]"
    link: str

    @property
    def host(self) -> str:
        """The address and the port."""
        return self.link.split("/")[2]

    @property
    def ticket(self) -> str:
        """What stands behind the `#`."""
        return self.link.partition("#")[2]

    @property
    def place(self) -> tuple[str, int]:
        """The address and the port, to connect to."""
        address, _, port = self.host.partition(":")
        return address, int(port)

    def end(self) -> int:
        """Ends it: its status."""
        self.process.send_signal(signal.SIGTERM)
        assert self.process.stdout is not None
        self.process.stdout.close()
        return self.process.wait(20)


def start(
    served: Served,
    user: User,
    *words: str,
    command: tuple[str, ...] = (str(SERVICE / "wumpus-web"),),
    **variables: str,
) -> Page:
    """Runs the page's server as a user."""
    process = subprocess.Popen(
        [*command, "--no-open", "--sockets", str(served.sockets), *words],
        stdout=subprocess.PIPE,
        stderr=subprocess.DEVNULL,
        preexec_fn=lambda: become(user),
        env={"PATH": "/usr/bin:/bin", **variables},
        cwd=served.tree,
    )
    assert process.stdout is not None
    return Page(process, process.stdout.readline().decode().strip())


def fill(tree: Path) -> None:
    """Files to look for, and one that is another user's."""
    for number in range(SEEN):
        folder = tree / "list" / f"part {number % 3}"
        folder.mkdir(parents=True, exist_ok=True)
        (folder / f"item{number}.md").write_text(f"item {number}\nof the long list\n" * 9)
    (tree / "plan.txt").write_text("the budget\nand a lunch\n")
    (tree / EVIL).write_text(f"strange <script>alert(1)</script> {EVIL}\n")
    (tree / "secret.md").write_text("budget of nobody else\n")
    (tree / "secret.md").chmod(0o600)
    os.chown(tree / "secret.md", BOB.number, BOB.number)


# ---- raw requests


def request(
    page: Page,
    method: str = "GET",
    path: str = "/",
    body: bytes | None = None,
    drop: tuple[str, ...] = (),
    more: tuple[tuple[str, str], ...] = (),
    version: str = "HTTP/1.1",
) -> bytes:
    """A request as the page would make it, but for some of its headers."""
    headers = [("Host", page.host), ("Connection", "close")]
    if body is not None:
        headers += [
            ("Origin", f"http://{page.host}"),
            ("Content-Type", "application/json"),
            ("Content-Length", str(len(body))),
            ("Sec-Fetch-Site", "same-origin"),
        ]
    kept = [one for one in headers if one[0] not in drop] + list(more)
    head = "".join(f"{name}: {value}\r\n" for name, value in kept)
    return f"{method} {path} {version}\r\n{head}\r\n".encode() + (body or b"")


def connected(page: Page) -> socket.socket:
    """A connection to the page's server."""
    connection = socket.socket()
    connection.settimeout(5)
    connection.connect(page.place)
    return connection


def answered(page: Page, asked: bytes, user: User) -> bytes:
    """What a process of that user is answered on a connection; empty where it is cut off."""

    def talk() -> bytes:
        with connected(page) as connection:
            found = b""
            try:
                connection.sendall(asked)
                while piece := connection.recv(65536):
                    found += piece
            except (ConnectionResetError, BrokenPipeError):
                pass  # it was cut off
            return found

    return as_user(user, talk)


def status(page: Page, asked: bytes, user: User = ANN) -> int:
    """The status of an answer; 0 where there is none."""
    told = answered(page, asked, user)
    return int(told.split(b" ")[1]) if told.startswith(b"HTTP/") else 0


def call(page: Page, token: str, path: str, value: object, user: User = ANN) -> tuple[int, object]:
    """The status and the value that a call is answered."""
    body = json.dumps(value).encode()
    asked = request(page, "POST", path, body, more=(("Wumpus-Token", token),))
    head, _, answer = answered(page, asked, user).partition(b"\r\n\r\n")
    if not head.startswith(b"HTTP/"):
        return 0, None
    return int(head.split(b" ")[1]), json.loads(answer) if len(answer) < 3000 else None


def entered(page: Page) -> str:
    """The token that the ticket gives."""
    _, told = call(page, "", "/enter", {"ticket": page.ticket})
    assert isinstance(told, dict)
    return str(told["token"])


# ---- attacks


def others(page: Page, score: Score) -> str:
    """Nobody but the user herself is answered anything, with ticket and token or without."""
    enter = json.dumps({"ticket": page.ticket}).encode()
    for user in (BOB, ROOT):
        name = f"user {user.number}"
        score.check(answered(page, request(page), user) == b"", f"{name} is answered")
        told = answered(page, request(page, "POST", "/enter", enter), user)
        score.check(told == b"", f"{name} with the ticket: {told!r}")
    score.check(status(page, request(page)) == 200, "the user herself")
    token = entered(page)
    for user in (BOB, ROOT):
        told_status, _ = call(page, token, "/ask", {"query": "budget", "number": 9}, user)
        score.check(told_status == 0, f"user {user.number} with the token: {told_status}")
    again, _ = call(page, "", "/enter", {"ticket": page.ticket})
    score.check(again == 403, f"the ticket twice: {again}")
    return token


def requests(page: Page, token: str, score: Score) -> None:
    """What isn't exactly a request of the page is refused."""
    question = json.dumps({"query": "budget", "number": 9}).encode()
    with_token = ("Wumpus-Token", token)

    def post(
        body: bytes = question,
        drop: tuple[str, ...] = (),
        more: tuple[tuple[str, str], ...] = (with_token,),
        path: str = "/ask",
    ) -> bytes:
        return request(page, "POST", path, body, drop, more)

    def other(name: str, value: str) -> bytes:
        return post(drop=(name,), more=(with_token, (name, value)))

    port = page.host.partition(":")[2]
    rows: list[tuple[str, bytes, int]] = [
        ("a good call", post(), 200),
        ("no token", post(more=()), 403),
        ("a wrong token", post(more=(("Wumpus-Token", token[:-1] + "."),)), 403),
        ("the ticket for a token", post(more=(("Wumpus-Token", page.ticket),)), 403),
        ("two tokens", post(more=(with_token, with_token)), 403),
        ("a wrong ticket", post(b'{"ticket": "x"}', path="/enter"), 403),
        ("a ticket that is no text", post(b'{"ticket": ["x"]}', path="/enter"), 403),
        ("no host", post(drop=("Host",)), 421),
        ("localhost", other("Host", f"localhost:{port}"), 421),
        ("a name that was rebound", other("Host", f"evil.example:{port}"), 421),
        ("a host without the port", other("Host", page.host.partition(":")[0]), 421),
        ("two hosts", post(more=(with_token, ("Host", "evil.example"))), 421),
        ("no origin", post(drop=("Origin",)), 403),
        ("another origin", other("Origin", "http://127.0.0.1:80"), 403),
        ("a null origin", other("Origin", "null"), 403),
        ("another site", other("Sec-Fetch-Site", "cross-site"), 403),
        ("the same site", other("Sec-Fetch-Site", "same-site"), 403),
        ("no site told", post(drop=("Sec-Fetch-Site",)), 200),
        ("a form", other("Content-Type", "application/x-www-form-urlencoded"), 415),
        ("plain text", other("Content-Type", "text/plain"), 415),
        ("no type", post(drop=("Content-Type",)), 415),
        ("no length", post(drop=("Content-Length",)), 411),
        ("two lengths", post(more=(with_token, ("Content-Length", "2"))), 411),
        ("a length that is no number", other("Content-Length", "-1"), 411),
        ("a long body", other("Content-Length", "99999"), 413),
        ("a huge length", other("Content-Length", "9" * 30), 413),
        ("chunks", post(more=(with_token, ("Transfer-Encoding", "chunked"))), 501),
        ("an expectation", post(more=(with_token, ("Expect", "100-continue"))), 417),
        ("no JSON", post(b"query=budget"), 400),
        ("a list", post(b"[]"), 400),
        ("a query that is no text", post(b'{"query": 1, "number": 9}'), 400),
        ("half a pair of surrogates", post(b'{"query": "\\ud800", "number": 9}'), 400),
        ("a large number", post(b'{"query": "a", "number": 1001}'), 400),
        ("a number that is none", post(b'{"query": "a", "number": true}'), 400),
        ("another call", post(path="/save"), 404),
        ("a call by GET", request(page, path="/ask"), 404),
        ("an older version", request(page, version="HTTP/1.0"), 505),
        ("another site's link", request(page, more=(("Sec-Fetch-Site", "cross-site"),)), 403),
        ("a link", request(page, more=(("Sec-Fetch-Site", "none"),)), 200),
    ]
    rows += [(method, request(page, method), 501)
             for method in ("OPTIONS", "HEAD", "PUT", "DELETE", "TRACE", "CONNECT")]  # fmt: skip
    rows += [(path, request(page, path=path), 404) for path in (
        "/index.html", "/page.py", "/../server.py", "/page/../../guard.py", "/page.js?x",
        "/%2e%2e/server.py", "/etc/passwd", "*", f"http://{page.host}/",
    )]  # fmt: skip
    for name, asked, due in rows:
        told = status(page, asked)
        score.check(told == due, f"{name}: {told} in place of {due}")


def replies(page: Page, token: str, score: Score) -> None:
    """Each reply has the headers that keep other pages out, and none has a cookie."""
    body = b'{"query": "budget", "number": 9}'
    for asked in (
        request(page), request(page, path="/page.js"), request(page, path="/none"),
        request(page, "PUT"), request(page, drop=("Host",)),
        request(page, "POST", "/ask", body, more=(("Wumpus-Token", token),)),
    ):  # fmt: skip
        head = answered(page, asked, ANN).partition(b"\r\n\r\n")[0].decode()
        for name, value in server.HEADERS.items():
            score.check(f"\r\n{name}: {value}" in head, f"{name} isn't in {head!r}")
        score.check("cookie" not in head.lower(), f"a cookie: {head!r}")
        score.check("Python" not in head, f"a version: {head!r}")
    score.check("budget" not in page.link, "the query isn't in the link")


def ports(page: Page, score: Score) -> None:
    """Nobody takes the port beside, with the options for it or without."""
    address, port = page.place
    reuse = (None, socket.SO_REUSEADDR, socket.SO_REUSEPORT)
    for user in (BOB, ANN):
        for where in (address, "0.0.0.0"):
            for option in reuse:

                def bind(where: str = where, option: int | None = option) -> bytes:
                    with socket.socket() as other:
                        if option is not None:
                            other.setsockopt(socket.SOL_SOCKET, option, 1)
                        try:
                            other.bind((where, port))
                            other.listen()
                        except OSError as error:
                            return errno.errorcode[error.errno or 0].encode()
                        return b"taken"

                told = as_user(user, bind)
                score.check(told == b"EADDRINUSE", f"{user} at {where} by {option}: {told!r}")
    score.check(address.startswith("127.") and address != "127.0.0.1", f"the address {address}")


def crowds(page: Page, token: str, score: Score) -> None:
    """Two hundred connections of another user hinder nobody: they are cut off."""
    reading, writing = os.pipe()
    child = os.fork()
    if child == 0:
        try:
            become(BOB)
            some = [connected(page) for _ in range(200)]
            os.write(writing, b"." if all(some) else b"")
            time.sleep(20)
        finally:
            os._exit(0)
    os.read(reading, 1)
    began = time.monotonic()
    told, _ = call(page, token, "/ask", {"query": "budget", "number": 9})
    spent = time.monotonic() - began
    score.check(told == 200 and spent < 5, f"beside 200 connections: {told} after {spent:.1f} s")
    os.kill(child, signal.SIGKILL)
    os.waitpid(child, 0)
    os.close(reading)
    os.close(writing)


def files(page: Page, token: str, score: Score) -> None:
    """Only a file that was a result is shown, and as text."""
    for number in (0, 1, 99, "1", None, "/etc/passwd"):
        told, _ = call(page, token, "/file", {"file": number})
        score.check(told == 404, f"the file {number!r} before any result: {told}")
    told, answer = call(page, token, "/ask", {"query": "budget", "number": 9})
    assert isinstance(answer, dict)
    paths = [one["path"].rpartition("/")[2] for one in answer["files"]]
    score.check(paths == ["plan.txt"] and answer["total"] == 1, f"what is found: {answer}")
    text = answer["files"][0]["lines"][0]["text"]
    score.check(text == ["the ", "budget", ""], f"the matches of a line: {text}")
    _, shown = call(page, token, "/file", {"file": answer["files"][0]["file"]})
    assert isinstance(shown, dict)
    lines = [(row["line"], "".join(row["text"])) for row in shown["lines"]]
    score.check(lines == [(1, "the budget"), (2, "and a lunch")], f"the file: {shown}")
    told, _ = call(page, token, "/file", {"file": answer["files"][0]["file"] + 1})
    score.check(told == 404, f"a file that was no result: {told}")
    _, answer = call(page, token, "/ask", {"query": "strange", "number": 9})
    assert isinstance(answer, dict)
    name = answer["files"][0]["path"]
    score.check("\\u202e" in name and "\u202e" not in name, f"escapes in a name: {name!r}")
    _, answer = call(page, token, "/ask", {"query": "list", "number": 3})
    assert isinstance(answer, dict)
    groups = [(one["name"], one["count"]) for one in answer["directories"]["groups"]]
    score.check(groups == [(f"part {number}", 10) for number in range(3)], f"{groups}")
    score.check(len(answer["files"]) == 3 and answer["total"] == SEEN, f"{answer['total']}")
    narrower = answer["directories"]["groups"][0]["query"]
    _, answer = call(page, token, "/ask", {"query": narrower, "number": 1})
    assert isinstance(answer, dict)
    score.check(answer["total"] == 10, f"{narrower}: {answer['total']}")
    for query, due in (("list OR", "missing"), ("pl*", "3 letters"), ("x:y", "there is no x:")):
        _, answer = call(page, token, "/ask", {"query": query, "number": 9})
        score.check(isinstance(answer, dict) and due in answer["fault"], f"{query}: {answer}")
    typing = {"query": "lis", "number": 1, "typing": True}
    _, answer = call(page, token, "/ask", typing)
    assert isinstance(answer, dict)
    is_told = answer["total"] == SEEN and answer["notes"] == ["lis* was looked for"]
    score.check(is_told, f"a word that isn't whole: {answer['notes']}")
    _, answer = call(page, token, "/ask", {"query": "lis", "number": 1})
    score.check(isinstance(answer, dict) and answer["total"] == 0, "when it is whole")


ASKED = ("budget", "lnuch", "lunch secret", "list", "ext:md", "secre", "-list", "item -budget")


def leaks(served: Served, page: Page, token: str, score: Score) -> None:
    """Nothing that she is told changes by a byte where another's private files change."""
    private = served.tree / "private"
    private.mkdir(mode=0o700)
    told = []
    for text in ("secret budget lunch\n", "secre budgets lnuch list item\n" * 30):
        for number in range(len(text) % 9 + 1):
            (private / f"budget{number}.md").write_text(text)
        score.check(mirror_until_done(served), "a turn")
        answers = []
        for query in ASKED:
            body = json.dumps({"query": query, "number": 5, "typing": True}).encode()
            asked = request(page, "POST", "/ask", body, more=(("Wumpus-Token", token),))
            answers.append(answered(page, asked, ANN).partition(b"\r\n\r\n")[2])
        told.append(answers)
    for query, first, second in zip(ASKED, *told):
        score.check(first == second != b"", f"{query}: {first!r} and then {second!r}")


def sockets(served: Served, score: Score) -> None:
    """A socket in a folder of the user's own answers her alone."""
    run = served.folder / "run"
    run.mkdir()
    os.chown(run, ANN.number, ANN.number)
    run.chmod(0o755)
    page = start(served, ANN, "--unix", XDG_RUNTIME_DIR=str(run))
    score.check(page.link == "" and page.process.wait(20) == 2, "a folder that others may enter")
    run.chmod(0o700)
    page = start(served, ANN, "--unix", XDG_RUNTIME_DIR=str(run))
    score.check(page.host == "localhost:8377", f"the link {page.link}")
    path = run / command.SOCKET
    second = start(served, ANN, "--unix", XDG_RUNTIME_DIR=str(run))
    score.check(second.link == "" and second.process.wait(20) == 2, "a second one at the socket")

    def get() -> bytes:
        with socket.socket(socket.AF_UNIX) as connection:
            connection.settimeout(5)
            connection.connect(str(path))
            try:
                connection.sendall(request(page))
                return connection.recv(100)
            except (ConnectionResetError, BrokenPipeError):
                return b""

    score.check(as_user(ANN, get).startswith(b"HTTP/1.1 200"), "the user herself")
    score.check(as_user(BOB, get) == b"", "another one can't reach the socket")
    run.chmod(0o755)
    path.chmod(0o777)
    for user in (BOB, ROOT):
        told = as_user(user, get)
        score.check(told == b"", f"user {user.number} where folder and socket are open: {told!r}")
    run.chmod(0o700)
    score.check(page.end() == 0 and not path.exists(), "the socket goes with the server")
    for one in (second,):
        assert one.process.stdout is not None
        one.process.stdout.close()


# ---- what stands where the first wall fails


@contextmanager
def here(served: Served) -> Iterator[tuple[server.PortServer, Page]]:
    """A server in this process."""
    answers = Answers(served.sockets / "ask")
    site = server.Site(Keys(), {"/ask": answers.ask, "/file": answers.file}, {"query": ""})
    serving = server.PortServer(site)
    site.host = serving.place()
    thread = threading.Thread(target=serving.serve_forever, args=(0.05,))
    thread.start()
    try:
        yield serving, Page(mock.Mock(), f"http://{site.host}/#{site.keys.ticket}")
    finally:
        serving.shutdown()
        thread.join()
        serving.server_close()
        answers.close()


def walls(served: Served, score: Score) -> None:
    """The token is asked for also where the list of connections would let another user in."""
    with here(served) as (serving, page):
        score.check(status(page, request(page), BOB) == 0, "another user at the first wall")
        with mock.patch.object(serving, "owner", lambda _: os.geteuid()):
            score.check(status(page, request(page), BOB) == 200, "the first wall is taken away")
            body = b'{"query": "budget", "number": 9}'
            for more in ((), (("Wumpus-Token", "x" * 43),)):
                told = status(page, request(page, "POST", "/ask", body, more=more), BOB)
                score.check(told == 403, f"{more}: {told}")
    with mock.patch.object(guard, "CONNECTIONS", "/nonexistent"), here(served) as (_, page):
        score.check(status(page, request(page), ROOT) == 0, "without a list nobody is let in")
    with socket.socket() as listening:
        listening.bind(("127.9.8.7", 0))
        listening.listen()
        for user, is_left, due in ((ANN, False, ANN.number), (BOB, True, None)):
            came = Page(mock.Mock(), "http://{}:{}/".format(*listening.getsockname()))
            owner = _owner(listening, came, user, is_left)
            score.check(owner == due, f"the owner of a socket of {user}: {owner}")
    keys = Keys()
    score.check(keys.token_for("x") is None and not keys.fits(keys.ticket), "other keys")
    tokens = [keys.token_for(keys.ticket), keys.token_for(keys.ticket)]
    score.check(tokens == [keys.token, None], "a ticket is good once")
    once = hmac.digest(keys.token.encode(), b"wumpus-web is here: once", "sha256").hex()
    score.check(keys.proof_for("once") == once, "the proof of the server")
    score.check(keys.proof_for("x") != Keys().proof_for("x"), "another server's proof")
    score.check(len({Keys().token for _ in range(9)}) == 9, "tokens differ")


def _owner(listening: socket.socket, came: Page, user: User, is_left: bool) -> int | None:
    """Who is at the other end, where that stands or was left by its process."""
    child = os.fork()
    if child == 0:
        try:
            become(user)
            with connected(came) as connection:
                connection.sendall(b"GET / HTTP/1.1\r\n\r\n")
                time.sleep(0.0 if is_left else 1.0)
        finally:
            os._exit(0)
    connection, _ = listening.accept()
    if is_left:
        os.waitpid(child, 0)
        time.sleep(0.1)
    owner = guard.owner_of_peer(connection)
    connection.close()
    if not is_left:
        os.waitpid(child, 0)
    return owner


def ends(served: Served, score: Score) -> None:
    """It ends where nothing was asked for long, goes on after the service ended the connection."""
    answers = Answers(served.sockets / "ask")
    serving = server.PortServer(server.Site(Keys(), {}, {}))
    with mock.patch.object(command, "IDLE", 0.3), mock.patch.object(command, "WAKE", 0.05):
        began = time.monotonic()
        command.serve(serving, answers)
        spent = time.monotonic() - began
    serving.server_close()
    score.check(0.2 < spent < 5, f"it ended after {spent:.1f} s")
    question = {"query": "budget", "number": 9}
    found = answers.ask(question)["total"]
    score.check(found > 1, "user 0 is told of others' files")
    assert answers.asking is not None
    answers.asking.socket.shutdown(socket.SHUT_RDWR)
    score.check(answers.ask(question)["total"] == found, "on a new connection")
    told: list[dict[str, object]] = []
    with answers.turn:
        waiting = [
            threading.Thread(target=lambda: told.append(answers.ask(question))) for _ in range(3)
        ]
        for one in waiting:
            one.start()
            time.sleep(0.05)
    for one in waiting:
        one.join()
    old = sum("superseded" in one for one in told)
    score.check(old == 2, f"{old} of three questions were given up for the newest")
    try:
        answers.file({"file": 99})
        score.check(False, "a file that was no result")
    except Refusal as refusal:
        score.check(refusal.status == 404, f"{refusal}")
    answers.close()
    _groups(score)
    for typed, due in (
        ("a b", "a b ext:md"), ("a OR b", "(a OR b) ext:md"), ("(a OR b) in:/x", None),
        ("in:/a OR in:/b", "(in:/a OR in:/b) ext:md"), ("-a", "-a ext:md"),
    ):  # fmt: skip
        narrowed = narrowed_by(b"ext:md", language.read(typed.encode())).decode()
        score.check(narrowed == (due or f"{typed} ext:md"), f"{typed}: {narrowed}")
        score.check(language.read(narrowed.encode()).paths is not None, f"{narrowed} is read")


GROUPS: tuple[tuple[tuple[str, ...], str, dict[str, int]], ...] = (
    (("/a/b/1", "/a/b/2", "/a/b/3"), "/a/b/", {}),
    (("/a/b/1", "/a/c/2", "/a/c/d/3", "/a/4"), "/a/", {"b": 1, "c": 2}),
    (("/home/ann/1", "/home/ann/x/2", "/srv/team/3"), "/", {"home/ann": 2, "srv/team": 1}),
    ((), "", {}),
    (("/1", "/2"), "/", {}),
    (tuple(f"/a/{number}/x/1" for number in range(13)), "/a/", {str(number): 1 for number in
     (0, 1, 10, 11, 12, 2, 3, 4, 5, 6, 7, 8)}),
    (tuple(f"/a/x/{number}/1" for number in range(13)) + ("/a/y/2/3",), "/a/", {"x": 13, "y": 1}),
)  # fmt: skip


def _groups(score: Score) -> None:
    question = language.read(b"a")
    for paths, within, due in GROUPS:
        told = directories_of([File(path.encode()) for path in paths], question)
        groups = {one["name"]: one["count"] for one in told["groups"]}
        score.check((told["within"], groups) == (within, due), f"{paths}: {told}")
    strange = [File(name.encode()) for name in ('/a/x"y/1', "/a/b c/2", "/a/\x1b/3", "/a/d/4")]
    told = directories_of(strange, question)
    queries = [one.get("query") for one in told["groups"]]
    score.check(queries == [None, 'a in:"/a/b c"', "a in:/a/d", None], f"{queries}")
    kinds = kinds_of([File(name) for name in (b"/a.x/b", b"/c.MD", b"/.md", b"/d.t\n")], question)
    score.check([(one["name"], one["count"]) for one in kinds] == [("md", 2)], f"{kinds}")


# ---- in a browser


EVIL_PAGE = """<!DOCTYPE html><meta charset=utf-8><title>evil</title><iframe id=frame></iframe>
<form id=form method=post enctype=text/plain target=there><input name='{"ticket":"x","y":"'
value='"}'></form><iframe name=there></iframe>"""


class Evil(BaseHTTPRequestHandler):
    """Another user's server, to which the browser was led."""

    def do_GET(self) -> None:
        """Its page."""
        self.send_response(200)
        self.send_header("Content-Type", "text/html")
        self.end_headers()
        self.wfile.write(EVIL_PAGE.encode())

    def log_message(self, format: str, *args: object) -> None:
        """Nothing is logged."""


ATTACKS = (
    "fetch('http://HOST/')", "fetch('http://HOST/page.js', {mode: 'no-cors'})",
    "fetch('http://HOST/ask', {method: 'POST', body: '{}'})",
    "fetch('http://HOST/ask', {method: 'POST', mode: 'no-cors', body: '{}'})",
    "fetch('http://HOST/ask', {method: 'POST', headers: {'Wumpus-Token': 'x', "
    "'Content-Type': 'application/json'}, body: '{}'})",
    "fetch('http://HOST/enter', {method: 'POST', headers: {'Content-Type': 'application/json'}, "
    "body: '{}'})",
    "import('http://HOST/page.js')",
)  # fmt: skip


def attack_in_browser(seen: Browser, page: Page, score: Score) -> None:
    """A page of another user's server gets nothing of this one."""
    evil = ThreadingHTTPServer(("127.0.0.1", 0), Evil)
    threading.Thread(target=evil.serve_forever, daemon=True).start()
    seen.visit(f"http://127.0.0.1:{evil.server_address[1]}/")
    score.check(seen.wait("document.title == 'evil'"), "the other page")
    for deed in ATTACKS:
        script = deed.replace("HOST", page.host)
        told = seen.value(f"{script}.then(r => r.status === 0 ? 'unread' : 'read', () => 'none')")
        score.check(told in ("none", "unread"), f"{script}: {told}")
    seen.complaints.clear()
    seen.value(f"document.getElementById('frame').src = 'http://{page.host}/'")
    wait_for(lambda: any("frame-ancestors" in one for one in _noted(seen)), 5)
    told = any("frame-ancestors" in one for one in seen.complaints)
    is_refused = any("403" in one for one in seen.complaints)
    score.check(told or is_refused, f"in a frame: {seen.complaints}")
    evil.shutdown()
    evil.server_close()
    seen.complaints.clear()


def _noted(seen: Browser) -> list[str]:
    seen.value("1")
    return seen.complaints


def use(served: Served, score: Score) -> None:
    """The page is used by the keyboard alone."""
    page = start(served, ANN, "budget")
    home = served.folder / "home"
    home.mkdir()
    os.chown(home, ANN.number, ANN.number)
    seen = Browser(ANN, home)
    try:
        seen.visit(page.link)
        _results(seen, page, score)
        _keys(seen, score)
        _faults(seen, score)
        score.check(seen.complaints == [], f"the browser complains: {seen.complaints}")
        attack_in_browser(seen, page, score)
        _afterwards(seen, page, score)
        left_open(served, seen, score)
    finally:
        seen.close()
        page.end()


FILES = "[...document.querySelectorAll('#files > li')]"
STATUS = "document.getElementById('status').textContent"
FAULT = "document.getElementById('fault').textContent"
QUERY = "document.getElementById('query')"
IS_OPEN = "!document.getElementById('file').hidden"


def _results(seen: Browser, page: Page, score: Score) -> None:
    score.check(seen.wait(f"{FILES}.length == 1"), "the query of the command line")
    score.check(seen.value(f"{QUERY}.value") == "budget", "it stands in the field")
    score.check(seen.value("location.href") == f"http://{page.host}/", "no ticket is left")
    score.check(seen.value("document.cookie") == "", "no cookie")
    keys = seen.value("Object.keys(sessionStorage).join() + Object.keys(localStorage).length")
    score.check(keys == "token0", f"what is kept: {keys}")
    seen.value(f"{QUERY}.select()")
    seen.type("strange")
    score.check(seen.wait(f"{FILES}[0]?.textContent.includes('strange')"), "as she types")
    text = seen.value(f"{FILES}[0].textContent")
    score.check("<img src=x" in text and "<script>alert" in text, f"hostile text: {text!r}")
    score.check("\u202e" not in text and "\x1b" not in text, f"format characters: {text!r}")
    score.check(seen.value("document.images.length") == 0, "no element comes of text")


def _keys(seen: Browser, score: Score) -> None:
    seen.value(f"{QUERY}.select()")
    seen.type("long list")
    score.check(seen.wait(f"{FILES}.length == {SEEN}"), "a list of files")
    chosen = f"{FILES}.findIndex(one => one.getAttribute('aria-selected') == 'true')"
    for key, due in (("ArrowDown", 1), ("ArrowDown", 2), ("ArrowUp", 1)):
        seen.press(key)
        score.check(seen.value(chosen) == due, f"{key}: {seen.value(chosen)}")
    active = f"{QUERY}.getAttribute('aria-activedescendant')"
    score.check(seen.value(active) == "file-1", "a reader is told of the chosen one")
    seen.press("Enter")
    score.check(seen.wait(IS_OPEN), "Enter opens")
    score.check(seen.value("document.activeElement.id") == "file", "and goes to the file")
    marks = "document.querySelectorAll('#lines mark').length"
    here = "[...document.querySelectorAll('#lines mark')].findIndex(m => m.className == 'here')"
    score.check(seen.value(marks) == 18, f"all matches: {seen.value(marks)}")
    for key, due in (("n", 1), ("n", 2), ("N", 1), ("N", 0), ("N", 17)):
        seen.press(key)
        score.check(seen.value(here) == due, f"{key}: {seen.value(here)}")
    title = "document.getElementById('path').textContent"
    before = seen.value(title)
    seen.press("j")
    score.check(seen.wait(f"{title} != {json.dumps(before)}"), "j shows the next file")
    seen.press("?")
    score.check(seen.value("document.getElementById('help').open"), "? shows the keys")
    seen.press("Escape")
    score.check(not seen.value("document.getElementById('help').open"), "Esc ends that")
    seen.press("Escape")
    score.check(not seen.value(IS_OPEN), "Esc closes the file")
    score.check(seen.value("document.activeElement.id") == "query", "and goes to the query")
    filters = "[...document.querySelectorAll('#directories button')]"
    seen.value(f"{filters}[0].click()")
    score.check(seen.wait(f"{FILES}.length == 10"), "a directory narrows down")
    score.check("in:" in seen.value(f"{QUERY}.value"), "by the query, to be edited")


def _faults(seen: Browser, score: Score) -> None:
    seen.value(f"{QUERY}.select()")
    seen.type("budget subject:x")
    score.check(seen.wait(f"{FAULT}.includes('there is no subject:')"), "a fault is told")
    score.check(seen.value(f"{FILES}.length") > 0, "and leaves the results")
    seen.value(f"{QUERY}.select()")
    seen.type("budg")
    score.check(seen.wait(f"{STATUS}.includes('budg* was looked for')"), "a word begun")
    score.check(seen.value(FAULT) == "", "the fault is gone")
    roles = seen.value("[...document.querySelectorAll('[role]')].map(e => e.role).join(' ')")
    score.check("search status alert listbox" in roles, f"roles: {roles}")
    unnamed = (
        "[...document.querySelectorAll('button, input')].filter(e => !e.textContent.trim() "
        "&& !(e.labels && e.labels.length)).length"
    )
    score.check(seen.value(unnamed) == 0, "each control has a name")
    for width, is_seen in ((1300, True), (700, False)):
        seen.size(width, 600)
        shown = seen.value("getComputedStyle(document.getElementById('narrow')).display")
        score.check((shown != "none") == is_seen, f"at {width}: {shown}")
        wide = seen.value("document.documentElement.scrollWidth")
        score.check(wide <= width, f"at {width} the page is {wide} wide")


def _afterwards(seen: Browser, page: Page, score: Score) -> None:
    seen.visit(f"http://{page.host}/")
    score.check(seen.wait(f"!{QUERY}.disabled"), "the tab keeps its token")
    seen.value("sessionStorage.clear()")
    seen.visit("about:blank")
    seen.visit(page.link)
    score.check(seen.wait(f"{FAULT}.includes('was used')"), "the link isn't good twice")
    seen.complaints.clear()
    page.process.send_signal(signal.SIGTERM)
    page.process.wait(20)
    seen.value(f"state.token = 'x'; {QUERY}.value = 'x'; ask(false)")
    score.check(seen.wait(f"{FAULT}.includes('The server is gone')"), "the server is gone")


def left_open(served: Served, seen: Browser, score: Score) -> None:
    """A page that is left open tells nothing to who takes the port when its server has ended."""
    # An ended server's port is held by the system for a minute, but for one that lets it go.
    script = (
        "import sys; sys.path.insert(0, sys.argv.pop(1)); from wumpus.web import command, server; "
        "server.PortServer.allow_reuse_address = True; command.main()"
    )
    page = start(served, ANN, command=("/usr/bin/python3", "-c", script, str(SERVICE)))
    seen.visit(page.link)
    seen.wait(f"{QUERY} && !{QUERY}.disabled")
    seen.value(f"{QUERY}.value = 'budget'; ask(false)")
    score.check(seen.wait(f"{FILES}.length == 1"), "a page of a server that lets its port go")
    token = seen.value("state.token")
    page.end()
    heard: list[bytes] = []
    with taken(page, heard):
        seen.value(f"state.provedAt = -PROVED; {QUERY}.value = 'my secret'; ask(false)")
        score.check(seen.wait(f"{FAULT}.includes('Another server')"), "another is told of")
    told = b"".join(heard)
    is_silent = b"/here" in told and b"secret" not in told and token.encode() not in told
    score.check(is_silent, f"what who took the port is told: {told!r}")


@contextmanager
def taken(page: Page, heard: list[bytes]) -> Iterator[None]:
    """Another user's server at the port that was the page's."""

    class Taker(BaseHTTPRequestHandler):
        def do_POST(self) -> None:
            length = int(self.headers["Content-Length"])
            heard.append(f"{self.path} {self.headers}".encode() + self.rfile.read(length))
            body = b'{"proof": "%b", "total": 0, "files": [], "notes": []}' % (b"0" * 64)
            self.send_response(200)
            self.send_header("Content-Length", str(len(body)))
            self.end_headers()
            self.wfile.write(body)

        def log_message(self, format: str, *args: object) -> None:
            pass

    other = ThreadingHTTPServer(page.place, Taker)
    thread = threading.Thread(target=other.serve_forever, args=(0.05,))
    thread.start()
    try:
        yield
    finally:
        other.shutdown()
        thread.join()
        other.server_close()


def main() -> int:
    """Runs the test."""
    given = options(__doc__ or "").parse_args()
    needs_root("web")
    needs_program("web", given.program)
    score = Score("web")
    with folder_of_own() as name:
        served = Served(Path(name), given.program)
        fill(served.tree)
        served.start("--idle-seconds", "60")
        try:
            score.check(mirror_until_done(served), "a turn")
            page = start(served, ANN, "budget")
            token = others(page, score)
            files(page, token, score)
            requests(page, token, score)
            replies(page, token, score)
            ports(page, score)
            crowds(page, token, score)
            leaks(served, page, token, score)
            score.check(page.end() == 0, "a signal ends it")
            part: Callable[[Served, Score], None]
            for part in (sockets, walls, ends):
                part(served, score)
            if browser.is_there():
                use(served, score)
            else:
                print("web: the page in a browser: skipped, there is no chromium")
        finally:
            served.end(signal.SIGTERM)
    return score.end()


if __name__ == "__main__":
    sys.exit(main())
