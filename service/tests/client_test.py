"""The clients: `wumpus-ask` over a service, and `wumpus-lint` over scripts and their replies."""

import json
import os
import pty
import shlex
import shutil
import signal
import socket
import subprocess
import sys
import threading
import time
from collections.abc import Mapping
from contextlib import suppress
from dataclasses import dataclass
from pathlib import Path
from types import MappingProxyType
from unittest import mock

from harness import SERVICE, Score, folder_of_own, needs_program, options
from kernel import User, become
from service_test import Served, mirror_until_done

from wumpus.ask import asking  # isort: skip
from wumpus.ask.content import Lack, Reader  # isort: skip
from wumpus.shared.lines import Lines  # isort: skip

ESCAPE = "evil\x1b[31m\x07\u009b2J\u202e"
ANN, BOB = User(1000, (1000,)), User(1001, (1001,))
CALM = {"PAGER": "cat", "TERM": "xterm", "PATH": os.environ.get("PATH", "/usr/bin:/bin")}


@dataclass(frozen=True)
class Told:
    """How `wumpus-ask` ended, and what it wrote."""

    status: int
    out: str
    error: str

    def lines(self) -> list[str]:
        """The lines of its output."""
        return self.out.splitlines()


def words_of_client(served: Served, *words: str) -> list[str]:
    """The command that asks a service."""
    return [str(SERVICE / "wumpus-ask"), "--sockets", str(served.sockets), *words]


def ask(served: Served, *words: str, given: bytes = b"", at: Path | None = None) -> Told:
    """Runs `wumpus-ask` in a pipe."""
    command = words_of_client(served, *words)
    told = subprocess.run(command, capture_output=True, timeout=60, input=given, cwd=at)
    both = (told.stdout, told.stderr)
    return Told(told.returncode, *(one.decode("utf-8", "surrogateescape") for one in both))


def ask_at_terminal(
    served: Served,
    *words: str,
    user: User | None = None,
    variables: Mapping[str, str] = MappingProxyType({}),
) -> tuple[int, str]:
    """The status of `wumpus-ask` at a terminal, and what it writes there."""
    ours, theirs = pty.openpty()
    child = subprocess.Popen(
        words_of_client(served, *words),
        stdin=theirs,
        stdout=theirs,
        stderr=theirs,
        env={**CALM, **variables},
        preexec_fn=None if user is None else lambda: become(user),
    )
    os.close(theirs)
    told = b""
    while True:
        try:
            piece = os.read(ours, 65536)
        except OSError:
            break
        if not piece:
            break
        told += piece
    status = child.wait()
    os.close(ours)
    return status, told.decode("utf-8", "replace").replace("\r\n", "\n")


def fill(tree: Path) -> None:
    """Files to look for."""
    (tree / "plan").write_text("the budget\n\nlunch and Budget\nno\nlunch\nlunch\nlunch\n")
    (tree / "list").write_text("lunch\n")
    (tree / "notes").mkdir()
    (tree / "notes" / "a.md").write_text("see the\nplan\n\u201cbudget\u201d\u2014for planning\n")
    (tree / "notes" / "b c\nd").write_text("draft budget\n")
    (tree / ESCAPE).write_text(f"strange {ESCAPE} word\n")
    (tree / "h\u00e9").write_bytes(b"caf\xc3\xa9 \xff\n")
    (tree / "caf\u00e9 2").write_text("cafe\u0301\n")


def pipes(served: Served, score: Score) -> None:
    """What stands in a pipe, and the exit status."""
    top = served.tree
    plan, notes = f"{top}/plan", f"{top}/notes"
    rows: tuple[tuple[tuple[str, ...], int, list[str]], ...] = (
        (("budget", "lunch"), 0, [f"{plan}:1:the budget", f"{plan}:3:lunch and Budget",
                                  *(f"{plan}:{line}:lunch" for line in (5, 6, 7))]),
        (("the plan",), 0, [f"{notes}/a.md:1:see the", f"{notes}/a.md:2:plan"]),
        (("-L", "lunch", "budget"), 0, [f"{plan}:3:lunch and Budget"]),
        (("-L", "the plan"), 1, []),
        (("--vimgrep", "line:(lunch budget)"), 0, [f"{plan}:3:1:lunch and Budget"]),
        (("-m", "1", "budget", "-draft", "-planning"), 0, [f"{plan}:1:the budget"]),
        (("-l", "draft"), 0, [f"{notes}/b c", "d"]),
        (("-0", "draft"), 0, [f"{notes}/b c", "d\0"]),
        (("-C1", "-L", "budget", "lunch"), 0, [f"{plan}-2-", f"{plan}:3:lunch and Budget",
                                               f"{plan}-4-no"]),
        (("-A", "1", "line:(the budget)"), 0, [f"{plan}:1:the budget", f"{plan}-2-"]),
        (("-c", "lunch"), 0, ["2 files"]),
        (("-c", "draft"), 0, ["1 file"]),
        (("-c", "-L", "lunch"), 0, ["5 lines in 2 files"]),
        (("-c", "nothing"), 1, ["0 files"]),
        (("nothing",), 1, []),
        (("plan*", "-l", f"in:{top}/notes"), 0, [f"{notes}/a.md"]),
        (("ext:md",), 0, [f"{notes}/a.md"]),
        (("-budget", "-lunch", "-strange"), 0, [f"{top}/caf\u00e9 2", f"{top}/h\u00e9"]),
        (("-l", "caf\u00e9"), 0, [f"{top}/caf\u00e9 2", f"{top}/h\u00e9"]),
        (("--any", "-l", "draft", "see"), 0, [f"{notes}/b c", "d", f"{notes}/a.md"]),
        (("--exact-words", "-c", "budget"), 0, ["2 files"]),
        (("-c", "budget"), 0, ["3 files"]),
        (("-L", "-l", "lunch", "budget"), 0, [plan]),
        (("-n", "2", "-L", "lunch"), 0, [f"{top}/list:1:lunch", f"{plan}:3:lunch and Budget"]),
        (("-m", "1", "-L", "lunch"), 0, [f"{top}/list:1:lunch", f"{plan}:3:lunch and Budget"]),
        (("-e", 'line > ("lunch" ^ "budget")'), 0, [f"{plan}:3: lunch and Budget"]),
        (("-l", "-e", '"lunch"'), 0, [f"{top}/list", plan]),
        (("-c", "-e", '"lunch"'), 0, ["5 matches in 2 files"]),
        (("-c", "-e", '"nothing"'), 1, ["0 matches in 0 files"]),
        (("--complete", "-plan"), 0, ["-plan", "-planning"]),
        (("--complete", "pl"), 1, []),
    )  # fmt: skip
    for words, status, lines in rows:
        told = ask(served, *words)
        is_due = (told.status, told.lines()) == (status, lines) and not told.error
        score.check(is_due, f"{words}: {told}")
    told = ask(served, "-f", "-", given=b"budget\nlunch\n")
    score.check(told.lines()[:1] == [f"{plan}:1:the budget"], f"-f -: {told}")
    told = ask(served, "-l", "planning", "in:.", at=top / "notes")
    score.check(told.lines() == [f"{notes}/a.md"], f"in:. in a directory: {told}")
    told = ask(served, "--explain", "-c", "budget", "-draft")
    score.check('file > "budget" + ' in told.error and '/> "draft"' in told.error, f"{told}")


def values(served: Served, score: Score) -> None:
    """JSON, a value a line."""
    top = served.tree
    rows = [json.loads(line) for line in ask(served, "--json", "budget", "lunch").lines()]
    first = {"line": 1, "text": "the budget", "spans": [[4, 10]]}
    is_due = len(rows) == 1 and rows[0]["path"] == f"{top}/plan" and rows[0]["score"] > 0
    score.check(is_due and rows[0]["lines"][0] == first, f"--json: {rows}")
    row = json.loads(ask(served, "--json", "name:h?").out)
    score.check(row == {"path": f"{top}/h\u00e9", "lines": []}, f"--json without words: {row}")
    row = json.loads(ask(served, "--json", "-n1", "-L", "caf\u00e9", "name:h?").out)
    score.check("text_base64" in row["lines"][0], f"--json -L: {row}")
    row = json.loads(ask(served, "--json", "-e", '"caf\u00e9"').out)
    score.check(row["path"] == f"{top}/h\u00e9" and "text_base64" in row, f"--json -e: {row}")
    row = json.loads(ask(served, "--json", "-c", "lunch").out)
    score.check(row == {"files": 2, "exact": True}, f"--json -c: {row}")


def terminals(served: Served, score: Score) -> None:
    """Heads and the best lines; control and format characters are escapes."""
    top = served.tree
    for words in (("strange",), ("-e", '"strange"'), ("-l", "strange"), ("-L", "strange")):
        _, told = ask_at_terminal(served, "--no-color", *words)
        bad = [one for one in told if not one.isprintable() and one != "\n"]
        is_escaped = "\\x1b[31m\\x07\\x9b2J\\u202e" in told
        score.check(not bad and is_escaped, f"{words} at a terminal: {told!r}")
    score.check(ESCAPE in ask(served, "-l", "strange").out, "elsewhere the name as it is")
    _, told = ask_at_terminal(served, "budget", "lunch")
    head = f"\x1b[35m{top}/plan\x1b[0m\n  1: the \x1b[1;31mbudget\x1b[0m\n  3: "
    score.check(told.startswith(head), f"highlighting: {told!r}")
    score.check("  5: " in told and "  6: " not in told, f"three lines of a file: {told!r}")
    for variables in ({"NO_COLOR": "1"}, {"TERM": "dumb"}):
        _, told = ask_at_terminal(served, "budget", variables=variables)
        score.check("\x1b" not in told, f"{variables}: {told!r}")
    _, told = ask_at_terminal(served, "--hyperlink=always", "-l", "the plan")
    score.check("\x1b]8;;file://" in told, f"links: {told!r}")
    _, told = ask_at_terminal(served, "-n1", "budget")
    score.check("2 more files: -n shows more" in told, f"more: {told!r}")
    mark = "\x1b[1;31m"
    told = ask(served, "--color=always", "lunch", "-budget").out
    score.check(mark in told, f"--color=always in a pipe: {told!r}")
    status, told = ask_at_terminal(served, "lunch subject:x")
    score.check(status == 2 and told.endswith("lunch subject:x\n        ^^^^^^^^^\n"), f"{told!r}")
    pager = {"PAGER": "sed -e s/^/paged:/"}
    pagers = {"WUMPUS_PAGER": pager["PAGER"], "PAGER": "false"}
    _, told = ask_at_terminal(served, "-n1", "budget", variables=pagers)
    score.check(told.startswith("paged:"), f"the pager: {told!r}")
    _, told = ask_at_terminal(served, "--no-pager", "-n1", "budget", variables=pager)
    score.check("paged:" not in told, f"no pager: {told!r}")
    for words in (("-c", "budget"), ("--json", "budget")):
        _, told = ask_at_terminal(served, *words, variables=pager)
        score.check("paged:" not in told, f"{words} in a pager: {told!r}")
    status, told = ask_at_terminal(served, "budget", variables={"PAGER": "head -n1"})
    score.check(status == 0, f"a pager that ends: {status} {told!r}")
    editor = {"EDITOR": "echo opened"}
    _, told = ask_at_terminal(served, "-o1", "line:(lunch budget)", variables=editor)
    score.check(told == f"opened +3 -- {top}/plan\n", f"-o: {told!r}")
    status, told = ask_at_terminal(served, "-o", "9", "budget")
    score.check(status == 2 and "there are 3 results" in told, f"-o 9: {told!r}")


WHY = (
    (("lnuch",), "No file has lnuch. Did you mean lunch?"),
    (("budgte", "plan"), "No file has budgte. Did you mean budget?"),
    (("draft", "lunch"), "No file has all of it: draft is in 1, lunch is in 2 files."),
    (("lunch", "draft", "the"), "draft is in 1, the is in 2 files."),
    (("lunch draft",), 'No file has "lunch draft": lunch is in 2, draft is in 1 file.'),
    (("lunch", "-lunch"), "lunch is in 2 files, but none of these passes."),
    (("lunch", "ext:md"), "lunch is in 2 files, but none of these passes."),
    (("ext:nothing",), "No file of yours passes."),
    (("-file", "-budget", "-lunch", "-caf\u00e9", "-strange"), "Each file of yours is excluded."),
    (("nothing*",), "No file has nothing*."),
)


def reasons(served: Served, score: Score) -> None:
    """Why nothing was found is said at a terminal, and changes no status."""
    for words, due in WHY:
        status, told = ask_at_terminal(served, *words)
        score.check(status == 1 and due in told, f"{words}: {status} {told!r}")
    silent = ask(served, "lnuch")
    score.check(silent == Told(1, "", ""), f"in a pipe nothing is said: {silent}")
    away = ask(served, "-c", "lunch", "in:/nonexistent")
    score.check("there is no directory /nonexistent" in away.error, f"in: of nothing: {away}")


def changed(served: Served, score: Score) -> None:
    """Lines are those of the file as it is; what doesn't match any more is told."""
    plan = served.tree / "plan"
    text = plan.read_text()
    plan.write_text("nothing\n" + text)
    told = ask(served, "line:(lunch budget)")
    score.check(told.lines() == [f"{plan}:4:lunch and Budget"], f"a line more: {told}")
    told = ask(served, "-L", "lunch", "budget")
    score.check(told.lines() == [f"{plan}:3:lunch and Budget"], f"-L keeps what was: {told}")
    plan.write_text("nothing\n")
    told = ask(served, "line:(lunch budget)")
    is_told = told.status == 0 and not told.out and "changed since it was" in told.error
    score.check(is_told, f"no line left: {told}")
    _, shown = ask_at_terminal(served, "--no-color", "line:(lunch budget)")
    score.check(shown == f"{plan}  changed since it was indexed\n", f"no line left: {shown!r}")
    plan.unlink()
    os.mkfifo(plan)
    told = ask(served, "line:(lunch budget)")
    score.check(told.status == 0 and "changed" in told.error, f"a pipe in its place: {told}")
    plan.unlink()
    plan.symlink_to("/etc/passwd")
    told = ask(served, "line:(lunch budget)")
    score.check(told.status == 0 and "changed" in told.error, f"a link in its place: {told}")
    plan.unlink()
    plan.write_text(text)
    _changed_above(served, score)


def _changed_above(served: Served, score: Score) -> None:
    """A link in a directory's place isn't followed, and nobody is told that a pipe was opened."""
    tree = served.tree.resolve()
    below = tree / "above" / "below"
    below.mkdir(parents=True)
    (below / "key").write_text("lunch\n")
    reader = Reader()
    told = reader.lines_of(os.fsencode(below / "key"))
    score.check(isinstance(told, Lines) and told.lines == [b"lunch"], f"as it is: {told}")
    link = tree / "above" / "link"
    link.symlink_to(below)
    for path in (link / "key", link / ".." / "below" / "key"):
        told = reader.lines_of(os.fsencode(path))
        score.check(told is Lack.CHANGED, f"by a link on the way: {told}")
    pipe = below / "pipe"
    os.mkfifo(pipe)
    other = threading.Thread(target=_write_to, args=(pipe,), daemon=True)
    other.start()
    time.sleep(0.2)
    told = reader.lines_of(os.fsencode(pipe))
    other.join(0.3)
    score.check(told is Lack.CHANGED and other.is_alive(), f"a pipe was opened: {told}")
    os.close(os.open(pipe, os.O_RDONLY | os.O_NONBLOCK))
    other.join()
    shutil.rmtree(tree / "above")


def _write_to(pipe: Path) -> None:
    """Waits until somebody opens a pipe."""
    os.close(os.open(pipe, os.O_WRONLY))


def other_programs(served: Served, score: Score) -> None:
    """What others make of the output: `xargs -0`, `head`, `vim -q`."""
    ask_words = words_of_client(served)
    quoted = " ".join(ask_words)
    told = subprocess.run(
        f"{quoted} -0 draft | xargs -0 wc -l", shell=True, capture_output=True, text=True
    )
    is_read = told.stdout.startswith("1 ") and not told.stderr
    score.check(is_read, f"xargs -0: {told.stdout!r} {told.stderr!r}")
    closed = subprocess.Popen(
        [*ask_words, "--any", "lunch", "budget"], stdout=subprocess.PIPE, stderr=subprocess.PIPE
    )
    assert closed.stdout is not None and closed.stderr is not None
    closed.stdout.close()
    error = closed.stderr.read()
    closed.stderr.close()
    score.check(closed.wait() == 0 and not error, f"a closed pipe: {error!r}")
    if shutil.which("vim") is None:
        return
    places = ask(served, "--vimgrep", "line:(lunch budget)").out
    (served.folder / "places").write_text(places)
    told = subprocess.run(
        ["vim", "-Nu", "NONE", "-es", "-q", str(served.folder / "places"), "-c",
         "call writefile([expand('%:p') . ':' . line('.') . ':' . col('.')], '/dev/stdout')",
         "-c", "qa!"],
        capture_output=True, text=True, stdin=subprocess.DEVNULL,
    )  # fmt: skip
    score.check(told.stdout.strip() == f"{served.tree}/plan:3:1", f"vim -q: {told.stdout!r}")


MESSAGES = (
    (("subject:plan",), "there is no subject: here"),
    (("budget", "OR"), "something is missing at the end"),
    (("budg~",), "alike"),
    (("pl*",), "at least 3 letters"),
    (("!!",), "no letter or digit"),
    ((" OR ".join(f"w{number}" for number in range(65)),), "65 words of at most 64"),
    (("-c", " OR ".join(f"w{number}" for number in range(64)),), "64 operators of at most 63"),
    (("-e", '"app*"'), "no patterns"),
    (("-e", '"a" AND "b"'), "AND is no operator"),
    (("-e", '"a" NEAR "b"'), '("budget" ^ "lunch") /> [11]'),
    (("-e", "\u201ca\u201d"), "typographic"),
    (("-e", "budget"), 'write "budget"'),
    (("-e", '"a'), "quote is open"),
    (("-e", "'a'"), "double"),
    (("-e", '"a" & "b"'), "operators are"),
    (("-e", '"a" +'), "isn't an expression"),
    (("-e", "[0]"), "window"),
    ((), "give a query"),
    (("-n", "10001", "a"), "-n is"),
    (("-f", "/nonexistent"), "No such file"),
)


def messages(served: Served, score: Score) -> None:
    """What can't be asked gets a message that says what to write, and status 2."""
    for words, due in MESSAGES:
        told = ask(served, *words)
        is_due = told.status == 2 and not told.out and due in told.error
        score.check(is_due, f"{words}: {told}")
    command = [str(SERVICE / "wumpus-ask"), "--sockets", "/nonexistent", "a"]
    done = subprocess.run(command, capture_output=True, text=True)
    score.check(done.returncode == 2 and "wumpusd" in done.stderr, f"no service: {done.stderr}")


ASKED = (
    ("lnuch",), ("secret",), ("secrte",), ("budget", "secret"), ("bud*",), ("budget", "lunch"),
    ("-c", "lunch"), ("lunch", "-draft"), ("ext:md",), ("lunch", "in:/"), ("-L", "lunch"),
    ("--explain", "budget"), ("--complete", "bud"), ("--complete", "sec"), ("--json", "budget"),
    ('"budget secret"',), ("budgte*",), ("--any", "budget", "secret"), ("-lunch",),
)  # fmt: skip


def others(served: Served, score: Score) -> None:
    """Nothing that she is told changes by a byte where somebody else's private files change."""
    if os.geteuid() != 0:
        print("client: other users' files: skipped, it needs root to take on the ids of users")
        return
    told = []
    texts = ("secret budgets\nlunch\n", "budgte bud\u201d \u201cbudget lnuch draft\n" * 9)
    for text in texts:
        private = served.tree / "private"
        private.mkdir(mode=0o700, exist_ok=True)
        for number in range(len(text) % 7 + 1):
            (private / f"budget{number}.md").write_text(text)
        score.check(mirror_until_done(served), "a turn")
        told.append([ask_at_terminal(served, *words, user=ANN) for words in ASKED])
    for words, first, second in zip(ASKED, *told):
        score.check(first == second, f"{words}: {first} and then {second}")
    root = ask(served, "-c", "lnuch").out
    score.check(root != "0 files\n", f"user 0 is told of them: {root!r}")


SCRIPT = (
    ("mkdir\t2\t1\td\t0\t0\t755", None),
    ("create 3 2 f 0 0 644", "spaces stand where a TAB"),
    ("create\t3\t2\tf\t0\t0\t644\r", "CR LF"),
    ("create\t3\t2\tf\t0\t0\t64", "64 is no mode"),
    ("create\t3\t2\tf\t0\t0\t644", None),
    ("# a comment", ""),
    ("text\t3\t12\napple\n\napple", None),
    ("chmod\t/d/f\t644", "/d/f is a path"),
    ("chown\t3\t4294967296\t0", "past 32 bits"),
    ("chown\t03\t1\t0", "leading zeros"),
    ("save\r", "CR LF"),
    ("COUNT\t5\t\"a\"", "lower case: count"),
    ("fly", "no command fly"),
    ("count\t5\t\"apple\"\t\"b\"", "2 fields are due"),
    ("create\t4\t2\ta\\x\t0\t0\t644", "backslash"),
    ("find\t5\t10001\t\"apple\"", "over 10000"),
    ("find\t5\t10\t\"apple\"", None),
    ("count\t5\tapple", "words stand in quotes"),
    ("text\t3\t3\nabcd", "count its bytes"),
    ("mkdir\t2\t1\te\t0\t0\t755", "in use"),
    ("user\tann", "ann is no number"),
    ("create\t0\t1\tx\t0\t0\t644", "0 is no node"),
    ("paths\t5", None),
    ("chmod\t9\t644", "no node of that number"),
)  # fmt: skip


def lint(score: Score, program: str, folder: Path) -> None:
    """Each refused line of a script is told with its number and its reason in words."""
    script = "".join(line + "\n" for line, _ in SCRIPT).encode()
    (folder / "script").write_bytes(script)
    answers = subprocess.run([program, "run"], input=script, capture_output=True, cwd=folder)
    (folder / "replies").write_bytes(answers.stdout)
    command = [str(SERVICE / "wumpus-lint"), str(folder / "script"), str(folder / "replies")]
    told = subprocess.run(command, capture_output=True, text=True)
    due = []
    number = 1
    for line, reason in SCRIPT:
        if reason:
            due.append((number, reason))
        number += line.count("\n") + 1
    lines = told.stdout.splitlines()
    score.check(len(lines) == len(due) + 1, f"{len(lines)} lines of {len(due) + 1}: {told.stdout}")
    for line, (number, reason) in zip(lines, due):
        holds = line.startswith(f"line {number}: ") and reason in line
        score.check(holds, f"{line!r} is due to be of line {number}, with {reason!r}")
    score.check(told.returncode == 1, "the status where lines were refused")
    command[1] = command[2] = "/dev/null"
    score.check(subprocess.run(command, capture_output=True).returncode == 0, "an empty script")


def readme(served: Served, score: Score) -> None:
    """What README shows of two users is what they are shown, and the manual's examples run."""
    if os.geteuid() != 0:
        print("client: the example of README: skipped, it needs root to take on the ids of users")
        return
    top = served.tree / "machine"
    texts = {
        "home/ann/todo": (ANN, "call Carol\nask Bob about the budget\n"),
        "home/bob/diary": (BOB, "a surprise for Ann\nit isn't in the budget\n"),
        "srv/team/plan": (BOB, "The budget for March\n"),
    }
    for name, (owner, text) in texts.items():
        path = top / name
        path.parent.mkdir(parents=True)
        path.write_text(text)
        for one in (path, path.parent):
            os.chown(one, owner.number, owner.number)
        if name.startswith("home"):
            path.parent.chmod(0o700)
    score.check(mirror_until_done(served), "a turn")
    shown = (SERVICE.parent / "README.md").read_text().split("for both:\n\n")[1]
    block = [line[4:] for line in shown.split("\n\n|")[0].splitlines()]
    users = {"ann": ANN, "bob": BOB}
    told: list[str] = []
    for line in block:
        user, is_command, command = line.partition("$ wumpus-ask ")
        if is_command:
            words = ["--no-color", *shlex.split(command), f"in:{top}"]
            out = ask_at_terminal(served, *words, user=users[user])[1]
            told += [line, *out.replace(str(top), "").splitlines()]
    score.check(told == block, f"README shows {block}, and there is {told}")
    page = (SERVICE / "man" / "wumpus-ask.1").read_text()
    examples = [line[2:] for line in page.splitlines() if line.startswith("$ ")]
    score.check(len(examples) > 6, "the examples of the manual page")
    asks = shlex.join(words_of_client(served))
    for example in examples:
        if example.startswith("vim"):
            continue  # it wants a terminal
        script = example.replace("wumpus-ask", asks, 1)
        ran = subprocess.run(["bash", "-c", script], capture_output=True, text=True)
        is_good = ran.returncode in (0, 1, 123) and not ran.stderr
        score.check(is_good, f"{example}: {ran.returncode} {ran.stderr}")


def crowded(score: Score, folder: Path) -> None:
    """Where more connections wait than the service's backlog takes, the client waits too."""
    path, held = folder / "ask", list[socket.socket]()
    with socket.socket(socket.AF_UNIX, socket.SOCK_STREAM) as listener:
        listener.bind(str(path))
        listener.listen(1)
        with suppress(BlockingIOError):
            while len(held) < 10:
                held.append(socket.socket(socket.AF_UNIX, socket.SOCK_STREAM))
                held[-1].setblocking(False)
                held[-1].connect(str(path))
        with mock.patch.object(asking, "SECONDS", 0.2):
            try:
                asking.Asking(path)
                told = "a connection"
            except asking.Trouble as trouble:
                told = str(trouble)
        score.check("took no connection" in told, f"where none is taken for too long: {told}")
        words = [str(SERVICE / "wumpus-ask"), "--sockets", str(folder), "lunch"]
        client = subprocess.Popen(words, stderr=subprocess.PIPE, text=True)
        time.sleep(1.0)
        score.check(client.poll() is None, "it waits")
        for one in held:
            one.close()
        listener.settimeout(20)
        while client.poll() is None:
            with suppress(OSError), listener.accept()[0] as connection:
                connection.recv(1000)
                connection.sendall(b"refused\tstale\n" * 32)
        error = client.communicate(timeout=20)[1]
        score.check("for too long" in error, f"what it is answered then: {error}")


def main() -> int:
    """Runs the test."""
    given = options(__doc__ or "").parse_args()
    needs_program("client", given.program)
    score = Score("client")
    with folder_of_own() as name:
        served = Served(Path(name), given.program)
        fill(served.tree)
        served.start()
        try:
            told = ask(served, "lunch")
            score.check(told.status == 2 and "just begun" in told.error, f"before a turn: {told}")
            score.check(mirror_until_done(served), "a turn")
            for part in (
                pipes, values, terminals, reasons, changed, other_programs, messages, others,
                readme,
            ):  # fmt: skip
                part(served, score)
        finally:
            served.end(signal.SIGTERM)
        lint(score, given.program, Path(name))
        crowded(score, Path(name))
    return score.end()


if __name__ == "__main__":
    sys.exit(main())
