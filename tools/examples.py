"""Checks the examples of documents, by rows of tests, stored replies, and the program."""

from __future__ import annotations

import re
import subprocess
import tempfile
from pathlib import Path

from definitions import CRATES, TOP, text_of
from documents import Report, where

README = TOP / "README.md"
TUTORIAL = TOP / "docs" / "TUTORIAL.md"
EXAMPLES = TOP / "examples"
PROGRAM = CRATES / "wumpus" / "out" / "wumpus"
COMMANDS = "count|find|rank|chmod|mkdir|create|text|paths"


def with_tabs(text: str) -> str:
    """A line as the program has it: pages have three spaces for a TAB."""
    return text.replace("   ", "\t")


def rows_of_session() -> list[list[str]]:
    """The rows of the tests of `run`: a script and its replies, with `~` for TAB in each."""
    rows = (CRATES / "wumpus_run_tests" / "stdin").read_text(encoding="utf-8")
    return [line.replace("\\\\", "\\").split("\t") for line in rows.splitlines()]


def check_examples(report: Report) -> None:
    """Each line of a script in README with its reply is a row of the tests of `run`."""
    rows = [row for row in rows_of_session() if len(row) > 1]
    for number, line in enumerate(text_of(README).splitlines(), 1):
        found = re.match(rf" {{4}}((?:{COMMANDS})   .*?\S) {{4,}}(\w.*)", line)
        if not found:
            continue
        command = re.sub(r" {3}", "~", found.group(1))
        reply = re.sub(r" {3}", "~", re.split(r" {6,}", found.group(2))[0].strip())
        known = any(row[0].startswith(command) and row[1].startswith(reply) for row in rows)
        report.check(known, f"{where(README, number)}: no row has {command} and {reply}")


def replies_to(script: str) -> tuple[int, str]:
    """How a session of the built program ends, and what it writes."""
    with tempfile.TemporaryDirectory() as folder:
        run = subprocess.run(
            [PROGRAM, "run"], input=script, cwd=folder, capture_output=True, text=True, check=False
        )
    return run.returncode, run.stdout


def check_pasted(report: Report) -> None:
    """Where the program is built, the lines to paste of README get the replies that stand there."""
    text = text_of(README)
    pasted = re.search(r"printf '(.*)' \|", text)
    report.check(pasted is not None, "README.md has no line to paste")
    if not pasted or not PROGRAM.exists():
        return
    shown = re.findall(r"^ {4}count .*? {4,}(count {3}\d+ {3}\d+)", text, re.MULTILINE)
    answered = []
    first = pasted.group(1).replace("\\t", "\t").replace("\\n", "\n")
    for script in (first, text_of(EXAMPLES / "home.script")):
        status, output = replies_to(script)
        report.check(status == 0, f"README.md: a line to paste ends with status {status}")
        answered += [line for line in output.splitlines() if line.startswith("count\t")]
    agree = answered[: len(shown)] == [with_tabs(reply) for reply in shown]
    report.check(agree, f"README.md: the program answers {answered[: len(shown)]}")


def blocks(text: str, language: str) -> str:
    """The code blocks of a page in one language, one behind the other."""
    return "".join(re.findall(rf"^```{language}\n(.*?)^```$", text, re.MULTILINE | re.DOTALL))


def without_comments(script: str) -> str:
    """A script without its comments and empty lines, which get no reply."""
    lines = script.splitlines(keepends=True)
    return "".join(line for line in lines if line.strip() and not line.startswith("#"))


def check_tutorial(report: Report) -> None:
    """The tutorial's lines and replies are those of its example, which the program is tried by."""
    text = text_of(TUTORIAL)
    for language, path in (("script", "tutorial.script"), ("replies", "tutorial.replies")):
        same = with_tabs(blocks(text, language)) == without_comments(text_of(EXAMPLES / path))
        report.check(same, f"{where(TUTORIAL)}: its {language} isn't examples/{path}")
    if PROGRAM.exists():
        status, output = replies_to(text_of(EXAMPLES / "tutorial.script"))
        same = output == Path(EXAMPLES / "tutorial.replies").read_text(encoding="utf-8")
        report.check(status == 0 and same, f"{where(TUTORIAL)}: the program answers otherwise")
