"""Checks of the texts of documents: links, lengths, citations, names of files, manual pages."""

from __future__ import annotations

import re
import shutil
import subprocess
from pathlib import Path

from definitions import TOP, text_of
from documents import CODE, LINK, Report, documents, lines_outside_code, where

# How long a page may be. Others have no bound.
LINES = {"README.md": 150, "docs/ARCHITECTURE.md": 220}
# Pages whose prose is no wider than this; tables are.
NARROW = ("README.md", "docs/ARCHITECTURE.md", "docs/AUDIT.md", "docs/FAQ.md", "docs/GATE.md",
          "docs/PROVED.md", "docs/TUTORIAL.md", "service/README.md")
PROSE_COLUMNS = 100
# What a document may not cite: the papers and requests that a project grew from.
CITED = re.compile(
    r"\b(?:[Ii]ssue|[Pp]aper|[Dd]ocument|[Rr]equest|[Rr]ow)s? #?\d+\b"
    r"|(?<![\w&])#\d+\b|\b[DTRWU]\d{1,2}\b"
)
OTHERS = {"grep.1", "pdftotext.1", "systemd.1"}


def anchor_of(heading: str) -> str:
    """The anchor of a heading, as it is made by the usual readers of Markdown."""
    plain = heading.lstrip("#").strip()
    if "](" in heading:
        plain = re.sub(r"[`*\[\]]|\([^)]*\)", "", plain)
    return re.sub(r"[^\w\- ]", "", plain.lower()).replace(" ", "-")


def anchors_of(path: Path) -> set[str]:
    """The anchors of all headings of a document."""
    lines = lines_outside_code(text_of(path))
    return {anchor_of(line) for _, line in lines if line.startswith("#")}


def check_link(report: Report, path: Path, number: int, target: str) -> None:
    """A link leads to a file, or to a heading, that is there."""
    name, _, anchor = target.partition("#")
    there = (path.parent / name).resolve() if name else path
    report.check(there.exists(), f"{where(path, number)}: {target} leads nowhere")
    if anchor and there.is_file() and there.suffix == ".md":
        found = anchor in anchors_of(there)
        report.check(found, f"{where(path, number)}: {target}: no such heading")


def check_links(report: Report) -> None:
    """Each link leads to a file, or to a heading, that is there."""
    for path in documents():
        for number, line in lines_outside_code(text_of(path)):
            for target in LINK.findall(line):
                if not re.match(r"[a-z]+:", target):
                    check_link(report, path, number, target)


def check_lengths(report: Report) -> None:
    """Some pages have few lines, and in some prose isn't too wide."""
    for name, most in LINES.items():
        count = len(text_of(TOP / name).splitlines())
        report.check(count <= most, f"{name} has {count} lines, more than {most}")
    for name in NARROW:
        if not (TOP / name).exists():
            continue
        for number, line in lines_outside_code(text_of(TOP / name)):
            narrow = line.startswith("|") or len(line) <= PROSE_COLUMNS or "](" in line
            report.check(narrow, f"{name}:{number} has {len(line)} columns")


def check_citations(report: Report) -> None:
    """No document cites what the repository's readers don't have."""
    for path in documents():
        cited = [
            f"{where(path, number)}: {found.group()}"
            for number, line in enumerate(text_of(path).splitlines(), 1)
            for found in CITED.finditer(line)
        ]
        report.check(not cited, "; ".join(cited))


def check_file_names(report: Report) -> None:
    """What is written in code and looks like a file of the repository is one."""
    pattern = re.compile(r"(?:crates|docs|tools|bench|examples|service)/[\w./-]+\w")
    for path in documents():
        for number, line in lines_outside_code(text_of(path)):
            for code in CODE.findall(line):
                if pattern.fullmatch(code) and "NAME" not in code and "/out/" not in code:
                    report.check((TOP / code).exists(), f"{where(path, number)}: no {code}")


def manual_pages() -> list[Path]:
    """The manual pages of all programs."""
    return [TOP / "docs" / "wumpus.1", *sorted((TOP / "service" / "man").glob("*.[1-8]"))]


def check_manual(report: Report) -> None:
    """No manual page has a complaint of mandoc, where that is installed, or refers to none."""
    known = {path.name for path in manual_pages()} | OTHERS
    for path in manual_pages():
        for name, section in re.findall(r"(?m)^\.Xr (\S+) (\d)", text_of(path)):
            found = f"{name}.{section}" in known
            report.check(found, f"{where(path)}: there is no page {name}({section})")
        if shutil.which("mandoc"):
            command = ["mandoc", "-Tlint", str(path)]
            lint = subprocess.run(command, capture_output=True, text=True, check=False)
            # It looks for pages among those that are installed; and a page tells Wumpus and its
            # version in the place of a system.
            passed = ("manual not found", "operating system explicitly specified")
            lines = lint.stdout.splitlines()
            told = [line for line in lines if not any(it in line for it in passed)]
            report.check(not told, f"{where(path)}: {told}")
