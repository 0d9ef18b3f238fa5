"""The parts of documents that are made from other files."""

from __future__ import annotations

import re
import textwrap
from pathlib import Path

import wrong_bodies
from claims import guarantees, trusted, united
from clauses import Closure
from crates import by_level, direct
from definitions import CRATES, TOP, text_of
from documents import Report, where

BEGIN = "<!-- made by tools/docs --write from {source}: begin -->"
END = "<!-- end -->"
ARCHITECTURE = TOP / "docs" / "ARCHITECTURE.md"
AUDIT = TOP / "docs" / "AUDIT.md"


def purpose_of(crate: str) -> str:
    """The first sentence of a crate's page."""
    paragraph = text_of(CRATES / crate / "README.md").split("\n\n")[1].replace("\n", " ")
    first = re.split(r"(?<=\.)\s", paragraph)[0].rstrip(".")
    return re.sub(r"\[([^\]]*)\]\([^)]*\)", r"\1", first)


def crates_by_level() -> str:
    """A table of the crates, the highest level first, each with those on which it stands."""
    out = "| | Crate | What it has | Stands on |\n|---|---|---|---|\n"
    for number, names in by_level():
        for place, name in enumerate(names):
            level = str(number) if place == 0 else ""
            needs = ", ".join(direct(name))
            page = f"[{name}](../crates/{name}/README.md)"
            row = f"| {level} | {page} | {purpose_of(name)} | {needs} |"
            out += row.replace("|  |", "| |") + "\n"
    return out.replace("|  |", "| |")


def trusted_files() -> str:
    """The steps of docs/trusted.txt as a numbered list of links."""
    out = []
    for number, (what, files) in enumerate(trusted(), 1):
        head = f"{number}. {what}:"
        out.append(textwrap.fill(head, 100, subsequent_indent="   ", break_on_hyphens=False) + "\n")
        by_folder: dict[str, list[str]] = {}
        for file in files:
            folder, _, name = file.rpartition("/")
            by_folder.setdefault(folder, []).append(f"[{name}](../{file})")
        out += [f"   - `{folder}`: {', '.join(names)}\n" for folder, names in by_folder.items()]
    return "".join(out)


def size_row(word: str, closure: Closure) -> str:
    """How much a closure is, as a row. Lines are rounded, so that few changes touch the page."""
    lines = round(sum(it.lines for it in closure.found), -2)
    return f"| `{word}` | {len(closure.by_file())} | {lines} |\n"


def sizes() -> str:
    """A table of how much has to be read for each guarantee."""
    rows = [size_row(word, united(clauses)) for word, clauses in guarantees().items()]
    return "| `CLAIM=` | Files | Lines |\n|---|---|---|\n" + "".join(rows)


def with_part(text: str, source: str, part: str) -> str:
    """A document with a made part as it should be."""
    begin = BEGIN.format(source=source) + "\n"
    before, found, rest = text.partition(begin)
    return before + begin + part + END + rest.partition(END)[2] if found else text


def pages() -> dict[Path, str]:
    """The pages with made parts, as they should be."""
    audit = with_part(text_of(AUDIT), "docs/PROVED.md", sizes())
    return {
        ARCHITECTURE: with_part(text_of(ARCHITECTURE), "crates.txt", crates_by_level()),
        AUDIT: with_part(audit, "docs/trusted.txt", trusted_files()),
        wrong_bodies.PAGE: wrong_bodies.with_edits(text_of(wrong_bodies.PAGE)),
    }


def check_made(report: Report) -> None:
    """The made parts are those that the other files give."""
    for path, source in (
        (ARCHITECTURE, "crates.txt"),
        (AUDIT, "docs/PROVED.md"),
        (AUDIT, "docs/trusted.txt"),
    ):
        found = BEGIN.format(source=source) in text_of(path)
        report.check(found, f"{where(path)} has no part made from {source}")
    for path, text in pages().items():
        fresh = text == text_of(path)
        report.check(fresh, f"{where(path)}: a made part is stale: tools/docs --write")


def write_made() -> None:
    """Writes the made parts."""
    for path, text in pages().items():
        path.write_text(text, encoding="utf-8")
