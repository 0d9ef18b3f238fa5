"""The rows of docs/WRONG_BODIES.md that are written from the edits in `must-fail/`."""

from __future__ import annotations

import re
from dataclasses import dataclass
from pathlib import Path

from clauses import Clause, places_of
from definitions import CRATES, TOP, code_of, owner_of, text_of
from documents import CODE, Report, cells_of, where

PAGE = TOP / "docs" / "WRONG_BODIES.md"
HEAD = "| The body | Function | Clause | Tried |"
BY_GATE = "by the gate: "


@dataclass(frozen=True)
class Edit:
    """An edit that the gate tries: its crate, its name, and the functions that it changes."""

    crate: str
    name: str
    functions: tuple[str, ...]

    def row(self, clause: str) -> str:
        """Its row, with the clause that refuses it, which no edit says."""
        words = self.name.replace("_", " ")
        functions = ", ".join(f"`{it}`" for it in self.functions)
        row = f"| {words} | {functions} | {clause} | {BY_GATE}`{self.name}` |"
        return row.replace("|  |", "| |")


def function_at(path: Path, code: str) -> str:
    """The function in which some code stands, by its name, with its type before it, or none."""
    text = text_of(path)
    lines = text.splitlines()
    for number in range(text.count("\n", 0, max(text.find(code), 0)), -1, -1):
        found = re.match(r"( *)(?:pub(?:\([a-z]+\))? )?(?:unsafe )?fn (\w+)", lines[number])
        if found:
            owner = owner_of(lines, number) if found.group(1) else ""
            return f"{owner}::{found.group(2)}" if owner else found.group(2)
    return ""


def edit_of(path: Path) -> Edit:
    """What a file of `must-fail/` changes."""
    crate = path.parent.parent
    file = Path()
    functions: list[str] = []
    for line in path.read_text(encoding="utf-8").splitlines():
        if line.startswith("file:"):
            file = crate / line.removeprefix("file:").strip()
        elif line.startswith("old:"):
            functions.append(function_at(file, line.removeprefix("old: ")))
    return Edit(crate.name, path.stem, tuple(dict.fromkeys(filter(None, functions))))


def edits() -> dict[str, list[Edit]]:
    """All edits that stand, by crate."""
    found: dict[str, list[Edit]] = {}
    for path in sorted(CRATES.glob("*/must-fail/*.edit")):
        found.setdefault(path.parent.parent.name, []).append(edit_of(path))
    return found


def clause_told(text: str, edit: Edit) -> str:
    """The clause that the page names for an edit, if it has a row."""
    for line in text.splitlines():
        if line.startswith("| ") and line.endswith(f"{BY_GATE}`{edit.name}` |"):
            return cells_of(line)[2]
    return ""


def with_edits(text: str) -> str:
    """The page with the rows of the edits that stand, before those that were tried by hand."""
    out = []
    crate = ""
    standing = edits()
    for line in text.splitlines():
        if line.startswith("## "):
            crate = line[3:]
        if line.startswith("| ") and BY_GATE in line:
            continue
        out.append(line)
        if out[-2:-1] == [HEAD]:
            out += [edit.row(clause_told(text, edit)) for edit in standing.pop(crate, [])]
    for crate, left in standing.items():
        rows = [edit.row("") for edit in left]
        out += ["", f"## {crate}", "", HEAD, "|---|---|---|---|", *rows]
    return "\n".join(out) + "\n"


def is_function(crate: str, name: str) -> bool:
    """Whether a crate has a function of that name, whatever stands before it."""
    last = name.split("::")[-1]
    return any(last in source.words for source in code_of(crate))


def is_clause(crate: str, functions: list[str], label: str) -> bool:
    """Whether a function, or a trait that it is of, has a clause of that label."""
    if any(places_of(Clause(crate, name.split("::")[-1], label)) for name in functions):
        return True
    traits = re.compile(rf"\b(?:ghost {label}\b|ensures {label} \{{)")
    sources = [source for source in code_of(crate) if f"ghost {label}" in text_of(source.path)]
    return bool(sources) or any(traits.search(text_of(it.path)) for it in code_of("wu_outside"))


def check_wrong_bodies(report: Report) -> None:
    """The functions and clauses of the rows are there."""
    crate = ""
    for number, line in enumerate(text_of(PAGE).splitlines(), 1):
        crate = line[3:] if line.startswith("## ") else crate
        cells = cells_of(line)
        if not line.startswith("| ") or len(cells) != 4 or cells[0] == "The body":
            continue
        functions = CODE.findall(cells[1].partition(" of ")[0])
        for name in functions:
            report.check(is_function(crate, name), f"{where(PAGE, number)}: no function {name}")
        labels = CODE.findall(cells[2]) if re.fullmatch(r"(?:`\w+`(?:, )?)+", cells[2]) else []
        for label in labels:
            found = is_clause(crate, functions, label)
            report.check(found, f"{where(PAGE, number)}: {cells[1]} has no clause {label}")
