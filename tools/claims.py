"""Checks of what documents claim: clauses, definitions, crates, wrong bodies."""

from __future__ import annotations

import re
from pathlib import Path

from clauses import Clause, Closure, clauses_in, closure_of, places_of
from crates import crates
from definitions import CRATES, TOP, in_module, source_of, text_of
from documents import CODE, Report, cells_of, where

PROVED = TOP / "docs" / "PROVED.md"
TRUSTED = TOP / "docs" / "trusted.txt"
PAGE_LINES = range(3, 101)


# ---- docs/PROVED.md


def rows_of_claims() -> list[tuple[int, str, list[str]]]:
    """The rows of docs/PROVED.md: the line, the crate under whose heading it stands, the cells."""
    rows = []
    crate = ""
    for number, line in enumerate(text_of(PROVED).splitlines(), 1):
        if line.startswith("## "):
            crate = line[3:]
        cells = cells_of(line)
        if line.startswith("| ") and len(cells) in (3, 4) and cells[0] not in ("Claim", "Word"):
            rows.append((number, crate, cells))
    return rows


def guarantees() -> dict[str, list[Clause]]:
    """The guarantees at the head of docs/PROVED.md, by the word of each, with their clauses."""
    return {
        cells[0].strip("`"): clauses_in(cells[2])[0]
        for _, _, cells in rows_of_claims()
        if len(cells) == 4
    }


def united(clauses: list[Clause]) -> Closure:
    """What a reader of several clauses has to read."""
    whole = Closure()
    for clause in clauses:
        whole.found |= closure_of(clause).found
        whole.library |= closure_of(clause).library
    return whole


def check_cell(report: Report, place: str, crate: str, cell: str) -> None:
    """Each clause, field and definition that a cell names is there."""
    clauses, definitions = clauses_in(cell)
    # With all fields, since a definition may give the whole of a record its meaning.
    whole = united([Clause(it.crate, it.call, it.label) for it in clauses])
    for clause in clauses:
        report.check(bool(places_of(clause)), f"{place}: no contract has the clause {clause}")
        base = closure_of(Clause(clause.crate, clause.call, clause.label))
        for name in clause.fields:
            report.check(base.has_field(name), f"{place}: {clause} names no record with {name}")
    for name in definitions:
        found = whole.defines(name) if clauses else is_defined(crate, name)
        report.check(found, f"{place}: {name} isn't named by the clauses")
    report.check(bool(clauses or definitions), f"{place}: no clause")


def is_defined(crate: str, name: str) -> bool:
    """Whether a crate has a definition of that name."""
    return any(name in source_of(path).words for path in (CRATES / crate).glob("specs/*.antt"))


def check_proved(report: Report) -> None:
    """The clauses and definitions of docs/PROVED.md are there, under their crate's heading."""
    for number, crate, cells in rows_of_claims():
        place = where(PROVED, number)
        cell = cells[-2]
        check_cell(report, place, crate, cell)
        own = re.match(r"`(\w+)::", cell)
        same = len(cells) == 4 or not own or own.group(1) == crate
        report.check(same, f"{place} stands under {crate}")


# ---- docs/trusted.txt


def trusted() -> list[tuple[str, list[str]]]:
    """What an auditor reads, in order: what the files say, and the files."""
    steps: list[tuple[str, list[str]]] = []
    for line in text_of(TRUSTED).splitlines():
        if line.startswith("= "):
            steps.append((line[2:], []))
        elif line and not line.startswith("#"):
            steps[-1][1].append(line)
    return steps


def check_trusted(report: Report) -> None:
    """The trusted files are there, with each file of definitions that a guarantee needs."""
    listed = {file for _, files in trusted() for file in files}
    for what, files in trusted():
        report.check(bool(files), f"{where(TRUSTED)}: no file for: {what}")
    for file in sorted(listed):
        report.check((TOP / file).is_file(), f"{where(TRUSTED)}: {file} isn't there")
    for word, clauses in guarantees().items():
        for path in united(clauses).by_file():
            found = path.suffix != ".antt" or where(path) in listed
            report.check(found, f"{where(TRUSTED)} lacks {where(path)}, which {word} needs")


def leads_nowhere(path: Path) -> list[str]:
    """The words that a file imports and that aren't found, so that a closure would lack them."""
    imports = source_of(path).imports.values()
    own = [(it, name) for it, name in imports if (CRATES / it.split(".")[1]).is_dir()]
    kept = [(it, name) for it, name in own if re.match(r"Rattle\.\w+\.specs\.(?!contracts)", it)]
    return [f"{module}.{name}" for module, name in kept if not in_module(module, name)]


def check_imports(report: Report) -> None:
    """Each definition that is imported is found: so what is computed from imports is whole."""
    for path in [*CRATES.glob("*/specs/**/*.antt"), *CRATES.glob("*/src/**/*.rt")]:
        report.check(not (lost := leads_nowhere(path)), f"{where(path)}: no {', '.join(lost)}")


# ---- docs/GLOSSARY.md and the pages of the crates


def declares(path: Path, name: str) -> bool:
    """Whether a file has a definition, a function, a type or a ghost member of that name."""
    kinds = r"\b(?:fn|struct|enum|trait|ghost|const)"
    if path.suffix == ".antt":
        return name in source_of(path).words
    return bool(re.search(rf"{kinds} {re.escape(name)}\b", text_of(path)))


def check_glossary(report: Report) -> None:
    """Each word of docs/GLOSSARY.md is defined in the file that it names."""
    path = TOP / "docs" / "GLOSSARY.md"
    entry = r"^- \*\*.*?\*\* \(`([^`]+)` in \[[^\]]*\]\(([^)]+)\)"
    for name, target in re.findall(entry, text_of(path), re.MULTILINE):
        file = (path.parent / target).resolve()
        found = file.exists() and declares(file, name)
        report.check(found, f"{where(path)}: {target} doesn't define {name}")


def check_crate_pages(report: Report) -> None:
    """Each crate has a page, whose clauses stand in the crate."""
    for name in crates():
        path = CRATES / name / "README.md"
        report.check(path.exists(), f"{where(path)} isn't there")
        if not path.exists():
            continue
        text = text_of(path)
        count = len(text.splitlines())
        report.check(count in PAGE_LINES, f"{where(path)} has {count} lines")
        for call, clauses in re.findall(r"`([a-z_0-9]+)`:\s+((?:`[a-z_]+`(?:,\s+)?)+)", text):
            for label in CODE.findall(clauses):
                found = places_of(Clause(name, call, label))
                report.check(bool(found), f"{where(path)}: {call} has no clause {label}")
