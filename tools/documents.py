"""The documents of the repository, and what their checks share."""

from __future__ import annotations

import re
from collections.abc import Iterator
from dataclasses import dataclass, field
from pathlib import Path

from definitions import TOP

LINK = re.compile(r"(?<!!)\[[^\]]*\]\(([^)\s]+)\)")
CODE = re.compile(r"`([^`]+)`")


@dataclass
class Report:
    """How many checks passed, and what each of the others says."""

    passed: int = 0
    failures: list[str] = field(default_factory=list)

    def check(self, holds: bool, complaint: str) -> None:
        """Counts one check."""
        if holds:
            self.passed += 1
        else:
            self.failures.append(complaint)


def documents() -> list[Path]:
    """All documents of the repository."""
    named = ("README.md", "CONTRIBUTING.md", "CHANGELOG.md", "bench/README.md", "service/README.md")
    found = [TOP / name for name in named]
    for pattern in ("docs/*.md", "crates/*/README.md", "service/wumpus/*/README.md"):
        found += sorted(TOP.glob(pattern))
    return [path for path in found if path.exists()]


def lines_outside_code(text: str) -> Iterator[tuple[int, str]]:
    """The lines that are in no fenced or indented block of code, with their numbers."""
    fenced = False
    for number, line in enumerate(text.splitlines(), 1):
        if line.startswith("```"):
            fenced = not fenced
        elif not fenced and not line.startswith("    "):
            yield number, line


def cells_of(line: str) -> list[str]:
    """The cells of a row of a table."""
    return [cell.strip() for cell in re.split(r"(?<!\\)\|", line.strip().strip("|"))]


def where(path: Path, number: int = 0) -> str:
    """A place, as it is told."""
    return f"{path.relative_to(TOP)}:{number}" if number else str(path.relative_to(TOP))
