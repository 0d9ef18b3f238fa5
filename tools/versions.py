"""Checks that the package's version, CHANGELOG and the manual pages agree."""

from __future__ import annotations

import re
from datetime import date

from definitions import TOP, text_of
from documents import Report, where
from texts import manual_pages

CHANGELOG = TOP / "CHANGELOG.md"
MONTHS = (
    "January February March April May June July August September October November December".split()
)


def package_version() -> str:
    """The version that the package and each program of `service/` tell."""
    text = text_of(TOP / "service" / "wumpus" / "__init__.py")
    found = re.search(r'^VERSION = "(.*)"$', text, re.MULTILINE)
    return found.group(1) if found else ""


def head_of_changelog() -> tuple[str, date]:
    """The newest version in CHANGELOG, and its day."""
    found = re.search(r"^## (\d+\.\d+\.\d+), (\d+)-(\d+)-(\d+)$", text_of(CHANGELOG), re.MULTILINE)
    if not found:
        return "", date.min
    version, year, month, day = found.groups()
    return version, date(int(year), int(month), int(day))


def day_of_manual(text: str) -> date:
    """The day that a manual page tells."""
    found = re.search(r"^\.Dd (\w+) (\d+), (\d+)$", text, re.MULTILINE)
    if not found or found.group(1) not in MONTHS:
        return date.max
    return date(int(found.group(3)), MONTHS.index(found.group(1)) + 1, int(found.group(2)))


def system_of_manual(text: str) -> str:
    """What a manual page tells beside its name: the program with its version."""
    found = re.search(r"^\.Os (.*)$", text, re.MULTILINE)
    return found.group(1) if found else ""


def check_versions(report: Report) -> None:
    """All tell the version of CHANGELOG's head, and no manual page is of a later day."""
    version, day = head_of_changelog()
    report.check(bool(version), f"{where(CHANGELOG)}: no head `## VERSION, DAY`")
    told = package_version()
    report.check(told == version, f"service/wumpus/__init__.py: {told} isn't {version}")
    for path in manual_pages():
        text = text_of(path)
        system = system_of_manual(text)
        report.check(system == f"Wumpus {version}", f"{where(path)}: .Os {system}")
        report.check(day_of_manual(text) <= day, f"{where(path)}: its day is after {version}")
