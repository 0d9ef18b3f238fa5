"""The crates of crates.txt: what each depends on, and at which level it stands."""

from __future__ import annotations

import re
from functools import cache

from definitions import TOP, text_of


@cache
def crates() -> dict[str, tuple[str, ...]]:
    """The crates of the repository, each with those of the repository that it depends on."""
    found = {}
    for line in text_of(TOP / "crates.txt").splitlines():
        name, colon, behind = line.partition(":")
        if colon and not line.startswith("#"):
            found[name.split()[0]] = behind.split()
    return {name: tuple(it for it in behind if it in found) for name, behind in found.items()}


def is_test(name: str) -> bool:
    """Whether it is a program of tests, or what several of them share."""
    return bool(re.search(r"_(tests|rows)$", name))


@cache
def level(name: str) -> int:
    """One more than the highest of those that a crate depends on."""
    return 1 + max((level(other) for other in crates()[name]), default=-1)


@cache
def below(name: str) -> frozenset[str]:
    """All crates that one needs, without itself."""
    return frozenset(crates()[name]).union(*(below(other) for other in crates()[name]))


def direct(name: str) -> list[str]:
    """Those that a crate depends on, without those that another of them brings."""
    needs = crates()[name]
    return [it for it in needs if not any(it in below(other) for other in needs)]


def by_level() -> list[tuple[int, list[str]]]:
    """The crates but those of tests by level, the highest first."""
    own = [name for name in crates() if not is_test(name)]
    highest = max(level(name) for name in own)
    return [
        (number, sorted(name for name in own if level(name) == number))
        for number in range(highest, -1, -1)
    ]
