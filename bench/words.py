#!/usr/bin/env python3
"""Measures how fast texts become words: bench/words.py --wumpus PATH [--beside PATH] [--instructions].

Each language is a set of letters and lengths of words, from which texts are made by rule: no text of a language is kept here. A session is
given one text and ends, which saves. Its time is the least of several sessions, less that of a session over as many bytes without a word.
With another program beside it, an older build say, the two are compared. Where other work is on the machine `--instructions` counts
instructions, by valgrind, in place of time.
"""

import argparse
import os
import random
import re
import subprocess
import sys
import tempfile
from collections.abc import Iterator
from dataclasses import dataclass

sys.dont_write_bytecode = True

import measure

WORDS = 200_000
VOCABULARY = 20_000
WORDS_OF_LINE = 12
CAPITALS = 9
RUNS = 5


def letters(*ranges: tuple[int, int]) -> str:
    """Returns the letters of ranges of code points, each with its last one."""
    return "".join(chr(code) for first, last in ranges for code in range(first, last + 1))


ASCII = letters((0x61, 0x7A))


@dataclass(frozen=True)
class Language:
    """What words are made of: letters, the least and the greatest length, and whether some begin with a capital."""

    name: str
    letters: str
    least: int
    most: int
    capitals: bool = True


LANGUAGES = [
    Language("ASCII", ASCII, 2, 10),
    Language("ASCII, two letters", ASCII, 2, 2, capitals=False),
    Language("German", ASCII + "äöüß", 2, 11),
    Language("French", ASCII + "éèàçêôû", 2, 9),
    Language("Greek", letters((0x3B1, 0x3C9)), 2, 10),
    Language("Russian", letters((0x430, 0x44F)), 2, 10),
    Language("Japanese", letters((0x3041, 0x3096), (0x4E00, 0x51FF)), 10, 40, capitals=False),
]


def text(language: Language) -> bytes:
    """Returns a text of that language: frequent words by Zipf's law, in lines of twelve."""
    generator = random.Random(language.name)
    words = [
        "".join(generator.choices(language.letters, k=generator.randint(language.least, language.most)))
        for _ in range(VOCABULARY)
    ]
    chosen = generator.choices(words, [1 / rank for rank in range(1, VOCABULARY + 1)], k=WORDS)
    if language.capitals:
        chosen[::CAPITALS] = [word.capitalize() for word in chosen[::CAPITALS]]
    lines = (" ".join(chosen[at : at + WORDS_OF_LINE]) for at in range(0, WORDS, WORDS_OF_LINE))
    return "\n".join(lines).encode() + b"\n"


def session(body: bytes) -> bytes:
    """Returns the script that gives a file this text."""
    return b"create\t2\t1\ta\t0\t0\t644\ntext\t2\t%d\n" % len(body) + body + b"\n"


def seconds(program: str, script: bytes) -> float:
    """Returns the processor seconds of a session: the least of some."""
    return min(measure.run_child([program, "run"], folder, input_bytes=script).processor for folder in folders(RUNS))


def instructions(program: str, script: bytes) -> float:
    """Returns the instructions of a session, in millions."""
    words = ["valgrind", "--tool=callgrind", "--callgrind-out-file=/dev/null", program, "run"]
    for folder in folders(1):
        ran = subprocess.run(words, cwd=folder, input=script, capture_output=True, check=True)
    collected = re.search(rb"Collected\s*:\s*(\d+)", ran.stderr)
    assert collected is not None
    return int(collected.group(1)) / 1e6


def folders(count: int) -> Iterator[str]:
    """Yields new folders, one after the other."""
    for _ in range(count):
        with tempfile.TemporaryDirectory() as folder:
            yield folder


def main() -> None:
    parser = argparse.ArgumentParser(description=__doc__, formatter_class=argparse.RawDescriptionHelpFormatter)
    parser.add_argument("--wumpus", required=True, help="the built program")
    parser.add_argument("--beside", help="another one, to compare it with")
    parser.add_argument("--instructions", action="store_true", help="count instructions, by valgrind")
    given = parser.parse_args()
    programs = [os.path.abspath(path) for path in (given.wumpus, given.beside) if path]
    cost = instructions if given.instructions else seconds
    unit = "instructions a word" if given.instructions else "words a second"
    print(f"| text | MB | {unit} |" + (" beside it | cost beside it |" if given.beside else ""))
    print("|---|---|---|" + ("---|---|" if given.beside else ""))
    for language in LANGUAGES:
        body = text(language)
        costs = [cost(program, session(body)) - cost(program, session(b" " * len(body))) for program in programs]
        shown = [f"{one * 1e6 / WORDS:.0f}" if given.instructions else f"{WORDS / one:,.0f}" for one in costs]
        ratio = [f"{costs[0] / costs[1]:.3f}"] if given.beside else []
        print("| " + " | ".join([language.name, f"{len(body) / 1e6:.1f}", *shown, *ratio]) + " |", flush=True)


main()
