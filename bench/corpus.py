#!/usr/bin/env python3
"""A corpus made from a number: a tree of directories and files with texts, users, groups, modes and hard links.

It is written as a script for `wumpus run`, and the same events can be read back from that script, so that a peer is given the same tree
and the same texts. Every word and every choice comes from one random generator with a seed: the same seed and size give the same bytes.
"""

import random
import sys
from collections.abc import Iterator
from dataclasses import dataclass
from typing import BinaryIO

FILES_OF_SIZE = {10: 1_250, 100: 12_500}
FILES_OF_DIRECTORY = 25
VOCABULARY = 200_000
MEAN_ENTRIES = 1_315
EXPONENT = 1.1

ROOT_USER = 0
FEW_USER = 1_001
SOME_USER = 1_002
SHARED_GROUP = 500
FIRST_OWNER = 2_000
OWNERS = 100
SHARING_OWNERS = 10

ROOT, HOME, SERVICE = 1, 2, 3
FIRST_DIRECTORY = 4
PRIVATE_DIRECTORIES = 0.1
PUBLIC_FILES = 0.011
SHARED_FILES = 0.1
LINKED_FILES = 0.04

CONSONANTS = "bdfghjklmnprstvwyzqc"
VOWELS = "aeiou"
SYLLABLES = [consonant + vowel for vowel in VOWELS for consonant in CONSONANTS]
ENDINGS = ["", "n", "r", "s", "t", "l", "nd", "st", "ng", "rs"]


def word(number: int) -> str:
    """Returns the word of this number: frequent words have low numbers and are short, and no two numbers have the same word."""
    ending = ENDINGS[(number * 31 // 7) % len(ENDINGS)]
    syllables = []
    rest = number + 1
    while rest > 0:
        rest -= 1
        syllables.append(SYLLABLES[rest % len(SYLLABLES)])
        rest //= len(SYLLABLES)
    return "".join(syllables) + ending


def is_pair(number: int) -> bool:
    """Tells whether the entry of this number is a phrase of two words."""
    return number % 8 == 7


FREQUENT_NUMBERS = [number for number in range(24) if not is_pair(number)]


def pair(number: int) -> tuple[str, str]:
    """Returns the words of the phrase of this number: two neighbours, or in every second phrase a frequent word and a neighbour."""
    if number // 8 % 2 == 1:
        return word(FREQUENT_NUMBERS[number // 16 % len(FREQUENT_NUMBERS)]), word(number - 1)
    return word(number - 2), word(number - 1)


def entry(number: int) -> str:
    """Returns what stands in a text for the entry of this number: a word, or the two words of a phrase."""
    return " ".join(pair(number)) if is_pair(number) else word(number)


@dataclass
class Vocabulary:
    """The entries, and the sums of their weights, which fall with their numbers by Zipf's law."""

    entries: list[str]
    sums: list[float]


def vocabulary() -> Vocabulary:
    """Returns the entries by number."""
    sums, total = [], 0.0
    for number in range(VOCABULARY):
        total += (number + 2) ** -EXPONENT
        sums.append(total)
    return Vocabulary([entry(number) for number in range(VOCABULARY)], sums)


def text(words: Vocabulary, generator: random.Random, entries: int) -> bytes:
    """Returns a text of so many entries, in lines of 5 to 13, each with a capital letter and a full stop."""
    chosen = generator.choices(words.entries, cum_weights=words.sums, k=entries)
    lines, start = [], 0
    while start < entries:
        end = start + generator.randrange(5, 14)
        lines.append(" ".join(chosen[start:end]).capitalize() + ".\n")
        start = end
    return "".join(lines).encode()


def text_entries(generator: random.Random) -> int:
    """Returns the number of entries of a text: most are short, and some are ten times as long as the mean."""
    return min(max(int(generator.lognormvariate(-0.32, 0.8) * MEAN_ENTRIES), 20), 12_000)


def line(*fields: object) -> bytes:
    """Returns a line of the script with these fields."""
    return "\t".join(str(field) for field in fields).encode() + b"\n"


def owner_of(directory: int) -> int:
    """Returns the owner of the directory of this number and of the files in it."""
    return FIRST_OWNER + directory % OWNERS


def users() -> Iterator[bytes]:
    """Yields the users: the one of few files, the one of a tenth, and the owners, some of whom are in the shared group too."""
    yield line("user", FEW_USER)
    yield line("user", SOME_USER, SHARED_GROUP)
    for number in range(OWNERS):
        owner = FIRST_OWNER + number
        yield line("user", owner, owner, SHARED_GROUP) if number < SHARING_OWNERS else line("user", owner, owner)


def directories(generator: random.Random, count: int) -> Iterator[bytes]:
    """Yields the directories: half of them below /home and half below /srv, one in ten closed to all but its owner."""
    yield line("mkdir", HOME, ROOT, "home", 0, 0, "755")
    yield line("mkdir", SERVICE, ROOT, "srv", 0, 0, "755")
    for number in range(count):
        parent = HOME if number % 2 == 0 else SERVICE
        mode = "700" if generator.random() < PRIVATE_DIRECTORIES else "755"
        owner = owner_of(number)
        yield line("mkdir", FIRST_DIRECTORY + number, parent, f"d{number}", owner, owner, mode)


def file_access(generator: random.Random, owner: int) -> tuple[int, str]:
    """Returns a file's group and mode. Few files are for all and a tenth for the shared group, at random among the others."""
    chance = generator.random()
    if chance < PUBLIC_FILES:
        return owner, "644"
    if chance < PUBLIC_FILES + SHARED_FILES:
        return SHARED_GROUP, "640"
    return owner, "640" if chance < 0.5 else "600"


def files(words: Vocabulary, generator: random.Random, count: int) -> Iterator[bytes]:
    """Yields each file with its text and, for some, a second link in another directory. Directories are filled one after the other."""
    directory_count = count // FILES_OF_DIRECTORY
    first = FIRST_DIRECTORY + directory_count
    for number in range(count):
        directory = number // FILES_OF_DIRECTORY
        owner = owner_of(directory)
        group, mode = file_access(generator, owner)
        body = text(words, generator, text_entries(generator))
        yield line("create", first + number, FIRST_DIRECTORY + directory, f"f{number}", owner, group, mode)
        yield line("text", first + number, len(body)) + body + b"\n"
        if generator.random() < LINKED_FILES:
            other = generator.randrange(directory_count)
            yield line("link", first + number, FIRST_DIRECTORY + other, f"l{number}")


def commands(seed: int, size: int) -> Iterator[bytes]:
    """Yields the script of the corpus of this size in MB, command by command."""
    generator = random.Random(seed)
    count = FILES_OF_SIZE[size]
    yield from users()
    yield from directories(generator, count // FILES_OF_DIRECTORY)
    yield from files(vocabulary(), generator, count)


def write_script(seed: int, size: int, path: str) -> None:
    """Writes the script of a corpus to a file."""
    with open(path, "wb") as script:
        for command in commands(seed, size):
            script.write(command)


@dataclass
class Event:
    """A command read back from a script: its fields, and the body of a `text`."""

    fields: list[str]
    body: bytes


def read_events(script: BinaryIO) -> Iterator[Event]:
    """Yields the commands of a script that write_script wrote, one at a time."""
    while first := script.readline():
        fields = first.decode().rstrip("\n").split("\t")
        body = b""
        if fields[0] == "text":
            body = script.read(int(fields[2]))
            script.read(1)
        yield Event(fields, body)


if __name__ == "__main__":
    write_script(int(sys.argv[1]), int(sys.argv[2]), sys.argv[3])
