"""Kinds of documents: what each is known by, and what makes its text.

They stand in a table, whose lines can be changed or added by a file of root's:

    # kind   known by                  made by
    djvu     suffix djvu               program /usr/bin/djvutxt -
    html     suffix html htm xhtml     code html
    mail     off

All that stands before `or` has to hold: `magic` bytes at the beginning, `at` a place, or `early`,
within the first 1,024; a `suffix` of the name after its last dot; or `wide` characters, as those of
UTF-16. In bytes `\\x1f` stands for any one, and `\\x20` for a space. A line with a backslash at its
end goes on in the next one. The first kind that fits decides.
"""

import os
import re
from collections.abc import Callable, Iterable, Iterator
from dataclasses import dataclass
from itertools import takewhile
from pathlib import Path

from .front import is_wide

TABLE = Path("/etc/wumpus/documents")
TABLE_MAX = 1 << 16  # bytes
EARLY = 1024

BUILT_IN = r"""
pdf    early %PDF-                                  program /usr/bin/pdftotext -q -htmlmeta \
                                                            -enc UTF-8 -eol unix - -
docx   magic PK\x03\x04 suffix docx docm dotx dotm  code docx
xlsx   magic PK\x03\x04 suffix xlsx xlsm xltx xltm  code xlsx
pptx   magic PK\x03\x04 suffix pptx pptm ppsx potx  code pptx
odf    at 30 mimetypeapplication/vnd.oasis.opendocument. \
       or magic PK\x03\x04 suffix odt ods odp odg   code odf
epub   at 30 mimetypeapplication/epub+zip \
       or magic PK\x03\x04 suffix epub              code epub
gz     magic \x1f\x8b\x08                           code gz
xz     magic \xfd7zXZ\x00                           code xz
bz2    magic BZh suffix bz2 tbz2                    code bz2
zst    magic \x28\xb5\x2f\xfd                       code zst
html   suffix html htm xhtml xht                    code html
mail   suffix eml mbox or magic From\x20 or magic Return-Path:\x20< \
       or magic Received:\x20from\x20 or magic Delivered-To:\x20   code mail
wide   wide                                         code wide
"""

# Filters that are no kinds: of a text that was packed, and of what a program writes.
PLAIN, WRITTEN = "plain", "written"
# The filters of this package.
CODES = frozenset("docx xlsx pptx odf epub html mail gz xz bz2 zst wide".split())

PACKED = frozenset({"gz", "xz", "bz2", "zst"})
# Of these the lines of the text are those of the file, or of what is packed in it.
LINES_OF_FILE = frozenset({"html", "wide", PLAIN}) | PACKED
# Of these the text has a form feed behind each page or slide.
PAGED = frozenset({"pdf", "pptx", "odf"})


Known = tuple[tuple[str, str], ...]  # each kind, and what it is known by, in their order

_NAME = re.compile("[a-z][a-z0-9]{0,15}")
KINDS_MAX = 100


class BadTable(Exception):
    """A line of the table isn't understood."""


Condition = Callable[[bytes, bytes], bool]


@dataclass(frozen=True)
class Code:
    """A filter of this package."""

    name: str


@dataclass(frozen=True)
class Program:
    """A program that reads standard input and writes standard output, with its words."""

    words: tuple[str, ...]


@dataclass(frozen=True)
class Kind:
    """A kind: a file is of it where one of the lists of conditions holds.

    `words` has the conditions as they are written in the table.
    """

    name: str
    known_by: tuple[tuple[Condition, ...], ...]
    made_by: Code | Program
    words: str = ""

    def fits(self, suffix: bytes, front: bytes) -> bool:
        """Tells whether a file is of this kind."""
        return any(all(one(suffix, front) for one in every) for every in self.known_by)


class Table:
    """The kinds, in their order."""

    def __init__(self, kinds: Iterable[Kind]) -> None:
        self.kinds = {kind.name: kind for kind in kinds}

    def __eq__(self, other: object) -> bool:
        """Whether files are of the same kinds by both."""
        return isinstance(other, Table) and self.known == other.known

    def __hash__(self) -> int:
        return hash(self.known)

    @property
    def known(self) -> Known:
        """What tells of which kind a file is: where it is another one, files may be of others."""
        return tuple((kind.name, kind.words) for kind in self.kinds.values())

    def kind_of(self, name: bytes, front: bytes) -> Kind | None:
        """The kind of a file with this name that begins so; None where it isn't a document.

        Of what it begins with 8,192 bytes are enough. Bytes at fixed places are compared, no more.
        """
        if not front:
            return None
        suffix = suffix_of(name)
        return next((one for one in self.kinds.values() if one.fits(suffix, front)), None)


def suffix_of(name: bytes) -> bytes:
    """What stands after the last dot of a name, in small letters."""
    return name.rpartition(b".")[2].lower()


def _magic(word: str) -> Condition:
    wanted = _bytes_of(word)
    return lambda _, front: front.startswith(wanted)


def _early(word: str) -> Condition:
    wanted = _bytes_of(word)
    return lambda _, front: wanted in front[:EARLY]


def _at(place: int, word: str) -> Condition:
    wanted = _bytes_of(word)
    return lambda _, front: front.startswith(wanted, place)


def _suffix(words: list[str]) -> Condition:
    wanted = frozenset(os.fsencode(word.lower()) for word in words)
    return lambda suffix, _: suffix in wanted


def _wide(_: bytes, front: bytes) -> bool:
    return is_wide(front)


_ESCAPE = re.compile(r"\\x([0-9A-Fa-f]{2})|(.)", re.DOTALL)


def _bytes_of(word: str) -> bytes:
    """The bytes of a word of the table."""
    parts = _ESCAPE.findall(word)
    return b"".join(bytes.fromhex(code) if code else os.fsencode(letter) for code, letter in parts)


_CONDITIONS = {"magic", "early", "at", "suffix", "wide", "or"}


def _known_by(words: list[str]) -> tuple[tuple[Condition, ...], ...]:
    """The lists of conditions that stand in a line. Raises `BadTable`."""
    lists: list[list[Condition]] = [[]]
    left = list(words)
    while left:
        word = left.pop(0)
        if word == "or":
            lists.append([])
        elif word == "wide":
            lists[-1].append(_wide)
        elif word == "suffix":
            suffixes = list(takewhile(lambda one: one not in _CONDITIONS, left))
            del left[: len(suffixes)]
            if not suffixes:
                raise BadTable("no suffix follows")
            lists[-1].append(_suffix(suffixes))
        else:
            lists[-1].append(_about_bytes(word, left))
    if not all(lists):
        raise BadTable("it says by nothing what it is known by")
    return tuple(tuple(every) for every in lists)


def _about_bytes(word: str, left: list[str]) -> Condition:
    """A condition on the bytes of a file, whose words are taken from those that are left."""
    if word == "magic" and left:
        return _magic(left.pop(0))
    if word == "early" and left:
        return _early(left.pop(0))
    if word == "at" and len(left) > 1 and left[0].isascii() and left[0].isdigit():
        return _at(int(left.pop(0)), left.pop(0))
    raise BadTable(f"{word!r} isn't known here, or lacks what has to follow it")


def _made_by(words: list[str]) -> Code | Program:
    """What makes the text. Raises `BadTable`."""
    if words[0] == "code" and len(words) == 2 and words[1] in CODES:
        return Code(words[1])
    if words[0] == "program" and len(words) > 1 and words[1].startswith("/"):
        return Program(tuple(words[1:]))
    raise BadTable("code has one of the names of wumpus-extract(8), and a program a whole path")


def _kind(words: list[str]) -> Kind:
    """The kind of a line. Raises `BadTable`."""
    rest = words[1:]
    makers = [place for place, word in enumerate(rest) if word in ("code", "program")]
    if not makers:
        raise BadTable("it says by nothing what its text is made by")
    known_by = rest[: makers[0]]
    return Kind(words[0], _known_by(known_by), _made_by(rest[makers[0] :]), " ".join(known_by))


def table_of(*texts: str) -> Table:
    """The table that some texts have, a later line in place of one for the same kind.

    Raises `BadTable`, with the line.
    """
    kinds: dict[str, Kind] = {}
    for text in texts:
        for number, words in _lines_of(text):
            if not words or words[0].startswith("#"):
                continue
            if not _NAME.fullmatch(words[0]) or words[0] in (PLAIN, WRITTEN):
                raise BadTable(f"line {number}: {words[0]!r} can't be the name of a kind")
            if words[1:] == ["off"]:
                kinds.pop(words[0], None)
                continue
            try:
                kinds[words[0]] = _kind(words)
            except BadTable as fault:
                raise BadTable(f"line {number}: {fault}") from fault
    if len(kinds) > KINDS_MAX:
        raise BadTable(f"there are more than {KINDS_MAX} kinds")
    return Table(kinds.values())


def _lines_of(text: str) -> Iterator[tuple[int, list[str]]]:
    """The words of each line, with its number, or that of the last one of those that go on."""
    waiting = ""
    for number, line in enumerate(text.split("\n"), 1):
        waiting += line
        if waiting.endswith("\\"):
            waiting = waiting[:-1] + " "
        else:
            yield number, waiting.split()
            waiting = ""
    if waiting:
        raise BadTable("the last line goes on, and nothing follows")


def table_here(path: Path = TABLE) -> Table:
    """The table of this machine. Raises `BadTable`, and `OSError` where it can't be read."""
    try:
        with path.open("rb") as file:
            own = file.read(TABLE_MAX + 1)
    except FileNotFoundError:
        own = b""
    if len(own) > TABLE_MAX:
        raise BadTable(f"{path} is over {TABLE_MAX} bytes")
    try:
        return table_of(BUILT_IN, own.decode("utf-8", "surrogateescape"))
    except BadTable as fault:
        raise BadTable(f"{path}: {fault}") from fault
