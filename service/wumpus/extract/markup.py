"""XML, read piece by piece; names are without the name spaces."""

from collections.abc import Iterable
from typing import Protocol
from xml.parsers import expat

from .reasons import Reason, Refusal

Attributes = dict[str, str]
_SEPARATOR = " "


class Reader(Protocol):
    """What is told of each element and of the text between."""

    def begin(self, name: str, attributes: Attributes) -> None:
        """An element begins."""

    def end(self, name: str) -> None:
        """It ends."""

    def data(self, text: str) -> None:
        """Text of the innermost element."""


def _refuse(*_: object) -> None:
    """A document type is in no office file, and all that is dangerous in XML needs one."""
    raise Refusal(Reason.BROKEN)


def _name(qualified: str) -> str:
    return qualified[qualified.rfind(_SEPARATOR) + 1 :]


def read(pieces: Iterable[bytes], reader: Reader) -> None:
    """Has a reader told of a document. Raises `Refusal`, and expat's own error."""
    parser = expat.ParserCreate(namespace_separator=_SEPARATOR)
    parser.buffer_text = True
    parser.StartDoctypeDeclHandler = _refuse
    parser.EntityDeclHandler = _refuse
    parser.StartElementHandler = lambda name, attributes: reader.begin(_name(name), attributes)
    parser.EndElementHandler = lambda name: reader.end(_name(name))
    parser.CharacterDataHandler = reader.data
    begun = False
    for piece in pieces:
        begun = True
        parser.Parse(piece, False)
    if begun:
        parser.Parse(b"", True)


def attribute(attributes: Attributes, name: str, space: str = "") -> str:
    """The value of an attribute by its name without its space, or in spaces that end so."""
    for qualified, value in attributes.items():
        if _name(qualified) == name and qualified[: -len(name)].rstrip(_SEPARATOR).endswith(space):
            return value
    return ""


class Fields:
    """The texts of some elements, in the order in which they are wanted."""

    def __init__(self, *wanted: str) -> None:
        self.texts: dict[str, list[str]] = {name: [] for name in wanted}
        self.now: list[str] | None = None

    def begin(self, name: str, _: Attributes) -> None:
        """One of those that are wanted, or another."""
        self.now = self.texts.get(name)
        if self.now is not None:
            self.now.append("")

    def data(self, text: str) -> None:
        """Text of the innermost element."""
        if self.now is not None:
            self.now[-1] += text

    def end(self, _: str) -> None:
        """What follows is of an outer element."""
        self.now = None

    def all(self) -> list[str]:
        """The texts that are there."""
        return [text for texts in self.texts.values() for text in texts]


class Elements:
    """The attributes of the elements with one of some names, in their order."""

    def __init__(self, *wanted: str) -> None:
        self.wanted = wanted
        self.found: list[tuple[str, Attributes]] = []

    def begin(self, name: str, attributes: Attributes) -> None:
        """One of those that are wanted, or another."""
        if name in self.wanted:
            self.found.append((name, attributes))

    def data(self, text: str) -> None:
        """No text is wanted."""

    def end(self, name: str) -> None:
        """Nor is the end."""
