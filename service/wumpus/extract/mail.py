"""Mails, and boxes of mails: what stands in their heads, their texts, and what is attached."""

import re
from collections.abc import Iterator
from email import message_from_bytes
from email.header import decode_header
from email.message import Message

from .coding import decoded
from .frames import Output, as_line
from .page import named_coding, write_chapter

_HEADS = ("Subject", "From", "To", "Cc", "Date")
# A mail of a box begins with such a line, behind a blank one.
_BEGINS = re.compile(rb"(?:\A|(?<=\n\n)|(?<=\n\r\n))From \S+ [^\n]*\d\d:\d\d[^\n]*\n")
_BOX = b"From "
_NO_TEXT = frozenset({"image", "audio", "video", "font", "model"})
_HINTS = {
    "application/pdf": "pdf",
    "application/msword": "doc",
    "application/epub+zip": "epub",
}


class Part:
    """What one part of a mail has, until it is known that it is wanted."""

    def __init__(self) -> None:
        self.texts: list[str] = []
        self.documents: list[tuple[str, bytes]] = []

    def text(self, text: str) -> None:
        """Puts text behind that which is there."""
        self.texts.append(text)

    def line(self, text: str) -> None:
        """Puts a line, which ends here; none where it is blank."""
        self.text(as_line(text))

    def within(self, hint: str, document: bytes) -> None:
        """Puts what is attached."""
        self.documents.append((hint, document))

    def letters(self) -> int:
        """How much text there is, but for blanks."""
        return sum(len("".join(text.split())) for text in self.texts)

    def put(self, output: Output) -> None:
        """Gives all of it to somebody."""
        for text in self.texts:
            output.text(text)
        self.attach(output)

    def attach(self, output: Output) -> None:
        """Gives what is attached to somebody."""
        for hint, document in self.documents:
            output.within(hint, document)


def mail(data: bytes, output: Output) -> None:
    """Writes a mail, or each mail of a box."""
    begins = [found.span() for found in _BEGINS.finditer(data)] if data.startswith(_BOX) else []
    if data.startswith(_BOX) and not begins:
        output.text(decoded(data))  # somebody's text that begins with this word
        return
    if not begins:
        _write(data, output)
    ends = [start for start, _ in begins[1:]] + [len(data)]
    for (_, start), end in zip(begins, ends, strict=False):
        _write(data[start:end], output)
        output.text("\n")


def _write(data: bytes, output: Output) -> None:
    _write_message(message_from_bytes(data), output)


def _write_message(message: Message, output: Output) -> None:
    for name in _HEADS:
        for value in message.get_all(name, []):
            output.line(f"{name}: {_head(value)}")
    _write_part(message, output)


def _write_part(part: Message, output: Output) -> None:
    """Writes what a part has, in the order of the mail."""
    sort = part.get_content_type()
    if sort == "multipart/alternative":
        _write_one_of(_parts_of(part), output)
    elif sort == "message/rfc822":
        for one in _parts_of(part):
            _write_message(one, output)
    elif part.is_multipart():
        for one in _parts_of(part):
            _write_part(one, output)
    elif part.get_content_maintype() not in _NO_TEXT:
        _write_leaf(part, sort, output)


def _parts_of(part: Message) -> Iterator[Message]:
    below = part.get_payload()
    if isinstance(below, list):
        yield from (one for one in below if isinstance(one, Message))


def _write_one_of(parts: Iterator[Message], output: Output) -> None:
    """Writes the form of a mail that has the most text, as the other one may only ask for a reader.

    What is attached to any form is there.
    """
    forms = []
    for one in parts:
        form = Part()
        _write_part(one, form)
        forms.append(form)
    chosen = max(forms, key=Part.letters, default=None)
    for form in forms:
        if form is chosen:
            form.put(output)
        else:
            form.attach(output)


def _write_leaf(part: Message, sort: str, output: Output) -> None:
    body = part.get_payload(decode=True)
    if not isinstance(body, bytes) or not body:
        return
    named = part.get_content_charset()
    if sort == "text/html":
        write_chapter(decoded(body, named or named_coding(body)), output)
    elif part.get_content_maintype() == "text":
        output.text(decoded(body, named))
        output.text("\n")
    else:
        name = _head(part.get_filename() or "")
        output.line(name)
        output.within(_HINTS.get(sort, name.rpartition(".")[2]), body)


def _head(value: object) -> str:
    """A field of the head, its coded words decoded."""
    try:
        parts = decode_header(str(value))
    except ValueError:
        return str(value)
    return "".join(
        one if isinstance(one, str) else decoded(one, None if named == "unknown-8bit" else named)
        for one, named in parts
    )
