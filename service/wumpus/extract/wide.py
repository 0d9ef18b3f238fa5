"""Texts of wide characters, as UTF-16 and UTF-32, with a mark of byte order or without one."""

from .coding import decoded
from .frames import Output
from .front import coding_of_front, marked
from .reasons import Reason, Refusal


def wide(data: bytes, output: Output) -> None:
    """Writes the text, whose lines are those of the document."""
    coding = coding_of_front(data)
    if coding is None:
        raise Refusal(Reason.BROKEN)
    mark = marked(data)
    size = 4 if coding.startswith("utf-32") else 2
    # Something else that begins with such a mark is hardly ever good text.
    whole = data[mark[1] if mark else 0 : len(data) // size * size]
    output.text(whole.decode(coding))


def plain(data: bytes, output: Output) -> None:
    """Writes a text of bytes, as it was packed in another document."""
    output.text(decoded(data))
