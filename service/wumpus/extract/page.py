"""Pages of HTML, by the interpreter's own reader of them."""

import re
from html import unescape
from html.parser import HTMLParser

from .coding import coding_of, decoded
from .frames import Output
from .front import marked
from .reasons import Reason, Refusal

_FRONT = 8192
# A coding is named in the first 1,024 bytes.
_NAMED_WITHIN = 1024
_NAMED = re.compile(rb"(?:charset\s*=|encoding\s*=)\s*[\"']?\s*([-\w.:]{1,40})", re.IGNORECASE)

# Elements that end no word. All others stand beside each other, or below.
_INLINE = frozenset(
    "a abbr acronym b bdi bdo big cite code data del dfn em font i ins kbd label mark nobr q"
    " rb ruby s samp small span strike strong sub sup time tt u var wbr".split()
)
_NOT_TEXT = frozenset({"script", "style"})
_ABOUT = frozenset({"description", "keywords", "author"})
_SHOWN = ("alt", "title")


class Page(HTMLParser):
    """Writes what is text, and a line feed for each that the page has, wherever it stands there."""

    def __init__(self, output: Output) -> None:
        super().__init__(convert_charrefs=False)
        self.output = output
        self.line = 1  # of the page, which what is written has reached
        self.silent = False

    def reach(self) -> None:
        """Writes the line feeds of what was read since, as of tags."""
        line = self.getpos()[0]
        if line > self.line:
            self.output.text("\n" * (line - self.line))
            self.line = line

    def part(self) -> None:
        """Ends a word."""
        self.put(" ")

    def put(self, text: str) -> None:
        """Writes text that has no line feed in the page."""
        self.reach()
        self.output.text(text.replace("\n", " ").replace("\f", " "))

    def handle_starttag(self, tag: str, attrs: list[tuple[str, str | None]]) -> None:
        """A tag ends a word, if it isn't of those that stand within words."""
        self.silent = tag in _NOT_TEXT
        if tag not in _INLINE:
            self.part()
        for text in _texts_of(tag, attrs):
            self.put(f" {text} ")

    def handle_startendtag(self, tag: str, attrs: list[tuple[str, str | None]]) -> None:
        """A tag that ends at once has nothing within it."""
        self.handle_starttag(tag, attrs)
        self.silent = False

    def handle_endtag(self, tag: str) -> None:
        """The end of an element ends a word too."""
        self.silent = False
        if tag not in _INLINE:
            self.part()

    def handle_data(self, data: str) -> None:
        """Text, with the line feeds of the page."""
        self.reach()
        lines = data.count("\n")
        self.output.text("\n" * lines if self.silent else data.replace("\f", " "))
        self.line += lines

    def handle_charref(self, name: str) -> None:
        """A character by its number."""
        self.put(unescape(f"&#{name};"))

    def handle_entityref(self, name: str) -> None:
        """A character by its name, or no such thing, which is text."""
        told = unescape(f"&{name};")
        self.put(f"&{name}" if told == f"&{name};" else told)


class Chapter(Page):
    """A page within another document, where a line is a paragraph."""

    def __init__(self, output: Output) -> None:
        super().__init__(output)
        self.words: list[str] = []

    def reach(self) -> None:
        """Line feeds of the page are blanks."""

    def part(self) -> None:
        """Ends a line."""
        self.output.line(" ".join("".join(self.words).split()))
        self.words.clear()

    def put(self, text: str) -> None:
        """Puts text into the line."""
        self.words.append(text)

    def handle_data(self, data: str) -> None:
        """Text, whose blanks are all alike."""
        if not self.silent:
            self.words.append(data)

    def close(self) -> None:
        """Ends the last line."""
        super().close()
        self.part()


def _texts_of(tag: str, attrs: list[tuple[str, str | None]]) -> list[str]:
    """The texts that stand in attributes and are for readers."""
    given = {name: value for name, value in attrs if value}
    if tag == "meta":
        return [given.get("content", "")] if given.get("name", "").lower() in _ABOUT else []
    return [given[name] for name in _SHOWN if name in given]


def named_coding(data: bytes) -> str | None:
    """The coding that a page names at its beginning."""
    found = _NAMED.search(data[:_NAMED_WITHIN])
    named = found.group(1).decode("ascii", "replace") if found else ""
    coding = coding_of(named)
    # A page that could be read so far isn't of wide characters, whatever it says.
    return None if coding is None or coding.startswith(("utf-16", "utf-32")) else coding


def write_chapter(text: str, output: Output) -> None:
    """Writes the text of a page within another document."""
    _write(text, Chapter(output))


def _write(text: str, page: Page) -> None:
    page.feed(text.replace("\r\n", "\n"))
    page.close()


def html(data: bytes, output: Output) -> None:
    """Writes the text of a page, whose lines are those of the file."""
    if b"\0" in data[:_FRONT] and marked(data) is None:
        raise Refusal(Reason.BROKEN)
    _write(decoded(data, named_coding(data)), Page(output))
