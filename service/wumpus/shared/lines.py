"""The lines of a file, or of a document's text, and how the place of each is told."""

from dataclasses import dataclass, field


@dataclass(frozen=True)
class Lines:
    """Lines without LF and form feeds.

    `pages` has the page or slide of each, where there are any. `is_file` tells whether they are
    those of the file itself, or of what is packed in it: else they are paragraphs, or rows.
    """

    lines: list[bytes]
    pages: list[int] = field(default_factory=list)
    is_file: bool = True

    def page(self, number: int) -> int | None:
        """The page of a line, whose number begins with 1; None where there are no pages."""
        return self.pages[number - 1] if self.pages else None

    def place(self, number: int) -> str:
        """What stands before a line: its number in the file, its page, or its paragraph."""
        page = self.page(number)
        if page is not None:
            return f"p. {page}"
        return str(number) if self.is_file else f"par. {number}"
