"""Files of OpenDocument: texts, sheets, slides and drawings."""

from .archive import Archive
from .frames import Output
from .markup import Attributes, Fields, attribute, read
from .office import PAGE
from .reasons import Reason, Refusal

# What isn't shown as text: what was deleted with changes tracked, and who wrote a remark and when.
_SKIPPED = frozenset({"tracked-changes", "creator", "date", "date-string", "creator-initials"})
_PARAGRAPHS = frozenset({"p", "h", "title", "desc"})
_SIGNS = {"s": " ", "tab": "\t", "line-break": " "}
_SHEET, _TEXT = b"opendocument.spreadsheet", b"opendocument.text"


class Body:
    """The paragraphs of a document, each a line; in a sheet each row. A page ends with a sign."""

    def __init__(self, output: Output, is_sheet: bool) -> None:
        self.output = output
        self.is_sheet = is_sheet
        self.open: list[list[str]] = []
        self.cells: list[str] = []
        self.rows = 0
        self.skipping = 0

    def begin(self, name: str, attributes: Attributes) -> None:
        """A paragraph, a row, a sign, or something else."""
        if name in _SKIPPED:
            self.skipping += 1
        elif self.skipping:
            return
        elif name in _PARAGRAPHS:
            self.open.append([])
        elif name in _SIGNS and self.open:
            self.open[-1].append(_SIGNS[name])
        elif self.is_sheet and name == "table":
            self.output.line(attribute(attributes, "name"))
        elif name == "table-row":
            self.rows += 1

    def data(self, text: str) -> None:
        """Text of the innermost paragraph."""
        if self.open and not self.skipping:
            self.open[-1].append(text)

    def end(self, name: str) -> None:
        """A paragraph, a row or a page is whole."""
        if name in _SKIPPED:
            self.skipping -= 1
        elif self.skipping:
            return
        elif name in _PARAGRAPHS and self.open:
            self._put("".join(self.open.pop()))
        elif name == "table-row":
            self.rows -= 1
            self._end_row()
        elif name == "page":
            self.output.text(PAGE)

    def _put(self, text: str) -> None:
        if self.is_sheet and self.rows:
            self.cells.append(text)
        else:
            self.output.line(text)

    def _end_row(self) -> None:
        if not self.rows and self.cells:
            self.output.line("\t".join(one for one in self.cells if one))
            self.cells.clear()


def opendocument(data: bytes, output: Output) -> None:
    """Writes what it is about, its text, and then its headers and footers."""
    archive = Archive(data)
    if b"encryption-data" in archive.whole("META-INF/manifest.xml"):
        raise Refusal(Reason.ENCRYPTED)
    fields = Fields("title", "initial-creator", "creator", "subject", "keyword", "description")
    read(archive.pieces("meta.xml"), fields)
    for text in dict.fromkeys(fields.all()):
        output.line(text)
    sort = archive.whole("mimetype")
    read(archive.pieces("content.xml"), Body(output, _SHEET in sort))
    if _TEXT in sort:  # those of sheets and slides are hardly ever of anybody's own words
        read(archive.pieces("styles.xml"), Body(output, False))
