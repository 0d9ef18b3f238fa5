"""Office files of OOXML: docx, xlsx and pptx."""

from collections.abc import Callable

from .archive import Archive, beside
from .frames import Output
from .markup import Attributes, Elements, Fields, attribute, read

PAGE = "\f\n"
# What isn't shown: deleted with changes tracked, instructions of fields, the form of a paragraph,
# and the second form of what an older program can't show.
_SKIPPED = frozenset({"delText", "instrText", "moveFrom", "Fallback", "pPr", "rPr", "rPh"})
_SIGNS = {"tab": "\t", "br": " ", "cr": " ", "noBreakHyphen": "-", "softHyphen": "", "sym": " "}


class Paragraphs:
    """The paragraphs of a document or a slide, each a line. They may stand in each other."""

    def __init__(self, output: Output, paragraph: str = "p") -> None:
        self.output = output
        self.paragraph = paragraph
        self.open: list[list[str]] = []
        self.skipping = 0
        self.in_text = False

    def begin(self, name: str, _: Attributes) -> None:
        """A paragraph, a run of text, a sign, or something else."""
        if name in _SKIPPED:
            self.skipping += 1
        elif self.skipping:
            return
        elif name == "t":
            self.in_text = True
        elif name == self.paragraph:
            self.open.append([])
        elif name in _SIGNS and self.open:
            self.open[-1].append(_SIGNS[name])

    def data(self, text: str) -> None:
        """Text, where it is that of a run."""
        if self.in_text and self.open:
            self.open[-1].append(text)

    def end(self, name: str) -> None:
        """A paragraph is a line."""
        if name in _SKIPPED:
            self.skipping -= 1
        elif self.skipping:
            return
        elif name == "t":
            self.in_text = False
        elif name == self.paragraph and self.open:
            self.output.line("".join(self.open.pop()))


class Strings:
    """The texts that the cells of all sheets name by their numbers."""

    def __init__(self) -> None:
        self.texts: list[str] = []
        self.parts: list[str] = []
        self.in_text = False
        self.skipping = 0

    def begin(self, name: str, _: Attributes) -> None:
        """A text, or a part of one."""
        self.in_text = name == "t" and not self.skipping
        self.skipping += name in _SKIPPED

    def data(self, text: str) -> None:
        """Text of a part."""
        if self.in_text:
            self.parts.append(text)

    def end(self, name: str) -> None:
        """A text is whole."""
        self.in_text = False
        self.skipping -= name in _SKIPPED
        if name == "si":
            self.texts.append("".join(self.parts))
            self.parts.clear()


class Rows:
    """The rows of a sheet, each a line with tabs between the cells."""

    def __init__(self, output: Output, strings: list[str]) -> None:
        self.output = output
        self.strings = strings
        self.cells: list[str] = []
        self.parts: list[str] = []
        self.by_number = False
        self.in_value = False

    def begin(self, name: str, attributes: Attributes) -> None:
        """A cell, or its value."""
        if name == "c":
            self.by_number = attributes.get("t") == "s"
        self.in_value = name in ("v", "t")

    def data(self, text: str) -> None:
        """Text of a value."""
        if self.in_value:
            self.parts.append(text)

    def end(self, name: str) -> None:
        """A cell or a row is whole."""
        self.in_value = False
        if name == "c":
            self.cells.append(self._value("".join(self.parts)))
            self.parts.clear()
        elif name == "row":
            self.output.line("\t".join(one for one in self.cells if one))
            self.cells.clear()

    def _value(self, text: str) -> str:
        if not self.by_number:
            return text
        number = int(text) if text.isascii() and text.isdigit() else -1
        return self.strings[number] if 0 <= number < len(self.strings) else ""


def _about(archive: Archive, output: Output) -> None:
    """Title, author, subject, keywords and description."""
    fields = Fields("title", "creator", "subject", "keywords", "description")
    read(archive.pieces("docProps/core.xml"), fields)
    for text in fields.all():
        output.line(text)


def _related(archive: Archive, part: str) -> dict[str, tuple[str, str]]:
    """The parts that a part names: by the number that it gives each, its sort and its name."""
    folder, _, name = part.rpartition("/")
    relations = Elements("Relationship")
    read(archive.pieces(f"{folder}/_rels/{name}.rels".lstrip("/")), relations)
    return {
        one.get("Id", ""): (one.get("Type", "").rpartition("/")[2], beside(part, one["Target"]))
        for _, one in relations.found
        if one.get("Target") and one.get("TargetMode") != "External"
    }


def _main_part(archive: Archive, usual: str) -> str:
    """The name of the part with which reading begins."""
    for sort, name in _related(archive, "").values():
        if sort == "officeDocument" and name in archive.members:
            return name
    return usual


def _parts(archive: Archive, main: str, element: str) -> list[tuple[str, Attributes]]:
    """The parts that the main part lists in its order, each with the attributes of its element."""
    listed = Elements(element)
    read(archive.pieces(main), listed)
    related = _related(archive, main)
    found = []
    for _, attributes in listed.found:
        number = attribute(attributes, "id", "relationships")
        if number in related:
            found.append((related[number][1], attributes))
    return found


def docx(data: bytes, output: Output) -> None:
    """Writes a text: its own, and then headers, footers and notes."""
    archive = Archive(data)
    _about(archive, output)
    main = _main_part(archive, "word/document.xml")
    beginnings = ("header", "footer", "footnotes", "endnotes", "comments", "diagrams/data")
    others = archive.named(*(f"word/{one}" for one in beginnings))
    for name in (main, *others):
        read(archive.pieces(name), Paragraphs(output))


def xlsx(data: bytes, output: Output) -> None:
    """Writes the sheets: the name of each, and its rows; and then remarks and texts in drawings."""
    archive = Archive(data)
    _about(archive, output)
    main = _main_part(archive, "xl/workbook.xml")
    strings = Strings()
    named = [name for sort, name in _related(archive, main).values() if sort == "sharedStrings"]
    for name in named[:1]:
        read(archive.pieces(name), strings)
    for name, attributes in _parts(archive, main, "sheet"):
        output.line(attributes.get("name", ""))
        read(archive.pieces(name), Rows(output, strings.texts))
    for name in archive.named("xl/comments", "xl/threadedComments/"):
        read(archive.pieces(name), _remarks(name, output))
    for name in archive.named("xl/drawings/drawing"):
        read(archive.pieces(name), Paragraphs(output))


def _remarks(name: str, output: Output) -> Paragraphs:
    return _Threads(output) if "threaded" in name else Paragraphs(output, "comment")


class _Threads(Paragraphs):
    """Remarks whose text is in an element of another name."""

    def __init__(self, output: Output) -> None:
        super().__init__(output, "threadedComment")

    def data(self, text: str) -> None:
        """Each text is that of a remark."""
        if self.open:
            self.open[-1].append(text)


def pptx(data: bytes, output: Output) -> None:
    """Writes the slides, each with its notes."""
    archive = Archive(data)
    _about(archive, output)
    main = _main_part(archive, "ppt/presentation.xml")
    for slide, _ in _parts(archive, main, "sldId"):
        read(archive.pieces(slide), Paragraphs(output))
        for sort, name in _related(archive, slide).values():
            if sort in ("notesSlide", "comments"):
                read(archive.pieces(name), Paragraphs(output))
        output.text(PAGE)


OFFICE: dict[str, Callable[[bytes, Output], None]] = {"docx": docx, "xlsx": xlsx, "pptx": pptx}
