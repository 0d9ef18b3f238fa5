"""Books of EPUB."""

from urllib.parse import unquote

from .archive import Archive, beside
from .coding import decoded
from .frames import Output
from .markup import Elements, Fields, read
from .page import named_coding, write_chapter
from .reasons import Reason, Refusal

_PAGES = frozenset({"application/xhtml+xml", "text/html"})


def epub(data: bytes, output: Output) -> None:
    """Writes what the book is about, and its chapters in their order."""
    archive = Archive(data)
    roots = Elements("rootfile")
    read(archive.pieces("META-INF/container.xml"), roots)
    if not roots.found:
        raise Refusal(Reason.BROKEN)
    package = roots.found[0][1].get("full-path", "")
    about = Fields("title", "creator", "subject", "description")
    read(archive.pieces(package), about)
    for text in about.all():
        output.line(text)
    for name in _chapters(archive, package):
        page = archive.whole(name)
        write_chapter(decoded(page, named_coding(page)), output)


def _chapters(archive: Archive, package: str) -> list[str]:
    """The names of the chapters, in the order of reading."""
    elements = Elements("item", "itemref")
    read(archive.pieces(package), elements)
    pages = {
        one.get("id", ""): beside(package, unquote(one.get("href", "")))
        for name, one in elements.found
        if name == "item" and one.get("media-type") in _PAGES
    }
    order = [one.get("idref", "") for name, one in elements.found if name == "itemref"]
    return [pages[one] for one in dict.fromkeys(order) if one in pages]
