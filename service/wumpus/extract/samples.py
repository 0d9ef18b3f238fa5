"""A small document of each kind, made here, that says one word.

Each filter reads its own before there is any other document, so that all is loaded that it needs:
behind the walls nothing can be loaded, no module, no coding and no library. A worker reads it again
behind the walls, and has to find the word.
"""

import bz2
import gzip
import lzma
import zipfile
from email.mime.multipart import MIMEMultipart
from email.mime.text import MIMEText
from io import BytesIO

WORD = "wumpus"
_SMALL = lzma.FORMAT_XZ
_OFFICE = "http://schemas.openxmlformats.org/officeDocument/2006/relationships"
_RELATIONS = "http://schemas.openxmlformats.org/package/2006/relationships"
_OPEN = "application/vnd.oasis.opendocument.text"


def zipped(members: dict[str, str]) -> bytes:
    """A zip with some members, whose first one isn't packed."""
    whole = BytesIO()
    with zipfile.ZipFile(whole, "w") as file:
        for name, text in members.items():
            how = zipfile.ZIP_DEFLATED if file.infolist() else zipfile.ZIP_STORED
            # One date for all: what is made is the same each time.
            file.writestr(zipfile.ZipInfo(name), text.encode("utf-8"), how)
    return whole.getvalue()


def relations(**targets: str) -> str:
    """The relations of a part of an office file: the sort of each, and its target."""
    each = "".join(
        f'<Relationship Id="{sort}" Type="{_OFFICE}/{sort}" Target="{target}"/>'
        for sort, target in targets.items()
    )
    return f'<Relationships xmlns="{_RELATIONS}">{each}</Relationships>'


def docx(body: str) -> bytes:
    """A text with these paragraphs, as XML with the prefix `w`."""
    return zipped({
        "_rels/.rels": relations(officeDocument="word/document.xml"),
        "word/document.xml": f'<w:document xmlns:w="urn:w"><w:body>{body}</w:body></w:document>',
    })  # fmt: skip


def xlsx(strings: str, rows: str) -> bytes:
    """A sheet with these rows, and the texts that they name by number."""
    return zipped({
        "_rels/.rels": relations(officeDocument="xl/workbook.xml"),
        "xl/workbook.xml": f'<workbook xmlns:r="{_OFFICE}"><sheets><sheet name="Sheet"'
        ' r:id="worksheet"/></sheets></workbook>',
        "xl/_rels/workbook.xml.rels": relations(
            worksheet="worksheets/sheet1.xml", sharedStrings="sharedStrings.xml"
        ),
        "xl/sharedStrings.xml": f"<sst>{strings}</sst>",
        "xl/worksheets/sheet1.xml": f"<worksheet><sheetData>{rows}</sheetData></worksheet>",
    })  # fmt: skip


def pptx(body: str) -> bytes:
    """A slide with these paragraphs, as XML with the prefix `a`."""
    return zipped({
        "_rels/.rels": relations(officeDocument="ppt/presentation.xml"),
        "ppt/presentation.xml": f'<presentation xmlns:r="{_OFFICE}"><sldIdLst>'
        '<sldId id="256" r:id="slide"/></sldIdLst></presentation>',
        "ppt/_rels/presentation.xml.rels": relations(slide="slides/slide1.xml"),
        "ppt/slides/slide1.xml": f'<sld xmlns:a="urn:a">{body}</sld>',
    })  # fmt: skip


def opendocument(body: str, sort: str = _OPEN) -> bytes:
    """A document with this body, as XML with the prefixes `text`, `table` and `draw`."""
    spaces = 'xmlns:text="urn:text" xmlns:table="urn:table" xmlns:draw="urn:draw"'
    return zipped({"mimetype": sort, "content.xml": f"<body {spaces}>{body}</body>"})


def epub(*pages: str) -> bytes:
    """A book with these pages of HTML."""
    names = [f"page{number}.html" for number in range(len(pages))]
    items = "".join(
        f'<item id="{name}" href="{name}" media-type="application/xhtml+xml"/>' for name in names
    )
    order = "".join(f'<itemref idref="{name}"/>' for name in names)
    return zipped({
        "mimetype": "application/epub+zip",
        "META-INF/container.xml": '<container><rootfile full-path="O/book.opf"/></container>',
        "O/book.opf": f"<package><manifest>{items}</manifest><spine>{order}</spine></package>",
        **{f"O/{name}": page for name, page in zip(names, pages, strict=True)},
    })  # fmt: skip


def mail(text: str) -> bytes:
    """A mail with a text in two forms."""
    whole = MIMEMultipart("alternative")
    whole["Subject"] = "=?utf-8?q?a_mail?= about =?iso-8859-1?b?4Q==?="
    whole.attach(MIMEText(text, "plain", "utf-8"))
    whole.attach(MIMEText(f"<p>{text}</p>", "html", "utf-8"))
    whole.set_boundary("sample")
    return whole.as_bytes()


def pdf(text: str, title: str = "") -> bytes:
    """A PDF of one page that says this, in letters of ASCII, and has a title if so."""
    stream = f"BT /F1 12 Tf 72 700 Td ({text}) Tj ET"
    objects = (
        "<< /Type /Catalog /Pages 2 0 R >>",
        "<< /Type /Pages /Kids [3 0 R] /Count 1 >>",
        "<< /Type /Page /Parent 2 0 R /MediaBox [0 0 595 842] /Contents 4 0 R"
        " /Resources << /Font << /F1 5 0 R >> >> >>",
        f"<< /Length {len(stream)} >>\nstream\n{stream}\nendstream",
        "<< /Type /Font /Subtype /Type1 /BaseFont /Helvetica /Encoding /WinAnsiEncoding >>",
        f"<< /Title ({title}) >>",
    )
    whole = "%PDF-1.4\n"
    places = []
    for number, one in enumerate(objects, 1):
        places.append(len(whole))
        whole += f"{number} 0 obj\n{one}\nendobj\n"
    table = "".join(f"{place:010} 00000 n \n" for place in places)
    count = len(objects) + 1
    about = "/Info 6 0 R " if title else ""
    end = f"trailer\n<< /Size {count} /Root 1 0 R {about}>>\nstartxref\n{len(whole)}\n%%EOF\n"
    return f"{whole}xref\n0 {count}\n0000000000 65535 f \n{table}{end}".encode("ascii")


_TEXT = f"{WORD}\n".encode("ascii")
# Made by zstd, which the interpreter doesn't have.
_ZSTD = bytes.fromhex("28b52ffd200739000077756d7075730a")

OF_FILTER: dict[str, bytes] = {
    "plain": _TEXT,
    "written": _TEXT,
    "docx": docx(f"<w:p><w:r><w:t>{WORD}</w:t></w:r></w:p>"),
    "xlsx": xlsx(f"<si><t>{WORD}</t></si>", '<row><c t="s"><v>0</v></c></row>'),
    "pptx": pptx(f"<a:p><a:r><a:t>{WORD}</a:t></a:r></a:p>"),
    "odf": opendocument(f"<text:p>{WORD}</text:p>"),
    "epub": epub(f"<p>{WORD}</p>"),
    "html": f"<!DOCTYPE html><title>&eacute;&#233;</title><p>{WORD}".encode("ascii"),
    "mail": mail(WORD),
    "gz": gzip.compress(_TEXT, mtime=0),
    "xz": lzma.compress(_TEXT, _SMALL, preset=0),
    "bz2": bz2.compress(_TEXT),
    "zst": _ZSTD,
    "wide": f"{WORD}\n".encode("utf-16"),
}
