"""Hostile documents: what takes much time, memory or room, or leads elsewhere."""

import base64
import bz2
import gzip
import lzma
import struct
import zlib
from collections.abc import Iterator
from io import BytesIO
from zipfile import ZIP_DEFLATED, ZipFile

import harness  # noqa: F401  # it says where the package is

from wumpus.extract import samples  # isort: skip

MANY = 3_000_000
WORD = "W"


def zipped(*members: tuple[str, bytes]) -> bytes:
    """A zip with these members, packed."""
    whole = BytesIO()
    with ZipFile(whole, "w", ZIP_DEFLATED) as file:
        for name, data in members:
            file.writestr(name, data)
    return whole.getvalue()


def office(document: bytes) -> bytes:
    """A docx whose text is this."""
    relations = samples.relations(officeDocument="word/document.xml").encode()
    return zipped(("_rels/.rels", relations), ("word/document.xml", document))


def deep(levels: int, data: bytes) -> bytes:
    """Packed again and again."""
    for _ in range(levels):
        data = gzip.compress(data, mtime=0)
    return data


def zeros_of_zip() -> bytes:
    """A small docx with 300 MB of blanks."""
    packer = zlib.compressobj(1, zlib.DEFLATED, -15)
    packed = b"".join(packer.compress(b" " * (1 << 20)) for _ in range(300)) + packer.flush()
    name = b"word/document.xml"
    sizes = struct.pack("<III", 0, len(packed), 300 << 20)
    local = b"PK\3\4" + struct.pack("<HHHHH", 20, 0, 8, 0, 33) + sizes
    local += struct.pack("<HH", len(name), 0) + name
    central = b"PK\1\2" + struct.pack("<HHHHHH", 20, 20, 0, 8, 0, 33) + sizes
    central += struct.pack("<HHHHHII", len(name), 0, 0, 0, 0, 0, 0) + name
    place = len(local) + len(packed)
    end = b"PK\5\6" + struct.pack("<HHHHIIH", 0, 0, 1, 1, len(central), place, 0)
    return local + packed + central + end


def laughs() -> bytes:
    """XML whose entities grow tenfold with each of ten."""
    entities = b"".join(
        b'<!ENTITY e%d "%s">' % (number, b"&e%d;" % (number - 1) * 10) for number in range(1, 10)
    )
    return b'<!DOCTYPE d [<!ENTITY e0 "W">%s]><d><p><t>&e9;</t></p></d>' % entities


def many_cells() -> bytes:
    """A sheet that names one long text a million times."""
    rows = "<row>" + '<c t="s"><v>0</v></c>' * 1_000_000 + "</row>"
    return samples.xlsx(f"<si><t>{WORD * 100_000}</t></si>", rows)


def pdf_of_stream(stream: bytes, more: bytes = b"") -> bytes:
    """A PDF of one page with this as its packed content, and a form that draws itself."""
    packed = zlib.compress(stream, 9)
    objects = [
        b"<< /Type /Catalog /Pages 2 0 R %s >>" % more,
        b"<< /Type /Pages /Kids [3 0 R] /Count 1 >>",
        b"<< /Type /Page /Parent 2 0 R /MediaBox [0 0 595 842] /Contents 4 0 R"
        b" /Resources << /Font << /F1 5 0 R >> /XObject << /X 6 0 R >> >> >>",
        b"<< /Length %d /Filter /FlateDecode >>\nstream\n%s\nendstream" % (len(packed), packed),
        b"<< /Type /Font /Subtype /Type1 /BaseFont /Helvetica >>",
        b"<< /Type /XObject /Subtype /Form /BBox [0 0 9 9] /Length 10"
        b" /Resources << /XObject << /X 6 0 R >> >> >>\nstream\n/X Do /X Do\nendstream",
    ]
    whole = b"%PDF-1.5\n"
    for number, one in enumerate(objects, 1):
        whole += b"%d 0 obj\n%s\nendobj\n" % (number, one)
    return whole + b"trailer\n<< /Root 1 0 R /Size 7 >>\n%%EOF\n"


def pages_in_a_ring() -> bytes:
    """A PDF whose pages are each other's parents."""
    return (
        b"%PDF-1.4\n1 0 obj\n<< /Type /Catalog /Pages 2 0 R >>\nendobj\n"
        b"2 0 obj\n<< /Type /Pages /Kids [3 0 R] /Count 1000000 >>\nendobj\n"
        b"3 0 obj\n<< /Type /Pages /Kids [2 0 R 2 0 R] /Count 1000000 >>\nendobj\n"
        b"trailer\n<< /Root 1 0 R >>\n%%EOF\n"
    )


def mail_of(parts: int, body: bytes) -> bytes:
    """A mail with many attachments."""
    coded = base64.encodebytes(body)
    part = b"--b\nContent-Type: application/gzip\nContent-Transfer-Encoding: base64\n\n%s\n" % coded
    return b"From: W\nContent-Type: multipart/mixed; boundary=b\n\n" + part * parts + b"--b--\n"


def nested_mail(levels: int) -> bytes:
    """A mail of parts within parts."""
    head = b"From: W\n"
    for number in range(levels):
        head += b"Content-Type: multipart/mixed; boundary=b%d\n\n--b%d\n" % (number, number)
    return head + b"\nW\n"


def bombs() -> Iterator[tuple[str, bytes]]:
    """Names and documents."""
    blanks = b"W " * (1 << 20)
    yield "blanks.gz", gzip.compress(blanks * 10, 1, mtime=0)
    yield "blanks.xz", lzma.compress(blanks * 10, preset=0)
    yield "blanks.bz2", bz2.compress(blanks * 3)
    yield "zeros.gz", gzip.compress(bytes(80 << 20), 1, mtime=0)
    yield "window.xz", lzma.compress(
        b"W", filters=[{"id": lzma.FILTER_LZMA2, "dict_size": 1536 << 20}]
    )
    # A window of 2 GiB, said in the head of a frame.
    yield "window.zst", bytes.fromhex("28b52ffd00a8") + bytes.fromhex("39000077756d7075730a")
    yield "deep.gz", deep(6, b"W\n")
    yield "deep4.gz", deep(4, b"W\n")
    yield "members.gz", gzip.compress(b"", mtime=0) * 200_000
    yield "cut.gz", gzip.compress(blanks, mtime=0)[:-500]
    yield "zeros.docx", zeros_of_zip()
    yield "laughs.docx", office(laughs())
    outside = b'<!DOCTYPE d [<!ENTITY e SYSTEM "file:///etc/passwd">]><t>&e;</t>'
    yield "outside.docx", office(outside)
    yield "attribute.docx", office(b'<d a="%s"><p><t>W</t></p></d>' % (b" " * (20 << 20)))
    yield "deep.docx", office(b"<p>" * 500_000)
    yield "elements.docx", office(b"<d>" + b"<p><t>W</t></p>" * 1_000_000 + b"</d>")
    yield "entries.docx", zipped(*((f"{number}", b"") for number in range(20_001)))
    yield "paths.docx", zipped(("../../../../tmp/wumpus-deed", b"W"), ("/etc/passwd", b"W"))
    yield "cells.xlsx", many_cells()
    yield "spaces.odt", samples.opendocument('<text:p><text:s text:c="1000000000"/>W</text:p>')
    repeated = 'table:number-rows-repeated="1000000"'
    yield "rows.ods", samples.opendocument(
        f"<table:table-row {repeated}><text:p>W</text:p></table:table-row>",
        "application/vnd.oasis.opendocument.spreadsheet",
    )
    yield "ring.epub", samples.epub(*["<p>W"] * 3000)
    yield "angles.html", b"<" * MANY
    yield "tags.html", b"<a " * (MANY // 3)
    yield "attributes.html", b"<a " + b"b=c " * (MANY // 4) + b">"
    yield "comments.html", b"<!--" * (MANY // 4)
    yield "references.html", b"&" * MANY
    yield "numbers.html", b"&#x" + b"9" * MANY
    yield "declared.html", b'<meta charset="idna">W\xff'
    yield "heads.mbox", b"From a b 00:00 2000\n\n" * 100_000
    yield "parts.eml", mail_of(500, deep(1, b"W\n"))
    yield "bombs.eml", mail_of(60, gzip.compress(bytes(20 << 20), 1, mtime=0))
    yield "nested.eml", nested_mail(5000)
    yield "charset.eml", b"Content-Type: text/plain; charset=idna\n\nW\xff\n"
    yield "words.eml", b"Subject: " + b"=?utf-8?q?" * 100_000 + b"\n\nW\n"
    yield "spaces.eml", b"Subject: " + b" " * MANY + b"\n\nW\n"
    yield "marks.txt", b"\xff\xfe" + b"\x01\x03" * (MANY // 2)  # a letter's marks without end
    yield "stream.pdf", pdf_of_stream(b"BT /F1 9 Tf (W) Tj ET " * 3_000_000)
    yield "forms.pdf", pdf_of_stream(b"/X Do")
    yield "ring.pdf", pages_in_a_ring()
    yield "launch.pdf", pdf_of_stream(
        b"BT /F1 9 Tf (W) Tj ET",
        b"/OpenAction << /S /Launch /F (/bin/sh) >> /AA << /WC << /S /JavaScript /JS (W) >> >>",
    )
    yield "numbers.pdf", b"%PDF-1.4\n" + b"1 0 obj " * 500_000
    yield "arrays.pdf", b"%PDF-1.4\n1 0 obj\n" + b"[" * MANY
    yield "nothing.pdf", b"%PDF-"
    yield "nothing.docx", b"PK\x03\x04"
    yield "nothing.gz", b"\x1f\x8b\x08"
