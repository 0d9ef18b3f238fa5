"""Which files are fed as they are, by their first bytes."""

FRONT = 8192  # bytes of a file that decide
PDF = b"%PDF-"
PDF_WITHIN = 1024  # where readers of PDFs look for that mark


def is_text(front: bytes) -> bool:
    """Tells whether a file that begins so is fed as it is: it has no NUL there, and is no PDF.

    A PDF may spell all its streams in letters. Then it has no NUL, and nothing but garbage for
    words.
    """
    return b"\0" not in front[:FRONT] and not is_pdf(front)


def is_pdf(front: bytes) -> bool:
    """Tells whether a file that begins so is a PDF."""
    return PDF in front[:PDF_WITHIN]
