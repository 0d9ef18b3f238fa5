"""Texts of wide characters, as UTF-16 and UTF-32, known by the first bytes of a file."""

import codecs

_WIDE = ("utf-16-le", "utf-16-be", "utf-32-le", "utf-32-be")
_LOOKED_AT = 256  # bytes at the front of a text without a mark
_LEAST = 32
_CONTROLS = bytes(code for code in range(0x20) if code not in b"\t\n\r\f")
_MARKS = (
    (codecs.BOM_UTF8, "utf-8"),
    (codecs.BOM_UTF32_LE, "utf-32-le"),
    (codecs.BOM_UTF32_BE, "utf-32-be"),
    (codecs.BOM_UTF16_LE, "utf-16-le"),
    (codecs.BOM_UTF16_BE, "utf-16-be"),
)


def marked(data: bytes) -> tuple[str, int] | None:
    """The coding that a mark of byte order at the beginning tells, and the length of the mark."""
    return next(((name, len(mark)) for mark, name in _MARKS if data.startswith(mark)), None)


def coding_of_front(front: bytes) -> str | None:
    """The coding of a text that begins so; None where it isn't of wide characters.

    One without a mark has a zero in each second byte, and no other control character.
    """
    mark = marked(front)
    if mark is not None:
        return mark[0] if mark[0] in _WIDE else None
    front = front[: min(len(front), _LOOKED_AT) // 2 * 2]
    if len(front) < _LEAST:
        return None
    first, second = front[::2], front[1::2]
    if _is_high(second) and _is_low(first):
        return "utf-16-le"
    return "utf-16-be" if _is_high(first) and _is_low(second) else None


def _is_high(half: bytes) -> bool:
    return not half.strip(b"\0")


def _is_low(half: bytes) -> bool:
    return b"\0" not in half and half == half.translate(None, _CONTROLS)


def is_wide(front: bytes) -> bool:
    """Tells whether what begins so is a text of wide characters."""
    return coding_of_front(front) is not None
