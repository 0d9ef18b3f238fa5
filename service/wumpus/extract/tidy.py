"""The signs of a text as the program cuts words: ASCII, or spaces.

The program counts each byte from 0x80 on as part of a word, so a word in typographic quotes is
another one than the word alone. Word processors write such signs all the time.
"""

import re
import unicodedata

_QUOTES = "\u2018\u2019\u201a\u201b\u2032\u2035\u2039\u203a"
_DOUBLE_QUOTES = "\u201c\u201d\u201e\u201f\u2033\u2036\u00ab\u00bb\u301d\u301e\u301f"
_DASHES = "\u2010\u2011\u2012\u2013\u2014\u2015\u2212\u2043\ufe58\ufe63\u2e3a\u2e3b"
_SLASHES = "\u2044\u2215\u29f8"
_LIGATURES = ("ff", "fi", "fl", "ffi", "ffl", "st", "st")  # from U+FB00 on
# Soft hyphens, joiners of words, marks of direction, byte order and annotations, variants of signs.
_DROPPED = "\u00ad\u034f\u061c\u180e\u200e\u200f\ufeff" + "".join(
    chr(code)
    for first, last in (
        (0x202A, 0x202E), (0x2060, 0x206F), (0xFE00, 0xFE0F), (0xFFF9, 0xFFFB),
        (0xE0100, 0xE01EF),
    )
    for code in range(first, last + 1)
)  # fmt: skip
_ZERO_WIDTH_SPACE = "\u200b"
_SPACES = ("P", "S", "Z", "Cc")
_KEPT = "\t\n\f"
_WIDE = 0xFEE0  # from a wide sign of ASCII to the sign
_PLANE = 0x10000
_SIGNS_BELOW = 0x20000  # beyond it are letters, and what is dropped or for private use
# For private use are the bullets of old fonts, and no letters that anybody types.
_PRIVATE = "\ue000-\uf8ff"
_PRIVATE_PLANES = 0xF0000


def _table() -> dict[str, str]:
    """What stands for each sign beyond ASCII."""
    table = {}
    for code in range(0x80, _SIGNS_BELOW):
        if unicodedata.category(chr(code)).startswith(_SPACES):
            table[chr(code)] = chr(code - _WIDE) if 0xFF01 <= code <= 0xFF5E else " "
    for characters, sign in (
        (_QUOTES, "'"), (_DOUBLE_QUOTES, '"'), (_DASHES, "-"), (_SLASHES, "/"), (_DROPPED, ""),
    ):  # fmt: skip
        table |= dict.fromkeys(characters, sign)
    table |= {chr(0xFB00 + place): letters for place, letters in enumerate(_LIGATURES)}
    return table | {"\u2026": "...", _ZERO_WIDTH_SPACE: " "}


def _sign_of(found: re.Match[str]) -> str:
    """What stands for a character: itself where it is a letter of a higher plane."""
    character = found.group()
    sign = _TABLE.get(character)
    if sign is not None:
        return sign
    is_private = ord(character) < _PLANE or ord(character) >= _PRIVATE_PLANES
    return " " if is_private else character


_TABLE = _table()
# A class of one plane is looked up by the interpreter at once, and one of many planes isn't: what
# is in the higher ones is looked up in the table.
_IN_FIRST_PLANE = "".join(character for character in _TABLE if ord(character) < _PLANE)
_FOUND = re.compile(f"[{re.escape(_IN_FIRST_PLANE)}{_PRIVATE}\U00010000-\U0010ffff]")
_CONTROLS = {code: " " for code in (*range(0x20), 0x7F) if chr(code) not in _KEPT}


def tidied(text: str) -> str:
    """The text with LF at the ends of lines, composed letters, and signs of ASCII alone."""
    text = text.replace("\r\n", "\n").translate(_CONTROLS)
    if text.isascii():
        return text
    text = unicodedata.normalize("NFC", text)
    return _FOUND.sub(_sign_of, text)
