"""The lines of the script language: how they are spelled, and how replies are read.

The language is told in docs/SCRIPT.md. A line is its fields with one TAB between them; `\\`, `\t`
and `\n` in a field are a backslash, a TAB and a LF.
"""

import re

LINE_MAX = 65_536
TEXT_MAX = 16_777_216
NUMBER_MAX = 4_294_967_295
SHOWN_MAX = 10_000
NAME_MAX = 255
DEPTH_MAX = 255

# How many lines follow the first one of a reply is the field at this place of it.
_LINES_AT = {b"paths": 1, b"find": 3, b"rank": 2, b"terms": 2, b"top": 2}
_ONE_LINE = {b"ok", b"refused", b"count", b"weighed", b"idle", b"busy", b"stat"}
_ESCAPED = re.compile(rb"[\\\t\n]")
_ESCAPES = {b"\\": b"\\\\", b"\t": b"\\t", b"\n": b"\\n"}
_UNESCAPES = {b"\\\\": b"\\", b"\\t": b"\t", b"\\n": b"\n"}


class BadReply(Exception):
    """The program's reply isn't one that the language has."""


def escape(field: bytes) -> bytes:
    """The field as it stands in a line."""
    if _ESCAPED.search(field) is None:
        return field
    return _ESCAPED.sub(lambda found: _ESCAPES[found.group()], field)


def unescape(field: bytes) -> bytes | None:
    """What a field of a line says, or None where a backslash is followed by something else."""
    if b"\\" not in field:
        return field
    if re.fullmatch(rb"(?:[^\\]|\\[\\tn])*", field, re.DOTALL) is None:
        return None
    return re.sub(rb"\\[\\tn]", lambda found: _UNESCAPES[found.group()], field)


def spell(*fields: bytes | int) -> bytes:
    """The line of these fields, with its LF: numbers in decimal, byte strings escaped.

    A number that no line can have raises `ValueError`, so that none is refused for its form.
    """
    spelled = []
    for field in fields:
        if not isinstance(field, int):
            spelled.append(escape(field))
        elif 0 <= field <= NUMBER_MAX:
            spelled.append(b"%d" % field)
        else:
            raise ValueError(f"{field} is no number of a line")
    return b"\t".join(spelled) + b"\n"


def spell_user(user: int, groups: tuple[int, ...]) -> bytes | None:
    """The line that sets a user's groups, or None where they are too many for a line."""
    line = spell(b"user", user, *groups)
    return line if len(line) <= LINE_MAX else None


def spell_mode(mode: int) -> bytes:
    """The field of a mode: its low twelve bits as three or four octal digits."""
    return b"%03o" % (mode & 0o7777)


def lines_after(first: bytes) -> int:
    """How many lines follow the first line of a reply, which is given without its LF.

    Raises `BadReply` where no reply begins so, and for an export, which is counted in bytes.
    """
    fields = first.split(b"\t")
    place = _LINES_AT.get(fields[0])
    if place is None:
        if fields[0] in _ONE_LINE:
            return 0
        raise BadReply(f"no reply begins so: {first[:80]!r}")
    if len(fields) <= place or not fields[place].isdigit():
        raise BadReply(f"a reply without its count: {first[:80]!r}")
    return int(fields[place])
