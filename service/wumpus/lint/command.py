"""The command line of `wumpus-lint`: reads a script beside its replies, and explains refusals."""

import argparse
import sys
from collections.abc import Iterator
from dataclasses import dataclass
from pathlib import Path

from .. import VERSION
from ..shared.progress import plain
from ..shared.script import (
    LINE_MAX,
    NUMBER_MAX,
    SHOWN_MAX,
    TEXT_MAX,
    BadReply,
    lines_after,
    unescape,
)

NONE, REFUSED, TROUBLE = 0, 1, 2
LENGTH_MAX = 1 << 40
WORK_MAX = 1_000_000

# The fields after a command's name: a node, a number, a mode, a name or other text, how many to
# show, the length of a text, an amount of work, an access list. `*` is none or more numbers.
SHAPES = {
    b"user": "number *",
    b"mkdir": "node node name number number mode",
    b"create": "node node name number number mode",
    b"text": "node length",
    b"link": "node node name",
    b"unlink": "node name",
    b"rmdir": "node name",
    b"rename": "node name node name",
    b"chmod": "node mode",
    b"chown": "node number number",
    b"acl": "node list",
    b"count": "number text",
    b"find": "number shown text",
    b"rank": "number shown text text",
    b"paths": "number",
    b"terms": "number shown text",
    b"top": "number shown text",
    b"export": "number",
    b"weighed": "number shown text text",
    b"save": "",
    b"flush": "",
    b"work": "work",
    b"stat": "",
}
GREATEST = {
    "node": NUMBER_MAX,
    "number": NUMBER_MAX,
    "shown": SHOWN_MAX,
    "length": LENGTH_MAX,
    "work": WORK_MAX,
}

REASONS = {
    b"longline": f"the line has more than {LINE_MAX} bytes",
    b"truncated": "the input ends before the text has as many bytes as its line says",
    b"toolong": f"a text has at most {TEXT_MAX} bytes",
    b"badbody": "the text doesn't end where its line says: count its bytes, not its characters",
    b"badname": "a name has 1 to 255 bytes, none of them / or NUL, and isn't . or ..",
    b"nosuch": "there is no node of that number, or nothing has that name",
    b"kind": "a file where a directory is due, or the other way round",
    b"exists": "the number is in use, or the name is in the directory",
    b"deep": "a directory would be deeper than 255",
    b"loop": "a directory would lie in itself",
    b"notempty": "the directory has entries",
    b"notexpr": "the expression isn't one: words stand in quotes, and file and line alone don't",
    b"toolarge": "the expression has more than 63 operators or 64 parentheses",
    b"noword": "there is no word: a word is of letters and digits",
    b"badwindow": "a window is [1] to [65535]",
    b"manywords": "a ranking takes at most 64 words",
    b"badprefix": "a prefix is empty, or letters and digits alone",
}


@dataclass(frozen=True)
class Item:
    """A command of a script: the number of its line, counted from 1, and the line."""

    number: int
    line: bytes


def items_of(script: bytes) -> Iterator[Item]:
    """The commands of a script, without its blank lines, comments and the bodies of texts."""
    at = 0
    number = 1
    while at < len(script):
        line, after = _line_at(script, at)
        here = number
        number += 1
        blank = not line or line.startswith(b"#") and len(line) <= LINE_MAX
        length = None if blank else body_length(line)
        if length is not None:
            _, end = _line_at(script, min(after + length, len(script)))
            number += script.count(b"\n", after, end)
            after = end
        at = after
        if not blank:
            yield Item(here, line)


def _line_at(script: bytes, at: int) -> tuple[bytes, int]:
    """The line that begins there, and where the next one does."""
    end = script.find(b"\n", at)
    return (script[at:], len(script)) if end < 0 else (script[at:end], end + 1)


def body_length(line: bytes) -> int | None:
    """How many bytes of a text follow the line; None where it is no line of a text."""
    fields = line.split(b"\t")
    if fields[0] != b"text" or len(line) > LINE_MAX or reason_of_form(line) is not None:
        return None
    return int(fields[2])


def reason_of_form(line: bytes) -> str | None:
    """Why a line is refused for its form, in words; None where its form is right."""
    fields = line.split(b"\t")
    if any(unescape(field) is None for field in fields):
        return "a backslash is followed by something else than a backslash, t or n"
    name = fields[0]
    if name not in SHAPES:
        return _reason_of_name(line, name)
    shape = SHAPES[name].split()
    if shape and shape[-1] == "*":
        shape = ["number"] * max(1, len(fields) - 1)
    if len(fields) - 1 != len(shape):
        return _reason_of_count(line, shape, len(fields) - 1)
    for kind, field in zip(shape, fields[1:]):
        told = _reason_of_field(kind, field)
        if told is not None:
            return told
    return None


def _reason_of_name(line: bytes, name: bytes) -> str:
    """Why the first field is no command."""
    first = name.split(b" ")[0].split(b"\r")[0]
    if name.endswith(b"\r") and name[:-1] in SHAPES:
        return "the line ends with CR LF: lines end with LF alone"
    if first in SHAPES and b" " in name:
        return "spaces stand where a TAB is due between two fields"
    if first.lower() in SHAPES:
        return f"commands are in lower case: {first.lower().decode()}"
    if line.startswith((b" ", b"\t")):
        return "the line begins with a space or a TAB"
    if name.startswith(b"\xef\xbb\xbf"):
        return "the script begins with a byte order mark"
    return f"there is no command {plain(name[:40].decode('utf-8', 'replace'))}"


def _reason_of_count(line: bytes, shape: list[str], count: int) -> str:
    """Why the number of fields is wrong."""
    due = f"{len(shape)} fields are due after the command ({', '.join(shape) or 'none'})"
    told = f"{due}, and there are {count}"
    if count < len(shape) and b" " in line:
        return told + ": do spaces stand where a TAB is due?"
    if count > len(shape) and "name" in shape + ["text"] and b"\t" in line:
        return told + ": a TAB in a name or an expression is written \\t"
    return told


def _reason_of_field(kind: str, field: bytes) -> str | None:
    """Why a field isn't what is due there."""
    told = plain(field[:40].decode("utf-8", "replace"))
    if field.endswith(b"\r"):
        return "the line ends with CR LF: lines end with LF alone"
    if kind == "mode":
        if len(field) in (3, 4) and all(0x30 <= one <= 0x37 for one in field):
            return None
        return f"{told} is no mode: three or four octal digits, as 640"
    if kind in ("name", "text", "list"):
        return None if kind != "list" else _reason_of_list(field, told)
    if not field.isdigit():
        if field.startswith(b"/"):
            return f"{told} is a path: nodes are named by their numbers"
        return f"{told} is no number"
    if len(field) > 1 and field.startswith(b"0"):
        return f"{told}: numbers have no leading zeros"
    if int(field) > GREATEST[kind]:
        bits = ", past 32 bits" if GREATEST[kind] == NUMBER_MAX else ""
        return f"{told} is over {GREATEST[kind]}{bits}"
    if int(field) == 0 and kind in ("node", "work"):
        return "0 is no node" if kind == "node" else "the least work is 1"
    return None


def _reason_of_list(field: bytes, told: str) -> str | None:
    """Why an access list isn't one."""
    entries = field.split(b",")
    if not field:
        return None
    if len(entries) < 2 or not entries[0].startswith(b"g::"):
        return f"{told}: a list begins with g::B, for the node's group"
    if not entries[-1].startswith(b"m::"):
        return f"{told}: a list ends with m::B, its mask"
    order: list[tuple[int, int]] = []
    for entry in entries:
        parts = entry.split(b":")
        if len(parts) != 3 or len(parts[2]) != 1 or not b"0" <= parts[2] <= b"7":
            return f"{told}: an entry is g::B, u:USER:B, g:GROUP:B or m::B, with a digit 0 to 7"
    for entry in entries[1:-1]:
        kind, who, _ = entry.split(b":")
        if kind not in (b"u", b"g") or not who.isdigit() or int(who) > NUMBER_MAX:
            return f"{told}: between the first and the last entry stand u:USER:B and g:GROUP:B"
        order.append((0 if kind == b"u" else 1, int(who)))
    if order != sorted(set(order)):
        return f"{told}: users come before groups, and numbers ascend"
    return None


def replies_of(replies: bytes) -> Iterator[bytes]:
    """The first line of each reply. Raises `BadReply`."""
    at = 0
    while at < len(replies):
        first, at = _line_at(replies, at)
        yield first
        if first.startswith(b"export\t"):
            at += bytes_after(first)
            continue
        for _ in range(lines_after(first)):
            _, at = _line_at(replies, at)


def bytes_after(first: bytes) -> int:
    """How many bytes follow the first line of the reply to an export. Raises `BadReply`."""
    size = first.split(b"\t")[1]
    if not size.isdigit():
        raise BadReply(f"an export without its size: {first[:80]!r}")
    return int(size) + 1


def reason_of(item: Item, reply: bytes) -> str:
    """Why a line was refused, in words."""
    word = reply.split(b"\t")[-1]
    if word == b"syntax":
        return reason_of_form(item.line) or "its form; wumpus-lint sees nothing wrong with it"
    return REASONS.get(word, "a reason that wumpus-lint doesn't know")


def lint(script: bytes, replies: bytes) -> int:
    """Prints a line for each refused one: the exit status. Raises `BadReply`."""
    answers = replies_of(replies)
    refused = unanswered = 0
    for item in items_of(script):
        reply = next(answers, None)
        if reply is None:
            unanswered += 1
        elif reply.startswith(b"refused\t"):
            refused += 1
            word = reply.split(b"\t")[-1].decode("utf-8", "replace")
            print(f"line {item.number}: {plain(word)}: {reason_of(item, reply)}")
    left = sum(1 for _ in answers)
    if unanswered:
        print(f"the last {unanswered} commands have no reply: the session ended before them")
    if left:
        print(f"{left} replies too many: these aren't the replies to this script")
        return TROUBLE
    print(f"{refused} lines refused")
    return REFUSED if refused else NONE


def parser() -> argparse.ArgumentParser:
    """The options."""
    options = argparse.ArgumentParser(
        prog="wumpus-lint",
        description="Tells why lines of a script were refused, from the replies to it.",
        epilog="Exit status: 0 no line was refused, 1 some were, 2 trouble.",
        allow_abbrev=False,
    )
    options.add_argument("script", metavar="SCRIPT", help="what wumpus run was given")
    options.add_argument("replies", metavar="REPLIES", help="what it answered")
    options.add_argument("--version", action="version", version=f"wumpus-lint {VERSION}")
    return options


def main() -> int:
    """Runs the command line."""
    given = parser().parse_args()
    try:
        return lint(Path(given.script).read_bytes(), Path(given.replies).read_bytes())
    except (OSError, BadReply) as error:
        print(f"wumpus-lint: {plain(str(error))}", file=sys.stderr)
        return TROUBLE
