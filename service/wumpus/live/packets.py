"""What goes between the mirror and `wumpus-watch`: one packet asks, and one answers.

`group` is answered `ok`, with the descriptor of a new group. `mark` comes with that of a group and
with that of a directory, whose file system is marked in it, and is answered `ok`; `mark-all` does
the same for changes by which nothing becomes less, too. Each may be answered `failed` and an
error's number.
"""

SOCKET = "/run/wumpus-watch/socket"
GROUP = b"group"
MARK = b"mark"
MARK_ALL = b"mark-all"
OK = b"ok"
FAILED = b"failed"
SIZE_MAX = 64  # bytes of a packet
FILES_MAX = 2


def failed(error: int) -> bytes:
    """The answer where something failed."""
    return b"%b %d" % (FAILED, error)


def error_in(answer: bytes) -> int | None:
    """The error's number in an answer, 0 for `ok`; None where it is no answer."""
    if answer == OK:
        return 0
    word, _, number = answer.partition(b" ")
    is_one = word == FAILED and number.isdigit() and len(number) <= 4
    return int(number) if is_one else None
