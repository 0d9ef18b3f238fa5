"""The lines that a user may send, and the words with which the service itself refuses.

A query is that of the language without the number of the user, which the service puts in. So
nobody can ask as somebody else, and no line that isn't a query reaches the program.
"""

from .script import LINE_MAX

# How many fields follow the name of a query, the user's number not among them.
# An `export` isn't among them: its reply is counted in bytes, and may be longer than a reply here.
FIELDS = {b"count": 1, b"find": 2, b"rank": 3, b"paths": 0, b"terms": 2, b"top": 2, b"weighed": 3}

# The service's own refusals, beside those of the language.
NOT_A_QUERY = b"refused\tnotquery\n"
LONG_LINE = b"refused\tlongline\n"
NOT_READY = b"refused\tnotready\n"
STALE = b"refused\tstale\n"
NOT_ALLOWED = b"refused\tnotallowed\n"
TOO_SLOW = b"refused\ttooslow\n"
TOO_LARGE = b"refused\ttoolargereply\n"
STOPPED = b"refused\tstopped\n"
NOBODY = b"refused\tnobody\n"
MANY_GROUPS = b"refused\tgroups\n"
TOO_MANY = b"refused\tconnections\n"

ROOM_FOR_USER = 16
QUERY_MAX = LINE_MAX - ROOM_FOR_USER


def line_for(user: int, query: bytes) -> bytes | None:
    """The line that asks the program, of a query without its LF; None where it is no query."""
    name, *fields = query.split(b"\t")
    if FIELDS.get(name) != len(fields) or b"\n" in query:
        return None
    return b"\t".join([name, b"%d" % user, *fields]) + b"\n"
