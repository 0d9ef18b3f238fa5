"""The options of `wumpusd`, each with the values that it may have."""

import argparse
import re

from .. import VERSION
from ..shared.numbers import count, seconds, seconds_or_never
from ..shared.persons import SUBORDINATE
from ..shared.store import FOLDER, SOCKETS
from .allowed import Allowed, ranges_of
from .clients import Bounds

CONNECTIONS_AT_MOST = 100_000
BYTES_AT_MOST = 1 << 40
ALL_MAY = 0o666
GROUP_MAY = 0o660


def connections(text: str) -> int:
    """A number of connections."""
    return count(text, CONNECTIONS_AT_MOST)


def size(text: str) -> int:
    """A number of bytes."""
    return count(text, BYTES_AT_MOST)


def mode(text: str) -> int:
    """The mode of the socket, in octal digits: who may write to it may ask."""
    if re.fullmatch("0?[0-7]{3}", text) is None:
        raise argparse.ArgumentTypeError(f"{text!r} isn't three octal digits")
    return int(text, 8)


def ranges(text: str) -> tuple[tuple[int, int], ...]:
    """Users who may ask."""
    try:
        return ranges_of(text)
    except ValueError as error:
        raise argparse.ArgumentTypeError(str(error)) from error


def parser() -> argparse.ArgumentParser:
    """The options."""
    options = argparse.ArgumentParser(
        prog="wumpusd",
        description="Holds one Wumpus and answers its users on a socket.",
        allow_abbrev=False,
    )
    add = options.add_argument
    add("--folder", default=FOLDER, metavar="DIR", help=f"the folder of the store ({FOLDER})")
    add("--program", default="wumpus", metavar="PATH", help="the program (wumpus)")
    add("--sockets", default=SOCKETS, metavar="DIR", help=f"where its sockets are ({SOCKETS})")
    add("--mirror", metavar="PATH", help="run this mirror too, with the words after --")
    add("--mirror-user", metavar="NAME", help="a system account that may be the mirror, too")
    _who_may_ask(options)
    _limits(options, Bounds())
    add("--version", action="version", version=f"wumpusd {VERSION}")
    add("words", nargs="*", metavar="WORD", help="for the mirror: options and roots")
    return options


def _who_may_ask(options: argparse.ArgumentParser) -> None:
    add = options.add_argument
    add("--group", metavar="GROUP", help="who is in this group may ask: a name or a number")
    add("--mode", type=mode, metavar="MODE", help="of the socket (666, with --group 660)")
    add("--allow", type=ranges, action="append", metavar="IDS",
        help="only these users may ask, as 0,1000-59999; may be given again")  # fmt: skip
    add("--refuse-root", action="store_true", help="user 0 may not ask")
    add("--subuid", default=str(SUBORDINATE), metavar="FILE",
        help=f"whose a number of a user is ({SUBORDINATE})")  # fmt: skip


def _limits(options: argparse.ArgumentParser, bounds: Bounds) -> None:
    add = options.add_argument
    add("--stale", type=seconds_or_never, default=bounds.stale_seconds, metavar="SECONDS",
        help="nothing is answered where the mirror's last walk began longer ago "
        f"({bounds.stale_seconds:.0f}; 0: never)")  # fmt: skip
    add("--stale-live", type=seconds_or_never, metavar="SECONDS",
        help="nor where a mirror that the kernel tells of changes is behind for longer "
        f"({bounds.silent_seconds:.0f}, 0 with --stale 0; 0: never)")  # fmt: skip
    add("--query-seconds", type=seconds, default=bounds.query_seconds, metavar="SECONDS",
        help="of the processor, that a query may take "
        f"({bounds.query_seconds:.0f})")  # fmt: skip
    add("--idle-seconds", type=seconds, default=bounds.idle_seconds, metavar="SECONDS",
        help="how long a connection may be silent")  # fmt: skip
    add("--age-seconds", type=seconds, default=bounds.age_seconds, metavar="SECONDS",
        help="how old a connection, and what is known of its groups, may be")  # fmt: skip
    add("--connections", type=connections, default=bounds.connections, metavar="N", help="in all")
    add("--connections-of-user", type=connections, default=bounds.connections_of_user,
        metavar="N", help="of one user, with all numbers that are hers")  # fmt: skip
    add("--reply-bytes", type=size, default=bounds.reply, metavar="N", help="of one reply")


def bounds_of(given: argparse.Namespace) -> Bounds:
    """The limits that the options set. Who wants answers by old rights means all of them."""
    silent = Bounds().silent_seconds if given.stale else 0.0
    return Bounds(
        connections=given.connections,
        connections_of_user=given.connections_of_user,
        reply=given.reply_bytes,
        query_seconds=given.query_seconds,
        idle_seconds=given.idle_seconds,
        age_seconds=given.age_seconds,
        stale_seconds=given.stale,
        silent_seconds=silent if given.stale_live is None else given.stale_live,
    )


def allowed_of(given: argparse.Namespace) -> Allowed:
    """Who may ask."""
    together = None if given.allow is None else tuple(one for told in given.allow for one in told)
    return Allowed(together, not given.refuse_root)


def mode_of(given: argparse.Namespace) -> int:
    """The mode of the socket at which users ask."""
    if given.mode is not None:
        return int(given.mode)
    return ALL_MAY if given.group is None else GROUP_MAY
