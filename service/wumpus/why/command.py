"""The command line of `wumpus-why`."""

import argparse
import json
import os
import sys
from pathlib import Path

from .. import VERSION
from ..mirror.state import BadState
from ..shared.progress import plain
from ..status.files import BadStatus, add_folders, folders_of
from .report import as_json, report
from .users import BadUser, user_of
from .verdict import judge, read
from .wanted import EXCLUDES, SETTINGS, wanted_by

TOLD, NOT_TOLD, TROUBLE = 0, 1, 2


class Trouble(Exception):
    """Nothing was found out; the text says why."""


def parser() -> argparse.ArgumentParser:
    """The options."""
    options = argparse.ArgumentParser(
        prog="wumpus-why",
        description="Tells why a user is told of a file, or isn't, step by step.",
        epilog="Exit status: 0 she is told of it, 1 she isn't, 2 trouble.",
        allow_abbrev=False,
    )
    add = options.add_argument
    add("path", metavar="PATH", help="the file")
    add("user", metavar="USER", help="a user's name or number")
    add("--groups", metavar="GID,..", help="her groups, in place of those of the system")
    add_folders(options)
    add("--settings", default=str(SETTINGS), metavar="FILE",
        help=f"with the options and roots of the mirror ({SETTINGS})")  # fmt: skip
    add("--exclude-from", default=str(EXCLUDES), metavar="FILE",
        help=f"with the patterns of the mirror's unit ({EXCLUDES})")  # fmt: skip
    add("--json", action="store_true", help="one JSON object")
    add("--version", action="version", version=f"wumpus-why {VERSION}")
    return options


def run(given: argparse.Namespace) -> int:
    """Does what the options ask. Raises what `main` tells of."""
    if os.geteuid() != 0:
        raise Trouble("it needs root: it reads everybody's paths, and asks the kernel as her")
    path = b"/" + os.fsencode(os.path.abspath(given.path)).lstrip(b"/")
    user = user_of(given.user, given.groups)
    wanted = wanted_by(Path(given.settings), Path(given.exclude_from))
    verdict = judge(path, user, read(folders_of(given), wanted))
    if given.json:
        print(json.dumps(as_json(verdict)))
    else:
        for line in report(verdict):
            print(line)
    return TOLD if verdict.is_told else NOT_TOLD


def main() -> int:
    """Runs the command line: 0 she is told of it, 1 she isn't, 2 trouble."""
    given = parser().parse_args()
    try:
        status = run(given)
        sys.stdout.flush()
        return status
    except BrokenPipeError:
        os.dup2(os.open(os.devnull, os.O_WRONLY), 1)
    except (Trouble, BadUser, BadState, BadStatus, OSError) as error:
        print(f"wumpus-why: {plain(str(error))}", file=sys.stderr)
    except KeyboardInterrupt:
        pass
    return TROUBLE
