"""The command line of `wumpus-status`."""

import argparse
import json
import os
import sys
import time
from pathlib import Path
from typing import Any

from .. import VERSION
from ..shared.numbers import seconds
from ..shared.progress import plain
from .attention import attention
from .files import (
    BadStatus,
    MirrorStatus,
    ServiceStatus,
    add_folders,
    folders_of,
    read_mirror,
    read_service,
)
from .metrics import text_of, write
from .report import report

WELL, ATTENTION, TROUBLE = 0, 1, 2
OLD = 900.0  # seconds


def parser() -> argparse.ArgumentParser:
    """The options."""
    options = argparse.ArgumentParser(
        prog="wumpus-status",
        description="Tells how the mirror and the service of Wumpus are.",
        epilog="Exit status: 0 all is well, 1 something needs attention, 2 trouble.",
        allow_abbrev=False,
    )
    add = options.add_argument
    add_folders(options)
    add("--old", type=seconds, default=OLD, metavar="SECONDS",
        help="how long ago the last walk may have begun (900)")  # fmt: skip
    add("--all", action="store_true", help="tell all owners and paths, and not the first alone")
    add("--json", action="store_true", help="one JSON object")
    add("--metrics", metavar="FILE", help="write what node_exporter reads, and tell nothing")
    add("--version", action="version", version=f"wumpus-status {VERSION}")
    return options


Told = dict[str, Any]


def read(
    given: argparse.Namespace,
) -> tuple[MirrorStatus | None, ServiceStatus | None, Told]:
    """Both files, and what stands there. Raises `BadStatus`."""
    folders = folders_of(given)
    service, mirror = read_service(folders.service), read_mirror(folders.mirror)
    if service is None and mirror is None:
        where = f"{folders.service} and {folders.mirror}"
        raise BadStatus(f"{where}: neither service nor mirror has told anything there")
    told = {
        "mirror": None if mirror is None else mirror[1],
        "service": None if service is None else service[1],
    }
    return None if mirror is None else mirror[0], None if service is None else service[0], told


def run(given: argparse.Namespace) -> int:
    """Does what the options ask. Raises `BadStatus`, and `OSError`."""
    mirror, service, told = read(given)
    needed = list(attention(mirror, service, time.time(), given.old))
    if given.metrics is not None:
        write(Path(given.metrics), text_of(mirror, service, len(needed)))
    elif given.json:
        print(json.dumps({"attention": needed, **told}))
    else:
        for line in report(mirror, service, needed, given.all):
            print(line)
    return ATTENTION if needed else WELL


def main() -> int:
    """Runs the command line: 0 all is well, 1 something needs attention, 2 trouble."""
    given = parser().parse_args()
    try:
        status = run(given)
        sys.stdout.flush()
        return status
    except BrokenPipeError:
        os.dup2(os.open(os.devnull, os.O_WRONLY), 1)
    except (BadStatus, OSError) as error:
        print(f"wumpus-status: {plain(str(error))}", file=sys.stderr)
    except KeyboardInterrupt:
        pass
    return TROUBLE
