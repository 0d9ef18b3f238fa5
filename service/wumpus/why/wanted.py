"""What the mirror is asked to mirror, by the files that its unit reads."""

import contextlib
import io
import os
import re
import shlex
from dataclasses import dataclass
from pathlib import Path

from ..mirror.access import Access
from ..mirror.command import parser, patterns_in
from ..mirror.limits import pattern_of

SETTINGS = Path("/etc/default/wumpus")
EXCLUDES = Path("/etc/wumpus/excludes")
_LINE = re.compile(r"^(ROOTS|MIRROR)=(.*)$", re.MULTILINE)


@dataclass(frozen=True)
class Wanted:
    """Roots, patterns, and how directories that hide their names are given."""

    roots: tuple[bytes, ...]
    excludes: tuple[bytes, ...]
    access: Access

    def root_of(self, path: bytes) -> bytes | None:
        """The root below which a path is."""
        for root in self.roots:
            if path == root or path.startswith(root.rstrip(b"/") + b"/"):
                return root
        return None

    def pattern_for(self, path: bytes) -> bytes | None:
        """The pattern that leaves out a path, by its name or that of a directory above it."""
        root = self.root_of(path)
        if root is None:
            return None
        here = root.rstrip(b"/")
        for name in path[len(here) :].split(b"/"):
            if name:
                here += b"/" + name
                for pattern in self.excludes:
                    if pattern_of((pattern,))(name, here):
                        return pattern
        return None


def wanted_by(settings: Path, patterns: Path) -> Wanted | None:
    """What the files of settings and patterns ask for; None where the first can't be read."""
    try:
        text = settings.read_text(encoding="utf-8", errors="surrogateescape")
        values = {name: " ".join(shlex.split(value)) for name, value in _LINE.findall(text)}
        words = shlex.split(values.get("MIRROR", "")) + shlex.split(values.get("ROOTS", ""))
        with contextlib.redirect_stderr(io.StringIO()):
            given = parser().parse_args(words)
    except (OSError, ValueError, SystemExit):
        return None
    roots = tuple(os.fsencode(os.path.normpath(root)) for root in given.roots)
    excludes = [os.fsencode(pattern) for pattern in given.exclude]
    for file in (patterns, given.exclude_from):
        with contextlib.suppress(OSError):
            excludes += patterns_in(Path(file)) if file is not None else []
    return Wanted(roots, tuple(excludes), Access(given.unlisted))
