#!/usr/bin/env python3
"""Other programs over the same tree, and what they tell of a file that the asker may not read.

    bench/beside.py TREE

Needs root, and plocate, ripgrep and recollcmd where they are to be measured. Beside the tree there
is one file of mode 644 in a directory of mode 700, with a name and a word that nothing else has.
Root makes the indexes; user 12345, who may not pass there, asks.
"""

import argparse
import itertools
import os
import shlex
import shutil
import subprocess
import sys
import tempfile
from pathlib import Path

from service import USER, timed

SECRET = "zqsecretzq"
RECOLL_FILES = 20  # it takes a second and more for each
CONFIGURATION = (
    "topdirs = {}\ndbdir = {}/xapiandb\nskippedPaths =\nloglevel = 1\nidxflushmb = 100\n"
)


class Beside:
    """A tree, a file beside it that the asker may not read, and a folder for indexes."""

    def __init__(self, tree: str, word: str, folder: Path) -> None:
        self.tree = tree
        self.word = word
        self.folder = folder
        self.closed = folder / "closed"
        self.closed.mkdir()
        (self.closed / SECRET).write_text(SECRET + "\n")
        (self.closed / SECRET).chmod(0o644)
        self.closed.chmod(0o700)

    def row(self, name: str, made: tuple[float, float, int] | None, ask: list[str]) -> None:
        """A row: the index, a word's answer, and whether the secret's own word or name is told."""
        user = ["setpriv", f"--reuid={USER}", f"--regid={USER}", "--clear-groups"]
        clock, spent, _ = timed([*user, *ask, self.word], (0, 1, 2))
        words = [*user, *ask, SECRET]
        told = subprocess.run(words, capture_output=True, text=True, errors="replace").stdout
        answered = [line for line in told.splitlines() if SECRET in line and "query" not in line]
        index = f"{made[0]:.1f} s, processor {made[1]:.1f} s" if made else "none"
        leak = f"told: `{answered[0].strip()[:60]}`" if answered else "nothing"
        print(f"| {name} | {index} | {clock:.2f} s, processor {spent:.2f} s | {leak} |", flush=True)

    def plocate(self, visible: str) -> None:
        """`plocate`: names alone."""
        databases = []
        for number, top in enumerate((str(self.closed), self.tree)):
            databases.append(str(self.folder / f"plocate-{visible}-{number}.db"))
            words = ["updatedb", "--require-visibility", visible, "-o", databases[number]]
            made = timed([*words, "--prunepaths", "", "--prunefs", "", "-U", top])
            os.chmod(databases[number], 0o644)
        ask = ["plocate", "-d", ":".join(databases)]
        self.row(f"plocate, `--require-visibility {visible}`", made, ask)

    def ripgrep(self) -> None:
        """`rg`: texts, without an index. The disk's bytes are in memory when it is measured."""
        ask = ["rg", "--no-messages", "-uuu", "-w", "-i"]
        timed([*ask, self.word, self.tree], (0, 1, 2))
        places = f"{shlex.quote(self.tree)} {shlex.quote(str(self.closed))}"
        self.row("`rg -uuu -w -i`", None, ["sh", "-c", f'exec {" ".join(ask)} "$0" {places}'])

    def recoll(self) -> None:
        """`recoll`: one index for all, over a part of the tree."""
        part = self.folder / "part"
        part.mkdir()
        files = (one for one in sorted(Path(self.tree).rglob("*")) if one.is_file())
        for number, path in enumerate(itertools.islice(files, RECOLL_FILES)):
            shutil.copyfile(path, part / f"{number}-{path.name}")
        configuration = self.folder / "recoll"
        configuration.mkdir()
        text = CONFIGURATION.format(f"{part} {self.closed}", configuration)
        (configuration / "recoll.conf").write_text(text)
        made = timed(["recollindex", "-c", str(configuration)])
        subprocess.run(["chmod", "-R", "a+rX", str(configuration)], check=True)
        self.row(
            f"recoll, over {RECOLL_FILES} of the files",
            made,
            ["recollq", "-c", str(configuration), "-a"],
        )


def main() -> int:
    """Runs the measure."""
    parser = argparse.ArgumentParser(description=__doc__)
    parser.add_argument("--word", default="memory", help="the word that is asked for")
    parser.add_argument("tree", help="a directory")
    given = parser.parse_args()
    print("| Program | Index | A word, asked by that user | Of the file that she may not read |")
    print("|---|---|---|---|")
    with tempfile.TemporaryDirectory(prefix="wumpus-beside-", dir="/var/tmp") as name:
        os.chmod(name, 0o755)
        beside = Beside(os.path.abspath(given.tree), given.word, Path(name))
        if shutil.which("plocate"):
            beside.plocate("yes")
            beside.plocate("no")
        if shutil.which("rg"):
            beside.ripgrep()
        if shutil.which("recollindex") and shutil.which("recollq"):
            beside.recoll()
    return 0


if __name__ == "__main__":
    sys.exit(main())
