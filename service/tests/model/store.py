"""What is kept in `wumpus-store`: a file for each text, and `root` with all else.

`root` is replaced by a whole new one, so each moment has a save. Nothing is synced: a test kills
processes, and no machine.
"""

import fcntl
import os
import pickle
import stat
from pathlib import Path

from .nodes import Tree

FOLDER = Path("wumpus-store")


class Failed(Exception):
    """The folder isn't safe to use, or another session has it."""


class Store:
    """The folder, from the beginning of a session to its end. Each method raises `OSError`."""

    def __init__(self) -> None:
        if not FOLDER.is_symlink() and not FOLDER.exists():
            FOLDER.mkdir(mode=0o700)
        status = FOLDER.lstat()
        safe = stat.S_ISDIR(status.st_mode) and not status.st_mode & 0o022
        if not safe or status.st_uid != os.geteuid():
            raise Failed
        self.lock = os.open(FOLDER, os.O_RDONLY | os.O_DIRECTORY)
        try:
            fcntl.flock(self.lock, fcntl.LOCK_EX | fcntl.LOCK_NB)
        except BlockingIOError as error:
            raise Failed from error
        self.following = 1

    def load(self) -> Tree:
        """The tree of the last save."""
        try:
            with open(FOLDER / "root", "rb") as file:
                self.following, nodes, users = pickle.load(file)
        except FileNotFoundError:
            return Tree()
        return Tree(nodes, users)

    def put(self, text: bytes) -> int:
        """Keeps a text: its number."""
        if not text:
            return 0
        number, self.following = self.following, self.following + 1
        (FOLDER / f"text{number}").write_bytes(text)
        return number

    def get(self, number: int) -> bytes:
        """The text of a number."""
        return (FOLDER / f"text{number}").read_bytes() if number else b""

    def save(self, tree: Tree) -> None:
        """Saves the tree, and removes the texts that aren't of it."""
        with open(FOLDER / "root.new", "wb") as file:
            pickle.dump((self.following, tree.nodes, tree.users), file, pickle.HIGHEST_PROTOCOL)
        os.replace(FOLDER / "root.new", FOLDER / "root")
        kept = {f"text{node.text}" for node in tree.nodes.values()}
        for name in os.listdir(FOLDER):
            if name != "root" and name not in kept:
                (FOLDER / name).unlink()
