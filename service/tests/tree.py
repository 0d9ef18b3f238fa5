"""Random changes of a real tree by real system calls."""

import os
import random
import shutil
import struct
from collections.abc import Callable

MODES = (0o755, 0o700, 0o750, 0o711, 0o077, 0o1777, 0o2755, 0o644, 0o640, 0o600, 0o604, 0o000)
NAMES = (b"a", b"b", b"c", b"d.txt", b"e\tf", b"g\nh", b"\xff\xfe", b"i\\j", b"k l", b"\x1b[1m")
WORDS = (b"apple", b"pear", b"Apple", b"budget", b"lunch", b"\xc3\xa9t\xc3\xa9", b"x" * 70)


class Changes:
    """Makes changes below a folder; each is one or a few system calls, which may fail.

    Where `lone_search` isn't set, no entry of a group in a list gives search without read: a user
    in two groups may have one of the first and the other of the second.
    """

    def __init__(
        self,
        top: bytes,
        draw: random.Random,
        users: list[int],
        groups: list[int],
        lists: bool,
        lone_search: bool = True,
    ) -> None:
        self.top = top
        self.draw = draw
        self.users = users
        self.groups = groups
        self.lone_search = lone_search
        self.calls = 0
        self.kinds: list[Callable[[], None]] = [
            self.write, self.write, self.write, self.append, self.directory, self.directory,
            self.mode, self.mode, self.mode, self.owner, self.owner, self.rename, self.rename,
            self.swap, self.cycle, self.link, self.link, self.unlink, self.remove, self.special,
            self.replace,
        ]  # fmt: skip
        if lists:
            self.kinds += [self.access_list] * 4

    def some(self, count: int) -> None:
        """Makes so many changes."""
        for _ in range(count):
            try:
                self.draw.choice(self.kinds)()
            except (OSError, shutil.Error):
                pass

    def _all(self, files: bool, directories: bool) -> list[bytes]:
        found = [self.top] if directories else []
        for folder, below, names in os.walk(self.top):
            found += [os.path.join(folder, name) for name in names] if files else []
            found += [os.path.join(folder, name) for name in below] if directories else []
        return found

    def _one(self, files: bool = True, directories: bool = True) -> bytes:
        found = self._all(files, directories)
        if not found:
            raise OSError
        return self.draw.choice(found)

    def _place(self) -> bytes:
        name = self.draw.choice(NAMES)
        if self.draw.random() < 0.5:
            name += b"%d" % self.draw.randrange(20)
        return os.path.join(self._one(files=False), name)

    def _text(self) -> bytes:
        draw = self.draw
        if draw.random() < 0.05:
            return b"apple\0pear"
        lines = [
            b" ".join(draw.choice(WORDS) for _ in range(draw.randrange(6)))
            for _ in range(draw.randrange(6))
        ]
        return b"\n".join(lines) + draw.choice((b"", b"\n", b"\r\n", b"\t\\"))

    def write(self) -> None:
        """Writes a file from its start, a new one or one that is there."""
        path = self._place() if self.draw.random() < 0.6 else self._one(directories=False)
        self.calls += 3
        flags = os.O_WRONLY | os.O_CREAT | os.O_TRUNC | os.O_NOFOLLOW | os.O_NONBLOCK
        descriptor = os.open(path, flags, self.draw.choice(MODES) & 0o777)
        os.write(descriptor, self._text())
        os.close(descriptor)

    def append(self) -> None:
        """Writes behind a file's end."""
        self.calls += 2
        flags = os.O_WRONLY | os.O_APPEND | os.O_NOFOLLOW | os.O_NONBLOCK
        descriptor = os.open(self._one(directories=False), flags)
        os.write(descriptor, self._text())
        os.close(descriptor)

    def replace(self) -> None:
        """Writes a file as an editor does: a new one, which then takes the name."""
        path = self._one(directories=False)
        self.calls += 4
        with open(path + b"~", "wb") as out:
            out.write(self._text())
        os.chmod(path + b"~", self.draw.choice(MODES))
        os.rename(path + b"~", path)

    def directory(self) -> None:
        """Makes a directory."""
        path = self._place()
        self.calls += 2
        os.mkdir(path)
        os.chmod(path, self.draw.choice(MODES[:7]))

    def mode(self) -> None:
        """Sets a mode."""
        path = self._one()
        self.calls += 1
        if not os.path.islink(path):
            os.chmod(path, self.draw.choice(MODES))

    def owner(self) -> None:
        """Sets an owner and a group."""
        self.calls += 1
        path = self._one()
        os.chown(path, self.draw.choice(self.users), self.draw.choice(self.groups),
                 follow_symlinks=False)  # fmt: skip

    def rename(self) -> None:
        """Moves something, perhaps over something else."""
        self.calls += 1
        os.rename(self._one(), self._place() if self.draw.random() < 0.7 else self._one())

    def swap(self) -> None:
        """Swaps two names."""
        self._turn([self._one(), self._one()])

    def cycle(self) -> None:
        """Three names, each of which takes the next one's place."""
        self._turn([self._one(), self._one(), self._one()])

    def _turn(self, paths: list[bytes]) -> None:
        self.calls += len(paths) + 1
        aside = os.path.join(self.top, b"aside")
        os.rename(paths[0], aside)
        last = 0
        try:
            for place in range(1, len(paths)):
                os.rename(paths[place], paths[place - 1])
                last = place
        finally:
            os.rename(aside, paths[last])

    def link(self) -> None:
        """Makes another link to a file."""
        self.calls += 1
        os.link(self._one(directories=False), self._place(), follow_symlinks=False)

    def unlink(self) -> None:
        """Removes a file's name."""
        self.calls += 1
        os.unlink(self._one(directories=False))

    def remove(self) -> None:
        """Removes a directory, one time in five with all in it."""
        path = self._one(files=False)
        if path == self.top:
            return
        self.calls += 1
        if self.draw.random() < 0.2:
            shutil.rmtree(path)
        else:
            os.rmdir(path)

    def special(self) -> None:
        """Makes a symbolic link or a FIFO, which the mirror leaves out."""
        path = self._place()
        self.calls += 1
        if self.draw.random() < 0.7:
            os.symlink(self._one(), path)
        else:
            os.mkfifo(path)

    def access_list(self) -> None:
        """Gives an access list, or takes one away."""
        path = self._one()
        self.calls += 1
        if os.path.islink(path):
            return
        if self.draw.random() < 0.25:
            os.removexattr(path, "system.posix_acl_access")
            return
        os.setxattr(path, "system.posix_acl_access", self._entries())

    def _group_bits(self) -> int:
        """The bits of a group's entry: search without read only where that is wanted."""
        return self.draw.randrange(8) if self.lone_search else self.draw.choice((0, 2, 4, 5, 6, 7))

    def _entries(self) -> bytes:
        draw = self.draw
        none = 0xFFFFFFFF
        # Linux takes them in any order, and several of one user or group.
        users = draw.choices(self.users, k=draw.randrange(4))
        groups = draw.choices(self.groups, k=draw.randrange(4))
        entries = [(1, draw.randrange(8), none)]
        entries += [(2, draw.randrange(8), user) for user in users]
        entries += [(4, self._group_bits(), none)]
        entries += [(8, self._group_bits(), group) for group in groups]
        entries += [(16, draw.randrange(8), none), (32, draw.randrange(8), none)]
        return struct.pack("<I", 2) + b"".join(struct.pack("<HHI", *entry) for entry in entries)
