"""File systems: those that are walked, by a list of what is good, and where each is mounted.

A file system whose server decides who may read, or whose files aren't anybody's, isn't on the list.
Where one is mounted isn't even opened: a server may let that wait for ever.
"""

import os
import re
import select
from dataclasses import dataclass

# File systems of this machine's own disks and memory, whose files are as their modes and lists say.
GOOD = frozenset(
    "bcachefs btrfs erofs exfat ext2 ext3 ext4 f2fs iso9660 jfs nilfs2 ntfs3 overlay ramfs reiserfs "
    "squashfs tmpfs udf vfat xfs zfs".split()
)
_LIST = "/proc/self/mountinfo"
_ESCAPED = re.compile(rb"\\([0-7]{3})")


@dataclass(frozen=True)
class Mount:
    """A mount: the kind of its file system, and its place, which is a directory or a file."""

    kind: str
    place: bytes

    @property
    def is_good(self) -> bool:
        """Whether it is walked."""
        return self.kind in GOOD


def mount_of(line: bytes) -> tuple[int, Mount]:
    """The number and the mount of a line of the kernel's list."""
    fields = line.rstrip(b"\n").split(b" ")  # other white space isn't escaped there
    kind = fields[fields.index(b"-") + 1].decode("ascii", "replace")
    place = _ESCAPED.sub(lambda found: bytes([int(found[1], 8)]), fields[4])
    return int(fields[0]), Mount(kind, place)


class Mounts:
    """All mounts, as the kernel lists them; the list is read again where it changed."""

    def __init__(self, source: str = _LIST) -> None:
        self.descriptor = os.open(source, os.O_RDONLY | os.O_CLOEXEC)
        self.poll = select.poll()
        self.poll.register(self.descriptor, select.POLLPRI)
        self.by_number: dict[int, Mount] = {}
        self.left_out: dict[bytes, dict[bytes, str]] = {}  # by directory, kinds by name
        self._read()

    def close(self) -> None:
        """Closes the list."""
        os.close(self.descriptor)

    def _read(self) -> None:
        os.lseek(self.descriptor, 0, os.SEEK_SET)
        with open(self.descriptor, "rb", closefd=False) as lines:
            self.by_number = dict(map(mount_of, lines))
        places = {mount.place: mount for mount in self.by_number.values()}  # the last is on top
        self.left_out = {}
        for place, mount in places.items():
            if not mount.is_good:
                directory, _, name = place.rpartition(b"/")
                self.left_out.setdefault(directory, {})[name] = mount.kind

    def refresh(self) -> None:
        """Reads the list again, where something was mounted or unmounted."""
        if self.poll.poll(0):
            self._read()

    def changes(self) -> list[Mount]:
        """Reads the list again: what was mounted, or unmounted, since it was read last."""
        before = self.by_number
        self._read()
        differing = before.items() ^ self.by_number.items()
        return [mount for _, mount in differing]

    def left_out_in(self, directory: bytes) -> dict[bytes, str]:
        """The names in a directory at which something is mounted that isn't walked, and its kind.

        The path is one from `/` on, that of `/` itself is empty.
        """
        return self.left_out.get(directory, {})

    def of(self, descriptor: int) -> Mount | None:
        """The mount of what is open there, which may be open as a place alone (`O_PATH`)."""
        with open(f"/proc/self/fdinfo/{descriptor}", "rb") as lines:
            numbers = [int(line.split()[1]) for line in lines if line.startswith(b"mnt_id:")]
        return self.by_number.get(numbers[0]) if numbers else None
