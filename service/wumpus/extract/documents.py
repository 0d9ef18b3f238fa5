"""A document as a memory file that nobody can change, for a worker to read."""

import fcntl
import os

DOCUMENT_MAX = 64 << 20  # bytes
FRONT = 8192  # bytes of its beginning that are kept, to tell its kind
_NO_EXECUTION = 0x0008  # MFD_NOEXEC_SEAL, from Linux 6.3 on
SEALS = fcntl.F_SEAL_SEAL | fcntl.F_SEAL_SHRINK | fcntl.F_SEAL_GROW | fcntl.F_SEAL_WRITE
_READ_ONLY = 0o400


class Document:
    """Bytes that are written once, and then sealed.

    The worker has another user's rights or none, and can't execute it: the file isn't executable.
    """

    def __init__(self) -> None:
        self.descriptor = _memory_file()
        self.size = 0
        self.front = b""

    @classmethod
    def of(cls, data: bytes) -> "Document":
        """A sealed document of some bytes."""
        document = cls()
        document.add(data)
        document.seal()
        return document

    def add(self, data: bytes) -> None:
        """Writes bytes behind those that are there. Raises `OSError`, as for want of memory."""
        if len(self.front) < FRONT:
            self.front += data[: FRONT - len(self.front)]
        self.size += len(data)
        left = memoryview(data)
        while left:
            left = left[os.write(self.descriptor, left) :]

    def seal(self) -> None:
        """From here on nobody can change it, nor take a seal away."""
        fcntl.fcntl(self.descriptor, fcntl.F_ADD_SEALS, SEALS)

    def close(self) -> None:
        """Gives the memory back."""
        os.close(self.descriptor)

    def __enter__(self) -> "Document":
        return self

    def __exit__(self, *_: object) -> None:
        self.close()


def _memory_file() -> int:
    flags = os.MFD_CLOEXEC | os.MFD_ALLOW_SEALING
    try:
        descriptor = os.memfd_create("document", flags | _NO_EXECUTION)
    except OSError:
        descriptor = os.memfd_create("document", flags)
    os.fchmod(descriptor, _READ_ONLY)
    return descriptor


def is_sealed(descriptor: int) -> bool:
    """Tells whether this is a memory file with all seals; reads no byte of it."""
    try:
        return fcntl.fcntl(descriptor, fcntl.F_GET_SEALS) & SEALS == SEALS
    except OSError:
        return False
