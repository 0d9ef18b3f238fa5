"""Why something is shut, or left out: words of the status file, and sentences of warnings."""

from enum import Enum


class Reason(Enum):
    """One word for each reason. What is shut is shown to nobody but user 0."""

    TORN = "torn"
    UNSEEN = "unseen"
    UNREADABLE = "unreadable"
    COVERED = "covered"
    HELD = "held"
    LIST = "list"
    PENDING = "pending"
    DISK = "disk-full"
    MEMORY = "memory"
    NAMES = "budget-names"
    DIRECTORIES = "budget-directories"
    LINKS = "budget-links"
    BYTES = "budget-bytes"
    SECONDS = "budget-seconds"
    DEEP = "too-deep"
    LONG = "long-name"
    TWICE = "two-places"

    @property
    def sentence(self) -> str:
        """The reason in words, after a path and a colon."""
        return _SENTENCES[self]


_SENTENCES = {
    Reason.TORN: "it is shut: it doesn't stand still",
    Reason.UNSEEN: "it is shut: it was listed, and wasn't there",
    Reason.UNREADABLE: "it is shut: it can't be read",
    Reason.COVERED: "it is shut: another file system lies over it",
    Reason.HELD: "it is shut: it is gone with many others, and isn't removed without --force",
    Reason.LIST: "it is shut: its access list can't be told to the program",
    Reason.PENDING: "it is shut: it has to be looked at",
    Reason.DISK: "it is shut: the disk of the store is nearly full",
    Reason.MEMORY: "it is shut: the program has no memory for its text",
    Reason.NAMES: "it is shut: its owner has too many names",
    Reason.DIRECTORIES: "it is shut: its owner has too many directories",
    Reason.LINKS: "it is shut: the file has too many names",
    Reason.BYTES: "it is shut: its owner has too much text",
    Reason.SECONDS: "it is shut: what its owner has takes too long",
    Reason.DEEP: "too deep, it is left out",
    Reason.LONG: "a name over 255 bytes, it is left out",
    Reason.TWICE: "in two places, it is taken once",
}
