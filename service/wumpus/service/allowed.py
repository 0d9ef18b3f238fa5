"""Who may ask: numbers of users, of those who can reach the socket at all."""

from dataclasses import dataclass

from ..shared.script import NUMBER_MAX

RANGES_AT_MOST = 1000


@dataclass(frozen=True, slots=True)
class Allowed:
    """Ranges of numbers, the first and the last of each; None for everybody."""

    ranges: tuple[tuple[int, int], ...] | None = None
    root: bool = True  # whether user 0 may, where she is among them

    def allows(self, user: int) -> bool:
        """Whether this user may ask."""
        if user == 0 and not self.root:
            return False
        return self.ranges is None or any(first <= user <= last for first, last in self.ranges)


def ranges_of(text: str) -> tuple[tuple[int, int], ...]:
    """The ranges of a list as `0,1000-59999`. Raises `ValueError` where it is none."""
    fields = text.split(",")
    if len(fields) > RANGES_AT_MOST:
        raise ValueError(f"more than {RANGES_AT_MOST} ranges")
    return tuple(_range(field) for field in fields)


def _range(text: str) -> tuple[int, int]:
    first, dash, last = text.partition("-")
    ends = (first, last if dash else first)
    if not all(end.isascii() and end.isdigit() and len(end) <= 10 for end in ends):
        raise ValueError(f"{text!r} is no number of a user, and no two with a - between them")
    low, high = int(ends[0]), int(ends[1])
    if not low <= high <= NUMBER_MAX:
        raise ValueError(f"{text!r} is no range of numbers up to {NUMBER_MAX}")
    return low, high
