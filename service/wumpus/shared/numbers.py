"""Numbers that options have: each is looked at, and refused in words.

Where one isn't a number, or out of its range, `argparse.ArgumentTypeError` is raised.
"""

import argparse
import math

SECONDS_AT_MOST = 1e9
COUNT_AT_MOST = 1 << 50
DIGITS_AT_MOST = 18  # of a whole number


def seconds(text: str) -> float:
    """A time that is more than nothing."""
    value = seconds_or_never(text)
    if value == 0:
        raise argparse.ArgumentTypeError("must be more than 0")
    return value


def seconds_or_never(text: str) -> float:
    """A time, or 0 for none."""
    try:
        value = float(text)
    except ValueError as error:
        raise argparse.ArgumentTypeError(f"{text!r} is no number") from error
    if not math.isfinite(value) or not 0 <= value <= SECONDS_AT_MOST:
        raise argparse.ArgumentTypeError(f"{text} isn't from 0 to {SECONDS_AT_MOST:.0f}")
    return value


def count(text: str, most: int = COUNT_AT_MOST) -> int:
    """A whole number from 1 to `most`, in ASCII digits."""
    is_whole = text.isascii() and text.isdigit() and len(text) <= DIGITS_AT_MOST
    if not is_whole or not 1 <= int(text) <= most:
        raise argparse.ArgumentTypeError(f"{text!r} isn't a whole number from 1 to {most}")
    return int(text)
