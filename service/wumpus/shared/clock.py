"""The clock of what a machine knows of its files: it goes on while the machine sleeps.

Mirror and service compare moments by it. Nobody can set it, and it begins anew with the machine.
"""

import time


def moment() -> int:
    """Milliseconds since the machine began, those in which it slept too."""
    return time.clock_gettime_ns(time.CLOCK_BOOTTIME) // 1_000_000
