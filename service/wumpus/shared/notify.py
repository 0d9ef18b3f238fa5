"""What systemd is told of this process, by the socket that it names; without one, nothing is."""

import os
import socket


def notify(*words: bytes) -> None:
    """Tells systemd words such as `READY=1`, `STATUS=..` and `WATCHDOG=1`, each without a LF.

    That nobody listens is no trouble of the caller's, and so raises nothing.
    """
    place = os.environb.get(b"NOTIFY_SOCKET", b"")
    if not place.startswith((b"/", b"@")):
        return
    # A name that begins with @ is one of no file system; the kernel has a NUL for the @.
    name = b"\0" + place[1:] if place.startswith(b"@") else place
    with socket.socket(socket.AF_UNIX, socket.SOCK_DGRAM) as sending:
        sending.setblocking(False)
        try:
            sending.sendto(b"\n".join(words), name)
        except OSError:
            return


def watchdog_seconds() -> float | None:
    """How often systemd wants to hear `WATCHDOG=1`: twice in its time. None where it doesn't."""
    told = os.environ.get("WATCHDOG_USEC", "")
    for_whom = os.environ.get("WATCHDOG_PID", str(os.getpid()))
    if not told.isascii() or not told.isdigit() or for_whom != str(os.getpid()):
        return None
    return int(told) / 2e6
