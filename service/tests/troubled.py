#!/usr/bin/python3
"""The program under attack: `troubled.py PROGRAM run` passes all on to the program.

But a word of a query, or a name in a batch, has it do what a program does that is given too much:

    "spin"      takes the processor for ever       "sleep"     answers never
    "busyN"     takes it for N milliseconds         "nomemory"  ends with status 4
    "crash"     ends with status 6                  "noroom"    the same, in a batch

A `user` line with group 77777 takes the processor for 200 ms, as finding anew what she is shown.

Where `TROUBLED_LOG` names a file, the lines `work` and `save` that come alone are noted there, and
`work` takes 100 ms more: so it is worth a save.
"""

import os
import re
import signal
import sys
import threading
import time
from pathlib import Path
from subprocess import PIPE, Popen
from typing import IO

sys.path.insert(0, str(Path(__file__).resolve().parent.parent))

from wumpus.shared.program import NO_MEMORY, PIECE, die_with_parent  # noqa: E402

NO_ROOM = 6
DEAR = re.compile(rb"user\t[0-9]+\t[0-9\t]*77777")
WORD = re.compile(rb'"(spin|sleep|nomemory|crash|busy([0-9]{1,6}))"|(nomemory|noroom)-batch')


class Passed:
    """The true program. It sees no end of its input, at which it would save."""

    def __init__(self, program: str) -> None:
        self.ends = os.pipe()
        self.child = Popen(
            [program, "run"],
            stdin=self.ends[0],
            stdout=PIPE,
            pass_fds=(self.ends[1],),
            preexec_fn=die_with_parent,
        )
        self.is_ending = False

    def copy(self, out: IO[bytes]) -> None:
        """Passes replies on, until the program ends; its status is then this one's."""
        if self.child.stdout is None:
            return
        while piece := os.read(self.child.stdout.fileno(), PIECE):
            if self.is_ending and piece.endswith(b"ok\n"):
                self.child.kill()
                os._exit(0)
            out.write(piece)
            out.flush()
        os._exit(self.child.wait())

    def give(self, data: bytes) -> None:
        """Passes bytes on."""
        while data:
            data = data[os.write(self.ends[1], data) :]


def burn(seconds: float) -> None:
    """Takes so much of the processor."""
    until = time.thread_time() + seconds
    while time.thread_time() < until:
        pass


def suffer(word: re.Match[bytes]) -> None:
    """Does what a word says."""
    what = word[1] or word[3]
    if word[2]:
        burn(int(word[2]) / 1000)
    elif what == b"spin":
        burn(float("inf"))
    elif what == b"sleep":
        signal.pause()
    elif what == b"nomemory":
        os._exit(NO_MEMORY)
    else:
        os._exit(NO_ROOM)


def note(data: bytes) -> None:
    """Notes a line of the service's own."""
    place = os.environ.get("TROUBLED_LOG")
    if place and (data.startswith(b"work\t") or data == b"save\n"):
        with open(place, "ab") as log:
            log.write(data)
        burn(0.1 if data.startswith(b"work") else 0.0)


def main() -> None:
    """Passes all on."""
    passed = Passed(sys.argv[1])
    threading.Thread(target=passed.copy, args=(sys.stdout.buffer,), daemon=True).start()
    while data := os.read(0, PIECE):
        note(data)
        if DEAR.search(data):
            burn(0.2)
        word = WORD.search(data)
        if word is not None:
            suffer(word)
        passed.give(data)
    passed.is_ending = True
    passed.give(b"save\n")
    signal.pause()


if __name__ == "__main__":
    main()
