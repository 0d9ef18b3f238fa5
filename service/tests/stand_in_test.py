"""The stand-in by the examples of the documents, and beside the program where one is built.

The program gets random scripts of the lines that the stand-in knows, in several sessions over one
store; each reply and each exit status is the same.
"""

import os
import random
import subprocess
import sys
from pathlib import Path

from harness import BUILT, SERVICE, STAND_IN, Pace, Score, folder_of_own, options

EXAMPLES = SERVICE.parent / "examples"
NAMES = ("home", "lists", "regions", "ranking", "find", "tutorial")
SESSIONS = ("sessions/1", "sessions/2")
WORDS = (b"apple", b"Apple", b"pear", b"plum", "\u00c4pfel".encode(), b"\xff\xc3", b"a" * 70, b"x1")
LEAVES = (b'"apple"', b'"pear plum"', b'"<line>"', b'"</file>"', b"line", b"file", b"[1]", b"[3]",
          b'"!"', b"[0]", b"(", b'"x1', "\"\u00c4PFEL\"".encode())  # fmt: skip
OPERATORS = (b"<", b">", b"/<", b"/>", b"+", b"^", b"..")
CALLED = (b"a", b"b", b"c", b"d\\te", b"\xff", b"f\\\\", b"..", b"a/b", b"", b"n" * 255, b"n" * 256)
MODES = (b"755", b"750", b"711", b"700", b"644", b"640", b"604", b"077", b"000", b"7777", b"99")
LISTS = (b"", b"g::5,m::7", b"g::0,u:5:5,m::5", b"g::4,u:5:0,g:20:7,m::5", b"g::4,m::0", b"m::4",
         b"g::1,g:20:4,g:21:1,m::5", b"g::8,m::4", b"g::4,u:6:4,u:5:4,m::4")  # fmt: skip


class Script:
    """Draws lines: events that mostly fit the tree, queries, and lines that don't fit."""

    def __init__(self, draw: random.Random) -> None:
        self.draw = draw
        self.following = 2

    def number(self) -> bytes:
        """A node's number, mostly one that was used."""
        return b"%d" % self.draw.randrange(1, self.following + 2)

    def user(self) -> bytes:
        """A user's number."""
        return b"%d" % self.draw.choice((0, 5, 6, 7, 4294967295))

    def text(self) -> bytes:
        """A line `text`, with a body that is mostly what it says."""
        draw = self.draw
        count = draw.randrange(5)
        lines = [b" ".join(draw.choices(WORDS, k=draw.randrange(5))) for _ in range(count)]
        body = b"\n".join(lines) + draw.choice((b"", b"\n", b"\r", b"-"))
        size = len(body) + draw.choice((0,) * 8 + (1, -1))
        return b"text\t%s\t%d\n%s" % (self.number(), max(size, 0), body)

    def expression(self) -> bytes:
        """An expression, or nearly one."""
        draw = self.draw
        if draw.random() < 0.6:
            return draw.choice(LEAVES)
        left, right = self.expression(), self.expression()
        joined = left + b" " + draw.choice(OPERATORS) + b" " + right
        return b"(" + joined + b")" if draw.random() < 0.5 else joined

    def event(self) -> bytes:
        """A line that changes something."""
        draw = self.draw
        name, other = draw.choice(CALLED), draw.choice(CALLED)
        kind = draw.choice((b"mkdir", b"create", b"create", b"link", b"unlink", b"rmdir", b"rename",
                            b"chmod", b"chown", b"acl", b"user", b"text", b"text"))  # fmt: skip
        if kind in (b"mkdir", b"create"):
            fresh = b"%d" % self.following if draw.random() < 0.8 else self.number()
            self.following += 1
            group = b"%d" % draw.choice((20, 21))
            fields = [fresh, self.number(), name, self.user(), group, draw.choice(MODES)]
        elif kind == b"rename":
            fields = [self.number(), name, self.number(), other]
        elif kind == b"user":
            fields = [self.user(), *draw.sample((b"20", b"21", b"22"), draw.randrange(4))]
        elif kind == b"text":
            return self.text()
        else:
            last = {b"chmod": draw.choice(MODES), b"acl": draw.choice(LISTS)}
            more = [self.user(), b"21"] if kind == b"chown" else [last.get(kind, name)]
            fields = [self.number(), *([self.number()] if kind == b"link" else []), *more]
        return b"\t".join([kind, *fields])

    def query(self) -> bytes:
        """A line that asks."""
        draw = self.draw
        user, most = self.user(), draw.choice((b"0", b"1", b"3", b"10000", b"10001"))
        kind = draw.choice((b"count", b"find", b"rank", b"weighed", b"paths", b"terms", b"top"))
        words = b" ".join(draw.choices(WORDS, k=draw.randrange(3)))
        front = draw.choice((b"", b"a", b"AP", b"\xc3\x84p", b"a b"))
        fields = [most, draw.choice((b"file", b"line", self.expression())), words]
        if kind == b"count":
            fields = [self.expression()]
        elif kind == b"find":
            fields = [most, self.expression()]
        elif kind == b"paths":
            fields = []
        elif kind in (b"terms", b"top"):
            fields = [most, front]
        return b"\t".join([kind, user, *fields])

    def session(self, count: int) -> bytes:
        """So many lines; the last one perhaps cut off."""
        draw = self.draw
        lines = [self.event() if draw.random() < 0.7 else self.query() for _ in range(count)]
        lines.insert(draw.randrange(count), draw.choice((b"", b"# a", b"fly", b"save", b"flush\t")))
        return b"\n".join(lines) + draw.choice((b"\n", b"\n", b""))


def answered(program: str, script: bytes, folder: Path) -> tuple[int, bytes]:
    """The exit status and the replies of a session in that folder."""
    ran = subprocess.run([program, "run"], input=script, capture_output=True, cwd=folder)
    return ran.returncode, ran.stdout


def of_examples(folder: Path, score: Score) -> None:
    """The replies that the documents give."""
    for name in (*NAMES, *SESSIONS):
        place = folder / name.partition("/")[0]
        place.mkdir(exist_ok=True)
        told = answered(str(STAND_IN), (EXAMPLES / f"{name}.script").read_bytes(), place)
        due = (0, (EXAMPLES / f"{name}.replies").read_bytes())
        score.check(told == due, f"{name}: {told[1]!r}")


def beside_program(program: str, folder: Path, score: Score, given: tuple[int, int]) -> None:
    """Random scripts for both."""
    seed, count = given
    pace = Pace("stand_in", count, "scripts")
    for number in range(count):
        pace.tell(number)
        script = Script(random.Random(f"{seed} {number}"))
        one, other = folder / f"one{number}", folder / f"other{number}"
        one.mkdir()
        other.mkdir()
        for session in range(3):
            lines = script.session(60)
            told, due = answered(str(STAND_IN), lines, one), answered(program, lines, other)
            if not score.check(told == due, f"script {number}, session {session}"):
                rows = zip(told[1].split(b"\n"), due[1].split(b"\n"), strict=False)
                differs = next((row for row in rows if row[0] != row[1]), (told[0], due[0]))
                print(f"  {differs[0]!r} in place of {differs[1]!r}")


def main() -> int:
    """Runs the test."""
    parser = options(__doc__ or "")
    parser.add_argument("--scripts", type=int, default=150)
    given = parser.parse_args()
    score = Score("stand_in")
    with folder_of_own() as name:
        of_examples(Path(name), score)
        if given.program == str(STAND_IN) or not os.access(given.program, os.X_OK):
            print(f"stand_in: no program at {BUILT}: only the examples are tried")
        else:
            beside_program(given.program, Path(name), score, (given.seed, given.scripts))
    return score.end()


if __name__ == "__main__":
    sys.exit(main())
