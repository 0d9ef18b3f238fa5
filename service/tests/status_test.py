"""`wumpus-status` over files that mirror and service wrote, and over files of somebody else's."""

import json
import os
import re
import signal
import subprocess
import sys
import time
from collections.abc import Callable
from pathlib import Path
from typing import Any

from harness import SERVICE, Score, folder_of_own, needs_program, options
from kernel import User, become
from service_test import Served, wait_for

NAME = "evil\x1b[31m\n\udcff"
WELL, ATTENTION, TROUBLE = 0, 1, 2
STALE = 4  # seconds


def of_mirror(now: float) -> dict[str, Any]:
    """What a mirror tells that is well."""
    return {
        "format": 1, "written": now, "state": "waiting", "trouble": None,
        "walk": {"began": now - 30, "seconds": 2.5, "names": 102300, "fed": now - 26},
        "pending": {"files": 3, "bytes": 4_500_000},
        "documents": {"all": 120, "unmade": 12, "trouble": "no\x1b server"},
        "owners": {
            "0": {"names": 10, "bytes": 100, "shut": {}},
            "4000000001": {"names": 7, "bytes": 2000, "shut": {"torn": 2, "budget-names": 40}},
        },
        "shut": [{"path": f"/home/{NAME}", "owner": 4000000001, "why": "torn"}],
        "left_out": [{"path": "/home/nfs", "why": "nfs4"}],
        "held": None,
        "live": {
            "why": None, "unmarked": [{"path": f"/over{NAME}", "why": "not supported"}],
            "narrowed": 12, "batches": 5, "lost": 1,
        },
    }  # fmt: skip


def of_service(now: float) -> dict[str, Any]:
    """What a service tells that is well."""
    return {
        "format": 1, "written": now, "started": now - 500, "fed_age": 30.5, "stale": False,
        "ready": True,
        "program": {"starts": 2, "why": ["the program ended with status 4"], "memory": 123_000_000},
        "queries": {"answered": 77, "refused": {"tooslow": 2, 'x"} 1\n': 3}},
        "connections": 5, "waiting": 1, "slow": [{"uid": 1000, "until": now + 60}],
        "batches": {"fed": 9, "failed": 1},
    }  # fmt: skip


class Place:
    """A folder with both files."""

    def __init__(self, folder: Path) -> None:
        self.folder = folder
        self.told = folder / "told"
        self.told.mkdir(mode=0o700)

    def put(self, name: str, value: object) -> None:
        """Writes one of them."""
        (self.told / name).write_text(json.dumps(value))

    def well(self) -> None:
        """Writes both, of now."""
        now = time.time()
        self.put("mirror.status", of_mirror(now))
        self.put("service.status", of_service(now))

    def run(self, *words: str, user: User | None = None) -> tuple[int, str, str]:
        """Runs the program: its status, and what it wrote."""
        command = [str(SERVICE / "wumpus-status"), "--folder", str(self.told), *words]
        told = subprocess.run(
            command, capture_output=True, timeout=20,
            preexec_fn=(lambda: become(user)) if user is not None else None,
        )  # fmt: skip
        return told.returncode, told.stdout.decode(), told.stderr.decode()


def texts(place: Place, score: Score) -> None:
    """The report, where all is well."""
    place.well()
    status, out, told = place.run()
    score.check(status == WELL and not told, f"all is well: {status} {told!r}")
    for due in (
        "30 s old", "starts: 2; 123.0 MB", "ended: the program ended with status 4",
        "77 answered", "2 tooslow", "5 connections, 1 queries wait", "9 fed, 1 failed",
        "2.5 s, 102300 names", "3 files, 4.5 MB",
        "12 of 120 documents have no text yet: no\\x1b server", "4000000001: 7, 2.0 kB",
        "40 budget-names, 2 torn",
        "12 taken away in 5 batches; lost: 1",
        "not /overevil\\x1b[31m\\x0a\\xff, which waits for the next turn: not supported",
        "/home/nfs: nfs4", "/home/evil\\x1b[31m\\x0a\\xff: torn",
    ):  # fmt: skip
        score.check(due in out, f"{due!r} in {out!r}")
    bad = [one for one in out if not one.isprintable() and one != "\n"]
    score.check(not bad, f"control characters: {bad}")
    score.check("!" not in out, f"nothing needs attention: {out!r}")
    status, out, _ = place.run("--json")
    values = json.loads(out)
    path = values["mirror"]["shut"][0]["path"]
    score.check(status == WELL and path == f"/home/{NAME}", f"--json: {path!r}")
    score.check(values["attention"] == [] and values["service"]["waiting"] == 1, "--json")
    away = {"why": "/run/watch\x1b: none", "unmarked": [], "narrowed": 0, "batches": 0, "lost": 0}
    for live, due in ((None, "next turn\n"), (away, "next turn: /run/watch\\x1b: none\n")):
        place.put("mirror.status", of_mirror(time.time()) | {"live": live})
        status, out, _ = place.run()
        score.check(status == WELL and due in out, f"without what is live: {out}")
    full = of_mirror(time.time())
    full["live"]["full"] = {"looks": 70, "failed": 3, "longest": 0.1, "left": 4}
    place.put("mirror.status", full)
    out = place.run()[1]
    score.check("70 looks at changes; left to turns: 4\n" in out, f"looks: {out}")
    place.put("mirror.status", of_mirror(time.time()) | {"live": {"why": 7}})
    score.check(place.run()[0] == TROUBLE, "what is live, and isn't of its type")


def needs_attention(place: Place, score: Score) -> None:
    """What an administrator has to look at, and the exit status."""
    now = time.time()
    mirror, service = of_mirror(now), of_service(now)
    cases: tuple[tuple[dict[str, Any], dict[str, Any], str], ...] = (
        (mirror, service | {"stale": True}, "stale"),
        (mirror, service | {"ready": False, "fed_age": None}, "first turn"),
        (mirror, service | {"written": now - 3000}, "does wumpusd run"),
        (mirror | {"state": "failed", "trouble": "no room"}, service, "failed: no room"),
        (mirror | {"trouble": "/srv is gone"}, service, "/srv is gone"),
        (mirror | {"held": "9 of 10 names"}, service, "--force: 9 of 10 names"),
        (mirror | {"walk": mirror["walk"] | {"began": now - 1000}}, service, "the last walk"),
    )
    for one, other, due in cases:
        place.put("mirror.status", one)
        place.put("service.status", other)
        status, out, _ = place.run()
        first = out.partition("\n")[0]
        holds = status == ATTENTION and first.startswith("! ") and due in first
        score.check(holds, f"{due}: {out}")
    place.well()
    (place.told / "mirror.status").unlink()
    status, out, _ = place.run()
    score.check(status == ATTENTION and "wumpus-mirror" in out, f"without a mirror: {out}")
    place.well()
    status, out, _ = place.run("--old", "10")
    score.check(status == ATTENTION, f"--old: {out}")
    score.check(place.run("--old", "nan")[0] == TROUBLE, "--old: a number that none is old beside")
    place.put("mirror.status", of_mirror(time.time()) | {"walk": None, "documents": None})
    score.check(place.run()[0] == WELL, "a mirror that has just begun")


def strange(place: Place, score: Score) -> None:
    """Files that mirror or service didn't write: none is followed, waited for or trusted."""
    file = place.told / "mirror.status"
    secret = place.folder / "secret"
    secret.write_text("secret")

    def link() -> None:
        file.symlink_to(secret)

    def values(change: dict[str, Any]) -> None:
        place.put("mirror.status", of_mirror(time.time()) | change)

    def huge() -> None:
        with open(file, "wb") as out:
            out.truncate(100 << 20)

    makers: dict[str, Callable[[], object]] = {
        "a link": link,
        "a FIFO": lambda: os.mkfifo(file),
        "a folder": file.mkdir,
        "no JSON": lambda: file.write_text("{"),
        "deep JSON": lambda: file.write_text("[" * 100_000),
        "a list": lambda: file.write_text("[]"),
        "another format": lambda: values({"format": 2}),
        "a number for a text": lambda: values({"state": 1}),
        "a truth for a number": lambda: values({"pending": {"files": True, "bytes": 0}}),
        "a user": lambda: values({"owners": {"x": {"names": 0, "bytes": 0, "shut": {}}}}),
        "a time past all calendars": lambda: values({"written": 1e300}),
        "no number": lambda: values({"written": float("nan")}),
        "a negative count of documents": lambda: values({"documents": {"all": -1}}),
        "a negative count": lambda: values({"pending": {"files": -1, "bytes": 0}}),
        "a huge one": huge,
    }
    place.well()
    file.unlink()
    for what, make in makers.items():
        make()
        status, out, told = place.run()
        score.check(status == TROUBLE and not out and "mirror.status" in told, f"{what}: {told!r}")
        score.check("Traceback" not in told and "secret" not in told, f"{what}: {told!r}")
        if file.is_dir():
            file.rmdir()
        else:
            file.unlink()
    (place.told / "service.status").unlink()
    status, _, told = place.run()
    score.check(status == TROUBLE and "neither" in told, f"an empty folder: {told!r}")


def metrics(place: Place, score: Score) -> None:
    """What node_exporter reads."""
    place.well()
    out = place.folder / "wumpus.prom"
    victim = place.folder / "victim"
    victim.write_text("kept")
    out.symlink_to(victim)
    status, told, _ = place.run("--metrics", str(out))
    score.check(status == WELL and not told, f"--metrics: {status} {told!r}")
    score.check(victim.read_text() == "kept" and not out.is_symlink(), "a link isn't followed")
    score.check(out.stat().st_mode & 0o777 == 0o644, "its mode")
    lines = out.read_text().splitlines()
    form = re.compile(r'wumpus_[a-z_]+(\{[a-z]+="[a-z0-9-]+"\})? [0-9.e+]+|# (HELP|TYPE) wumpus_.*')
    odd = [one for one in lines if not form.fullmatch(one)]
    score.check(not odd, f"lines of another form: {odd}")
    for due in (
        "wumpus_attention 0", "wumpus_stale 0", "wumpus_ready 1", "wumpus_rights_age_seconds 30.5",
        'wumpus_shut{reason="torn"} 2', 'wumpus_queries_refused_total{word="tooslow"} 2',
        "wumpus_names 102300", "wumpus_program_starts_total 2", "wumpus_text_bytes 2100",
    ):  # fmt: skip
        score.check(due in lines, f"{due}: {lines}")
    left = sorted(one.name for one in place.folder.iterdir() if one.name.startswith("."))
    score.check(left == [], f"files that are left: {left}")
    place.put("service.status", of_service(time.time()) | {"stale": True})
    place.run("--metrics", str(out))
    lines = out.read_text().splitlines()
    score.check("wumpus_stale 1" in lines and "wumpus_attention 1" in lines, "stale")
    status, _, told = place.run("--metrics", str(place.folder / "none" / "x.prom"))
    score.check(status == TROUBLE and bool(told), f"a folder that isn't there: {told!r}")


def many(place: Place, score: Score) -> None:
    """The first owners and paths alone, unless all are wanted."""
    mirror = of_mirror(time.time())
    mirror["owners"] = {
        f"{4_000_000_000 + one}": {"names": one, "bytes": 0, "shut": {}} for one in range(50)
    }
    mirror["shut"] = [{"path": f"/p{one}", "owner": 0, "why": "torn"} for one in range(30)]
    place.well()
    place.put("mirror.status", mirror)
    out = place.run()[1]
    score.check("30 more owners" in out and "4000000049: 49" in out, f"the first owners: {out!r}")
    score.check("/p19:" in out and "/p20:" not in out and "10 more paths" in out, "the first paths")
    out = place.run("--all")[1]
    score.check("/p29:" in out and "4000000000: 0" in out and "more" not in out, f"--all: {out!r}")


def beside_service(folder: Path, program: str, score: Score) -> None:
    """What a service and its mirror tell, and that a mirror which is stopped is told of."""
    folder.mkdir()
    served = Served(folder, program)
    (served.tree / "open").write_text("apple\n")
    (served.tree / "link").symlink_to("open")
    served.start("--stale", f"{STALE}")
    words = ["--served", "--every", "1", "--quiet", "--folder", str(served.store)]
    words += ["--sockets", str(served.sockets), str(served.tree)]
    mirror = subprocess.Popen([str(SERVICE / "wumpus-mirror"), *words])
    command = [str(SERVICE / "wumpus-status"), "--folder", str(served.store)]

    def told() -> tuple[int, str]:
        ran = subprocess.run(command, capture_output=True, text=True)
        return ran.returncode, ran.stdout

    try:
        wait_for(lambda: told()[0] == WELL, 20)
        status, out = told()
        score.check(status == WELL and "starts: 1" in out, f"a service and a mirror: {out}")
        mirror.send_signal(signal.SIGSTOP)
        wait_for(lambda: told()[0] == ATTENTION, STALE + 10)
        status, out = told()
        score.check(status == ATTENTION and "(stale)" in out, f"a mirror that is stopped: {out}")
        mirror.send_signal(signal.SIGCONT)
        wait_for(lambda: told()[0] == WELL, 20)
        score.check(told()[0] == WELL, "one that goes on")
    finally:
        mirror.kill()
        mirror.wait()
        served.end(signal.SIGTERM)


def main() -> int:
    """Runs the test."""
    given = options(__doc__ or "").parse_args()
    needs_program("status", given.program)
    score = Score("status")
    with folder_of_own() as name:
        place = Place(Path(name))
        for part in (texts, needs_attention, strange, metrics, many):
            part(place, score)
        if os.geteuid() == 0:
            place.well()
            status, out, told = place.run(user=User(1001, (1001,)))
            score.check(status == TROUBLE and not out and "root" in told, f"as a user: {told!r}")
        beside_service(Path(name) / "served", given.program, score)
    return score.end()


if __name__ == "__main__":
    sys.exit(main())
