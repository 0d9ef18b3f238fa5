"""The package in a clean root: installed, used by a user, removed and purged.

    debootstrap --variant=minbase --include=python3 bookworm ROOT
    python3 package_test.py --root ROOT --package out/wumpus_1.0.0_amd64.deb

The services are run as their units have them, with the same user and capabilities, but without
systemd, which a clean root doesn't run. The root gets a `/proc` meanwhile.
"""

import argparse
import shutil
import subprocess
import sys
from pathlib import Path

from harness import Score, needs_root
from service_test import wait_for

LEFT = (
    "usr/bin/wumpus", "usr/bin/wumpus-plan", "usr/bin/wumpus-ask", "usr/sbin/wumpusd", "usr/share/wumpus",
    "etc/default/wumpus", "etc/wumpus/excludes", "var/lib/wumpus", "var/lib/wumpus-mirror",
    "lib/systemd/system/wumpusd.service", "usr/share/doc/wumpus",
)  # fmt: skip
PROGRAMS = (
    "wumpus-mirror", "wumpusd", "wumpus-ask", "wumpus-web", "wumpus-lint", "wumpus-status",
    "wumpus-why", "wumpus-extract", "wumpus-watch",
)  # fmt: skip


class Root:
    """A clean root."""

    def __init__(self, folder: Path) -> None:
        self.folder = folder

    def run(self, *words: str) -> tuple[int, str]:
        """Runs a command in it: the status, and what it wrote."""
        told = subprocess.run(["chroot", str(self.folder), *words], capture_output=True, text=True)
        return told.returncode, told.stdout + told.stderr

    def start(self, *words: str) -> subprocess.Popen[bytes]:
        """Starts a command in it."""
        return subprocess.Popen(["chroot", str(self.folder), *words])

    def service(self, user: str, *words: str, capability: str = "") -> subprocess.Popen[bytes]:
        """Starts a program as a unit's user, with one capability at most."""
        limits = [f"--bounding-set=-all{',+' + capability if capability else ''}"]
        if capability:
            limits += [f"--inh-caps=-all,+{capability}", f"--ambient-caps=-all,+{capability}"]
        as_user = ["setpriv", f"--reuid={user}", f"--regid={user}", "--clear-groups", *limits]
        return self.start(*as_user, "--no-new-privs", *words)

    def ask(self, user: str, *words: str) -> tuple[int, str]:
        """Asks as a user."""
        as_user = ["setpriv", f"--reuid={user}", f"--regid={user}", "--init-groups"]
        return self.run(*as_user, "wumpus-ask", *words)


def installed(root: Root, package: Path, score: Score) -> None:
    """Installs the package."""
    shutil.copy(package, root.folder / "wumpus.deb")
    status, told = root.run("dpkg", "-i", "/wumpus.deb")
    score.check(status == 0, f"dpkg -i: {told}")
    for user, folder in (("_wumpus", "wumpus"), ("_wumpus-mirror", "wumpus-mirror")):
        score.check(root.run("id", user)[0] == 0, f"the account {user}")
        mode = (root.folder / "var/lib" / folder).stat().st_mode & 0o7777
        score.check(mode == 0o700, f"the mode of its folder: {mode:o}")
    score.check("nothing is searched before" in told, f"what is to be done next: {told}")
    for program in PROGRAMS:
        status, told = root.run(program, "--version")
        score.check(status == 0 and program in told, f"{program} --version: {told}")
    status, told = root.run("sh", "-c", "printf 'batch\\t0\\t0\\n' | /usr/bin/wumpus-plan")
    score.check((status, told) == (0, "plan\t0\t0\n"), f"wumpus-plan: {told}")


def used(root: Root, score: Score) -> None:
    """Two users, a private file and a shared one."""
    for user in ("ann", "bob"):
        root.run("useradd", "--create-home", user)
        root.run("chmod", "755", f"/home/{user}")
        (root.folder / f"home/{user}/diary").write_text(f"budget of {user}\n")
        root.run("chown", f"{user}:{user}", f"/home/{user}/diary")
        root.run("chmod", "600", f"/home/{user}/diary")
        (root.folder / f"home/{user}/.ssh").mkdir()
        (root.folder / f"home/{user}/.ssh/note").write_text("budget of keys\n")
    root.run("install", "-d", "-o", "_wumpus", "-m", "755", "/run/wumpus")
    words = ("--program", "/usr/bin/wumpus", "--mirror-user", "_wumpus-mirror")
    service = root.service("_wumpus", "wumpusd", *words)
    wait_for((root.folder / "run/wumpus/control").exists)
    mirror = root.service(
        "_wumpus-mirror", "wumpus-mirror", "--served", "--quiet", "--folder",
        "/var/lib/wumpus-mirror", "--exclude-from", "/etc/wumpus/excludes", "/home",
        capability="dac_read_search",
    )  # fmt: skip
    score.check(mirror.wait() == 0, "a turn of the mirror")
    for user in ("ann", "bob"):
        status, told = root.ask(user, "budget")
        due = f"/home/{user}/diary:1:budget of {user}\n"
        score.check((status, told) == (0, due), f"{user}: {told}")
    score.check(root.ask("bob", "-c", "ann")[0] == 1, "bob isn't told of ann's diary")
    score.check(root.ask("bob", "-c", "keys")[0] == 1, "what lies beside keys isn't searched")
    service.terminate()
    score.check(service.wait() == 0, "the end of the service")


def upgraded(root: Root, score: Score) -> None:
    """Installs it over itself where units are disabled, which they stay."""
    (root.folder / "run/systemd/system").mkdir(parents=True, exist_ok=True)
    stub = root.folder / "usr/local/bin/systemctl"
    stub.write_text('#!/bin/sh\necho "$@" >>/systemctl.said\ntest "$2" != is-enabled\n')
    stub.chmod(0o755)
    status, told = root.run("dpkg", "-i", "/wumpus.deb")
    said = (root.folder / "systemctl.said").read_text().splitlines()
    begun = [line for line in said if line.startswith(("enable", "start"))]
    score.check(status == 0 and begun == [], f"an upgrade begins {begun}: {told}")
    stub.unlink()
    (root.folder / "run/systemd/system").rmdir()


def removed(root: Root, score: Score) -> None:
    """Removes the package, and purges it."""
    status, told = root.run("dpkg", "-r", "wumpus")
    score.check(status == 0, f"dpkg -r: {told}")
    store = root.folder / "var/lib/wumpus/wumpus-store"
    score.check(store.exists(), "the store stays")
    others = root.folder / "var/lib/wumpus/notes"
    others.write_text("an administrator's own\n")
    status, told = root.run("dpkg", "-P", "wumpus")
    score.check(status == 0 and not store.exists(), f"dpkg -P: {told}")
    score.check(others.exists(), "a file that the package didn't make stays")
    others.unlink()
    others.parent.rmdir()
    left = [one for one in LEFT if (root.folder / one).exists()]
    score.check(left == [], f"after a purge: {left}")


def foreign(root: Root, score: Score) -> None:
    """A person of the name of one of its accounts: the package isn't configured."""
    root.run("userdel", "_wumpus")
    root.run("useradd", "--create-home", "_wumpus")
    status, told = root.run("dpkg", "-i", "/wumpus.deb")
    score.check(status != 0 and "no system account" in told, f"a person's account: {told}")
    root.run("dpkg", "-P", "wumpus")
    root.run("userdel", "--remove", "_wumpus")


def main() -> int:
    """Runs the test."""
    parser = argparse.ArgumentParser(description=__doc__)
    parser.add_argument("--root", required=True)
    parser.add_argument("--package", required=True)
    given = parser.parse_args()
    needs_root("package")
    score = Score("package")
    root = Root(Path(given.root))
    process_folder = str(root.folder / "proc")
    subprocess.run(["mount", "-t", "proc", "proc", process_folder], check=True)
    try:
        installed(root, Path(given.package), score)
        used(root, score)
        upgraded(root, score)
        removed(root, score)
        foreign(root, score)
    finally:
        subprocess.run(["umount", process_folder])
    return score.end()


if __name__ == "__main__":
    sys.exit(main())
