#!/usr/bin/python3
"""Runs the tests of the service: some side by side, and those after them that need quiet, alone.

Each has a folder of its own, so that names which come and go in one are no changes on the way to
another's files. What a test measures by the clock may be late beside other work: one that fails is
run once more, alone. The status is 1 where a test failed then too.
"""

import argparse
import os
import sys
import tempfile
from collections.abc import Iterable
from pathlib import Path

from side_by_side import Ended, Job, path_of, side_by_side

NAME = "service-test"


def parser() -> argparse.ArgumentParser:
    """The options."""
    options = argparse.ArgumentParser(description=__doc__)
    add = options.add_argument
    add("tests", nargs="*", metavar="TEST", help="which run side by side: NAME of NAME_test.py")
    add("--alone", nargs="*", default=[], metavar="TEST", help="which run alone, after the others")
    add("--at-once", type=int, default=usual(), metavar="N", help=f"side by side ({usual()})")
    add("--program", metavar="PATH", help="handed to each test")
    return options


def usual() -> int:
    """How many tests there are at once: a processor is left to what they begin."""
    return max(1, min(3, (os.cpu_count() or 1) - 1))


def tell(ended: Ended) -> None:
    """Shows what a test wrote, and how it ended."""
    how = "passed" if ended.status == 0 else f"status {ended.status}"
    print(f"== {ended.job.name}: {how}, {ended.seconds:.0f} s", flush=True)
    print(ended.output, end="", flush=True)


def failed_of(jobs: list[Job], at_once: int) -> list[Job]:
    """Runs tests and tells of each: those that failed."""
    failed = []
    for ended in side_by_side(jobs, at_once):
        tell(ended)
        if ended.status != 0:
            failed.append(ended.job)
    return failed


def jobs_of(names: Iterable[str], program: str | None, folder: Path) -> list[Job]:
    """The tests of these names, each with a folder of its own."""
    more = [] if program is None else ["--program", program]
    jobs = []
    for name in names:
        own = folder / name
        own.mkdir()
        own.chmod(0o755)
        jobs.append(Job(name, [sys.executable, path_of(name), *more], str(own)))
    return jobs


def main() -> int:
    """Runs them: 0, or 1 where one failed twice."""
    given = parser().parse_args()
    with tempfile.TemporaryDirectory(
        prefix="wumpus-", dir="/var/tmp", ignore_cleanup_errors=True
    ) as name:
        folder = Path(name)
        folder.chmod(0o755)
        together = jobs_of(given.tests, given.program, folder)
        alone = jobs_of(given.alone, given.program, folder)
        failed = failed_of(together, given.at_once) + failed_of(alone, 1)
        if failed:
            print(f"{NAME}: once more: {', '.join(job.name for job in failed)}", flush=True)
            failed = failed_of(failed, 1)
    count = len(together) + len(alone)
    for job in failed:
        print(f"{NAME}: {job.name} failed twice")
    print(f"{NAME}: {count - len(failed)} passed, {len(failed)} failed")
    return 1 if failed else 0


if __name__ == "__main__":
    sys.exit(main())
