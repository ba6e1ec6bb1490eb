"""Runs every test without a proof, in minutes: those of the crates, the programs whose output is
stored, the checks of pages, and the suites of the clients with the program `pathd`.

    tools/pathd-tools test                 all of it
    tools/pathd-tools test NAME ..         the tests of these crates alone; `pages` and `suites` are names, too
    tools/pathd-tools test --missing       prints the command that installs what the suites lack, if they lack something

A crate is compiled by the front end of `rt try`, and by the toolchain's clang at -O1 without the
checks of memory. With --checked the crates that are named are run by `rt try` itself, which checks
each access of memory, and takes four times as long. A passed run says nothing of any contract;
`.ci/run` makes the proofs.

Each job has a line as it ends: `ok`, `failed` or `skipped`, its name, and how long it took. What a
failed one printed comes after its line. The last line is `N passed, N failed`. A test, a program, a
check of pages and a suite each count as one, and so does a crate that is not compiled.

A suite is skipped where it lacks a package. It has failed instead with --all, or where the variable
CI is set, as a machine that tests every change has to run all of it. A test may take 120 seconds, a
check or a suite twenty minutes. A suite that fails beside other jobs is run once more when they have
ended, by itself, and that result counts: suites measure times, which a busy machine lengthens. The
status is 1 where something failed, and else 0.

The toolchain's `rt` has to be on the PATH. A job takes a core and up to 1.5 GB of memory.
"""
from __future__ import annotations

import argparse
import os
import resource
import signal
import sys
import tempfile
import threading
import time
from functools import partial
from pathlib import Path

from pathd_tools import need, runs, toolbox
from pathd_tools.testing import crates, suites
from pathd_tools.testing.jobs import Job, Result, lanes, run_all

# The names of the checks of pages and of the suites, and the crate whose program the suites use.
PAGES, SUITES, SERVED = "pages", "suites", "pathd"


class Built:
    """A program that is built by one job, and waited for by others."""

    def __init__(self, path: Path, is_there: bool) -> None:
        self.path = path
        self._has_ended = threading.Event()
        if is_there:
            self._has_ended.set()

    def build(self) -> Result:
        """Builds the program of its name, and compares what it prints with what is stored."""
        try:
            return crates.run_program(self.path.name, self.path)
        finally:
            self._has_ended.set()

    def wait(self) -> Path | None:
        """The program, once it is built; None where it could not be built."""
        self._has_ended.wait()
        return self.path if self.path.exists() else None


def jobs_of(names: list[str], folder: Path, word: str = "") -> list[Job]:
    """A job for the tests of each crate, and one for each program."""
    found = []
    for name in names:
        if crates.has_tests(name):
            found.append(Job(name, partial(crates.run_tests, name, word)))
        if crates.is_program(name) and not word:
            found.append(Job(name, partial(crates.run_program, name, folder / name)))
    return found


def checked_jobs(names: list[str]) -> list[Job]:
    """The same by `rt try`, with its checks."""
    tests = [Job(name, partial(crates.try_tests, name)) for name in names if crates.has_tests(name)]
    return tests + [Job(name, partial(crates.try_program, name)) for name in names if crates.is_program(name)]


def planned(names: list[str], folder: Path, program: str | None, word: str, at_once: int) -> list[Job]:
    """The jobs of these names. First comes what is quick, then the program, and the suites that wait for it after some of the largest crates."""
    served = Built(folder / SERVED, is_there=False)
    needs_it = SERVED in names or (SUITES in names and not program)
    made = [Job(SERVED, served.build)] if needs_it and not word else []
    wanted = Built(Path(runs.program_of(program)), is_there=True) if program else served
    others = jobs_of([it for it in names if it not in (PAGES, SUITES, SERVED)], folder, word)
    pages = suites.pages() if PAGES in names else []
    waiting = suites.suites(wanted.wait) if SUITES in names else []
    return [*pages, *made, *others[:at_once], *waiting, *others[at_once:]]


def parsed(words: list[str]) -> tuple[argparse.Namespace, argparse.ArgumentParser]:
    """The words of the command line, and their parser."""
    parser = toolbox.parser(__doc__)
    parser.add_argument("names", nargs="*", metavar="NAME", help="a crate with tests or a stored output, `pages` or `suites`")
    parser.add_argument("--filter", default="", metavar="WORD", help="the tests whose names have this word, of the crates that are named")
    parser.add_argument("--checked", action="store_true", help="run the crates that are named with checks of each access of memory")
    parser.add_argument("--jobs", type=int, metavar="N", help="how many jobs run at one time [one for each core that has 1.5 GB]")
    parser.add_argument("--program", metavar="PROGRAM", help="the program that the suites use, in place of the one that is built")
    parser.add_argument("--all", action="store_true", help="a suite that lacks a package has failed")
    parser.add_argument("--missing", action="store_true", help="run nothing: print how to install what is missing")
    return parser.parse_args(words), parser


def processor_seconds() -> float:
    """The seconds of processors that the jobs took."""
    used = resource.getrusage(resource.RUSAGE_CHILDREN)
    return used.ru_utime + used.ru_stime


def main(words: list[str]) -> int:
    """Runs the tests, and prints how many passed."""
    asked, parser = parsed(words)
    tested = crates.tested()
    unknown = sorted(set(asked.names) - {PAGES, SUITES, *tested})
    if unknown:
        parser.error(f"{unknown[0]} is none of {', '.join([PAGES, SUITES, *sorted(tested)])}")
    if (asked.filter or asked.checked) and not asked.names or asked.filter and asked.checked:
        parser.error("--filter and --checked need a crate, and do not go together")
    at_once = asked.jobs or lanes()
    begun = time.monotonic()
    # What was started is ended with this program.
    signal.signal(signal.SIGTERM, lambda number, _: sys.exit(128 + number))
    with tempfile.TemporaryDirectory(prefix="pathd-test-") as name:
        folder = Path(name)
        names = asked.names or [PAGES, SUITES, *tested]
        jobs = checked_jobs(names) if asked.checked else planned(names, folder, asked.program, asked.filter, at_once)
        install = need.install_line(need.lacking(list(dict.fromkeys(thing for job in jobs for thing in job.needs.split()))))
        if asked.missing:
            print(install, end="\n" if install else "")
            return 0
        need.require("python3", *(["rt"] if names != [PAGES] else []))
        results = run_all(jobs, max(1, at_once), asked.all or bool(os.environ.get("CI")))
    passed, failed = sum(it.passed for it in results), sum(it.failed for it in results)
    print(f"{len(jobs)} jobs, {time.monotonic() - begun:.0f} s, {processor_seconds():.0f} s of processors")
    if install:
        print(f"what is missing: {install}")
    print(f"{passed} passed, {failed} failed")
    return 1 if failed or not passed else 0
