"""Runs each test of the crates of tests, once for each of its allocations, which is refused in that
run.

    tools/pathd-tools refused-tests [--folder FOLDER] [--most N] [--jobs N] [WORD..]

The programs are crates/NAME/out/NAME_tests, as `rt test` builds them in a crate's folder, or those
of FOLDER. A test passes, or it ends with an error that names want of memory; a failed assertion, a
signal or more than 60 seconds is wrong. A test of something else may assert a value in whose place
want of memory came. A test of which the first N allocations were refused is tried at 200 later
ones, evenly spread. With words only tests whose crate and name have one of them are run. It needs
Python 3 and gcc.
"""
from __future__ import annotations

import multiprocessing
import os
import re
import signal
import subprocess
import time
from collections import Counter
from pathlib import Path

from pathd_tools import runs, toolbox
from pathd_tools.attacks.refused_calls import refusing

SECONDS = 60
# How tests name want of memory, in the line of standard error that the error of their result gives.
REFUSALS = re.compile(rb"NoMemory|AllocError|AllocFailed|OutOfMemory|Memory")
# The tests of want of memory, which judge what a refusal leaves: by their names, as `memory::..` or
# `..::refused_calls_may_be_tried_again`.
OF_MEMORY = ("memory", "refused_")
RETURNED = b"the test failed: its result gives status 1"
LATER = 200


def outcome(program: str, test: str, library: str, folder: Path, number: int) -> str:
    """What came of a test one of whose allocations was refused."""
    env = refusing(library, folder, "memory", "refused", number)
    try:
        done = subprocess.run([program, test], capture_output=True, check=False, env={**os.environ, **env}, timeout=SECONDS, cwd=folder)
    except subprocess.TimeoutExpired:
        return "wrong: it did not end"
    if not (folder / "mark").exists():
        return "none"
    if done.returncode == 0:
        return "passed"
    if RETURNED in done.stderr and REFUSALS.search(done.stderr):
        return "NoMemory"
    if done.returncode == -signal.SIGABRT and REFUSALS.search(done.stderr) and not any(word in test for word in OF_MEMORY):
        return "NoMemory"
    return f"wrong: status {done.returncode}, {done.stderr.decode(errors='replace').strip()[-300:]}"


def last_allocation(program: str, test: str, library: str, folder: Path, first: int) -> int:
    """A number beyond which a test makes no allocation."""
    most = first
    while outcome(program, test, library, folder, most) != "none" and most < 1 << 24:
        most *= 2
    return most


def sweep(given: tuple) -> tuple[str, Counter, list[str]]:
    """Refuses each allocation of a test."""
    program, test, library, top, most = given
    name = f"{Path(program).name.removesuffix('_tests')} {test}"
    folder = Path(top) / re.sub(r"\W", "_", name)
    folder.mkdir()
    results: Counter = Counter()
    wrong = []

    def take(number: int) -> bool:
        result = outcome(program, test, library, folder, number)
        if result.startswith("wrong"):
            wrong.append(f"{name}, allocation {number}: {result}")
            result = "wrong"
        if result != "none":
            results[result] += 1
        return result != "none" and len(wrong) < 10

    number = 1
    while number <= most and take(number):
        number += 1
    if number > most and not wrong:
        end = last_allocation(program, test, library, folder, most)
        for number in range(most, end, max(1, (end - most) // LATER)):
            if not take(number):
                break
    return name, results, wrong


def tests_of(program: str) -> list[str]:
    """The names of a program's tests."""
    listed = subprocess.run([program, "--list"], capture_output=True, text=True, check=True).stdout
    return [line.removesuffix(": test") for line in listed.splitlines() if line.endswith(": test")]


def main(words: list[str]) -> int:
    """Sweeps, and prints a table."""
    parser = toolbox.parser(__doc__)
    parser.add_argument("--folder", help="where the programs of tests are; the folders of the crates if left out")
    parser.add_argument("--most", type=int, default=2_000)
    parser.add_argument("--jobs", type=int, default=2)
    parser.add_argument("words", nargs="*")
    options = parser.parse_args(words)
    where = Path(options.folder).glob("*_tests") if options.folder else runs.TOP.glob("crates/*/out/*_tests")
    programs = sorted(str(path.resolve()) for path in where if os.access(path, os.X_OK))
    if not programs:
        raise SystemExit("no programs of tests: run `rt test` in the folders of the crates of tests")
    begun = time.monotonic()
    by_crate: dict[str, Counter] = {}
    wrongs: list[str] = []
    with runs.scratch() as folder:
        library = runs.compiled("refused_calls.c", folder)
        given = [(program, test, library, str(folder), options.most) for program in programs for test in tests_of(program)]
        given = [it for it in given if not options.words or any(word in f"{it[0]} {it[1]}" for word in options.words)]
        with multiprocessing.Pool(options.jobs) as pool:
            for name, results, wrong in pool.imap_unordered(sweep, given, 1):
                crate = by_crate.setdefault(name.split()[0], Counter())
                crate += results + Counter({"tests": 1})
                by_crate[name.split()[0]] = crate
                wrongs += wrong
                for line in wrong[:3]:
                    print(f"  {line}", flush=True)
    print("| crate of tests | tests | refused allocations | passed | ended with want of memory | wrong |\n|---|---|---|---|---|---|")
    for crate, results in sorted(by_crate.items()):
        count = results["passed"] + results["NoMemory"] + results["wrong"]
        print(f"| {crate} | {results['tests']} | {count} | {results['passed']} | {results['NoMemory']} | {results['wrong']} |")
    print(f"{len(given)} tests, {len(wrongs)} wrong, {time.monotonic() - begun:.0f} seconds")
    return 1 if wrongs else 0
