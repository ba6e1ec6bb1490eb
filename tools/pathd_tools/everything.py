"""Runs every test and check that makes no proof: `tools/pathd-tools test`, and those of the built
program that need packages or root. It prints a line for each, with the output of what failed. The
status is 1 where a check failed, else 2 where one was left out for want of something, else 0.

    tools/pathd-tools all [PROGRAM]

PROGRAM is crates/pathd/out/pathd if left out, which `rt run` builds; where there is none, `test`
builds one for its suites, and the other checks are left out. Traffic goes over the loopback alone.
The longest are refused-memory, refused-calls, power-cuts and histories, which can be run by
themselves with fewer cases. refused-tests is not among them, as it needs the programs of the crates
of tests.
"""
from __future__ import annotations

import os
import subprocess
from pathlib import Path

from pathd_tools import TOP, need, runs, toolbox

# What each check of the program needs, and its words, in which PROGRAM is the program's path.
PROGRAMS = [
    ("root debootstrap make lintian", "package PROGRAM"),
    ("gcc python3", "refused-memory PROGRAM"),
    ("strace python3", "locks PROGRAM"),
    ("strace perl", "syscalls PROGRAM"),
    ("strace", "faults PROGRAM"),
    ("python3", "closed-handles PROGRAM"),
    ("python3", "terminal PROGRAM"),
    ("python3", "going-on PROGRAM"),
    ("chromium gcc", "plots-shown PROGRAM"),
    ("python3", "asking PROGRAM"),
    ("strace python3", "server-calls PROGRAM"),
    ("root losetup", "block-device PROGRAM"),
    ("root ip nft wg haproxy stunnel openssl python3-protobuf", "network PROGRAM"),
    ("root btrfs", "snapshots --program PROGRAM"),
    ("root glusterd ip", "replicated --rounds 6 --program PROGRAM"),
    ("root losetup nspawn nft ip make curl protoc python3-protobuf", "units PROGRAM"),
    ("gcc python3", "refused-calls --program PROGRAM"),
    ("gcc python3", "power-cuts --program PROGRAM"),
    ("gcc python3", "histories --program PROGRAM"),
    ("python3-protobuf", "servers --program PROGRAM"),
    ("gcc python3", "short-load PROGRAM"),
]
FAILED, LEFT_OUT = 1, 2


def check(things: str, line: str, program: str = "") -> int:
    """Runs a check, and prints what came of it."""
    words = ["tools/pathd-tools", *(program if word == "PROGRAM" else word for word in line.split())]
    lacking = need.missing(things.split())
    if lacking:
        print(f"left out: {' '.join(words)}", *(f"  {it}" for it in lacking), sep="\n", flush=True)
        return LEFT_OUT
    done = subprocess.run(words, cwd=TOP, stdout=subprocess.PIPE, stderr=subprocess.STDOUT, text=True, errors="replace", check=False)
    if done.returncode == 0:
        skipped = [it for it in done.stdout.splitlines() if it.startswith("skipped")]
        print(f"ok: {' '.join(words)}", *(f"  {it}" for it in skipped), sep="\n", flush=True)
        return LEFT_OUT if skipped else 0
    print(f"failed with status {done.returncode}: {' '.join(words)}", *(f"  {it}" for it in done.stdout.splitlines()), sep="\n", flush=True)
    return FAILED


def main(words: list[str]) -> int:
    """Runs all checks."""
    parser = toolbox.parser(__doc__)
    parser.add_argument("program", nargs="?", type=Path, default=runs.PROGRAM, metavar="PROGRAM")
    program = str(parser.parse_args(words).program.resolve())
    is_there = os.access(program, os.X_OK)
    results = [check("rt python3", "test --program PROGRAM" if is_there else "test", program)]
    if is_there:
        results += [check(things, line, program) for things, line in PROGRAMS]
    else:
        print(f"left out: the checks of the program; there is no {program}", *(f"  {it}" for it in need.missing(["pathd"])), sep="\n")
        results.append(LEFT_OUT)
    results.append(check("protoc python3-protobuf", "protobuf"))
    results.append(check("promtool", "alert-rules"))
    return FAILED if FAILED in results else max(results)
