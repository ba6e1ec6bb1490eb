"""Runs `rt ci`, by default on a copy of the repository without the crates of tests: all proofs of the
libraries and the programs, the wrong bodies that must be refused, and the programs as two compilers
build them.

    tools/pathd-tools gate             without the proofs of the tests, as a merge needs it
    tools/pathd-tools gate --tests     with them, in the repository itself

The proofs of the tests take as long as those of most libraries, and say nothing of the program.
`tools/pathd-tools test` runs the tests without proofs. The copy is in a temporary folder. What
`rt ci` builds of the program `pathd` comes to crates/pathd/out/, so the program there is the one
that was proved. Where the variable RT_JOBS is not set, three crates are proved at a time. `gate_hook` has
`rt` prove a library by two processes where few are being proved, and has it read each crate's
sources once for each sum of them, and not once for each way that leads down to it. The output and
the status are those of `rt ci`, but for one thing more: no function of `logged_state`, or of a crate
below it, may wait. So each returns, and its clauses on every moment of a device hold of each call.
"""
from __future__ import annotations

import os
import re
import shutil
import subprocess
import tempfile
from pathlib import Path

from pathd_tools import TOP, need
from pathd_tools.pages import source
from pathd_tools.testing import crates
from pathd_tools.toolbox import parser

# How many crates are proved at a time.
JOBS = "3"
# What Python reads before `rt`.
HOOK = Path(__file__).with_name("gate_hook")
# What the copy has beside the crates.
FILES = ("crates.txt", "HANDLES")
# Its functions and those of the crates below write the device of a server, and each of them returns.
RETURNS = "logged_state"
# The program, in its folder of the crate.
BUILT = Path("crates/pathd/out")


def kept() -> set[str]:
    """The crates of the copy: those of the product, the programs, and what these use."""
    return with_below([it for it in source.uses() if crates.is_program(it) or not it.startswith("test_")])


def with_below(wanted: list[str]) -> set[str]:
    """These crates, and the crates of the repository that they use."""
    uses = source.uses()
    found: set[str] = set()
    while wanted:
        name = wanted.pop()
        if name in uses and name not in found:
            found.add(name)
            wanted += uses[name]
    return found


def copy_to(folder: Path, names: set[str]) -> None:
    """Copies these crates, without what earlier runs built."""
    for name in FILES:
        shutil.copyfile(TOP / name, folder / name)
    lines = (TOP / "crates.txt").read_text().splitlines(keepends=True)
    (folder / "crates.txt").write_text("".join(it for it in lines if not it.split("#")[0].strip() or it.split(":")[0].split()[0] in names))
    for name in names:
        shutil.copytree(TOP / "crates" / name, folder / "crates" / name, ignore=shutil.ignore_patterns("out"))


def prove(folder: Path) -> int:
    """Runs `rt ci` in a folder, and answers its status; 1 where a function may wait that has to return."""
    returning, crate, waiting = with_below([RETURNS]), "", []
    environment = {"RT_JOBS": JOBS, **os.environ, "PYTHONPATH": str(HOOK)}
    with subprocess.Popen(["rt", "ci"], cwd=folder, env=environment, stdout=subprocess.PIPE, stderr=subprocess.STDOUT, text=True, errors="replace") as run:
        for line in run.stdout or ():
            print(line, end="", flush=True)
            if line.startswith("== "):
                crate = line.removeprefix("== ").strip()
            elif crate in returning and re.match(r"logic=.* may-wait=", line):
                waiting.append(crate)
    if waiting:
        print(f"gate: functions of {', '.join(waiting)} may wait\n0 passed, {len(waiting)} failed")
    return run.returncode or int(bool(waiting))


def main(words: list[str]) -> int:
    """Runs the gate, and answers its status."""
    words_of_gate = parser(__doc__)
    words_of_gate.add_argument("--tests", action="store_true", help="prove the tests, too, in the repository itself")
    asked = words_of_gate.parse_args(words)
    need.require("rt")
    if asked.tests:
        return prove(TOP)
    with tempfile.TemporaryDirectory(prefix="pathd-gate-") as name:
        folder = Path(name)
        copy_to(folder, kept())
        status = prove(folder)
        if (folder / BUILT).is_dir():
            (TOP / BUILT).mkdir(exist_ok=True)
            for built in (it for it in (folder / BUILT).iterdir() if it.is_file()):
                shutil.copy2(built, TOP / BUILT / built.name)
    return status
