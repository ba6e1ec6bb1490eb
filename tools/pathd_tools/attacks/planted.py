"""Plants faults in the program, and says how often each of them is seen.

    tools/pathd-tools planted [--only NAME ..] [--program PROGRAM] [--images N] [--replies N] [--frames N] [--seed N] [--jobs N]

All faults of tools/planted/faults are applied to a copy of the crates, whose program is built
without proofs (it has none), once. The variable PLANTED has the number of the fault that a run of it
has; without it there is none. So it is attacked by power-cuts, by histories and by hostile for each
fault. PROGRAM keeps the program, and is not built where it is there already. The faults in files of
gateway/ are applied to a copy of the repository, whose gateway is tried by the tool `gateway`.

Lines are printed for each fault: the losses that power-cuts found among its images, after 20 of
which it ends, the replies that histories could not explain, and the frames that hostile saw
answered otherwise than by the model; of the gateway how many of its tests failed. A recorded run of
which no order of the commands can be made is a find too. The status is 1 where none of them saw a
fault. It needs Python 3, gcc, `rt`, two minutes of a processor and 2 GB of memory for the build, and
the loopback. For the gateway it needs what the tool `gateway` does.
"""
from __future__ import annotations

import argparse
import os
import re
import shutil
import subprocess
import sys
import tempfile
from dataclasses import dataclass
from pathlib import Path

from pathd_tools import TOP, building, need, runs, toolbox

FAULTS = TOP / "tools" / "planted" / "faults"
# Of power-cuts: short runs, openings that are not cut, and an end after so many losses.
CUTTING = "--commands 1200 --restarts 0 --openings 0 --enough 20"
# The files of the gateway, and the line of a test of its that failed.
GATEWAY = "gateway/"
FAILED = re.compile(r"^ *--- FAIL: (\w+)", re.M)
# How the errors begin by which a tool judges a recorded run, and the store that it leaves.
JUDGED = ("RuntimeError: ", "pathd_model.model.NoStore: ")
COUNTED = re.compile(r"^(\d+) (?:images, (\d+) losses|replies, (\d+) unexplained|frames, 0 images, (\d+) differ)", re.M)


# What a file has at its end, or a file beside it, so that its faults may be chosen.
CHOSEN = """
unsafe extern "C" {
    safe fn planted(number: u32) -> bool;
}
"""
CHOSEN_IN_GO = """package %s

import "os"

func planted(number string) bool { return os.Getenv("PLANTED") == number }
"""


@dataclass(frozen=True)
class Fault:
    """A fault: its number, its name, what is wrong, the file, and what is replaced there by what."""

    number: int
    name: str
    body: str
    file: str
    old: str
    new: str

    @property
    def is_of_gateway(self) -> bool:
        """Whether it is in a file of the gateway."""
        return self.file.startswith(GATEWAY)


def all_faults() -> list[Fault]:
    """The faults, in the order of their file."""
    found = re.findall(r"^name: (.+)\nbody: (.+)\nfile: (.+)\nold: (.+)\nnew: (.+)$", FAULTS.read_text(), re.M)
    return [Fault(number, *words) for number, words in enumerate(found, 1)]


def plant(faults: list[Fault], top: Path) -> None:
    """Applies faults to a copy of the repository, in which each may be chosen by its number."""
    for fault in faults:
        path = top / fault.file
        text = path.read_text()
        if text.count(fault.old) != 1:
            raise SystemExit(f"{fault.name}: {fault.file} has {text.count(fault.old)} times: {fault.old}")
        number = f'"{fault.number}"' if fault.is_of_gateway else str(fault.number)
        text = text.replace(fault.old, fault.new.replace("FAULT", f"planted({number})"))
        if fault.is_of_gateway:
            path.with_name("planted.go").write_text(CHOSEN_IN_GO % path.parent.name)
        elif CHOSEN not in text:
            text += CHOSEN
        path.write_text(text)


def build(faults: list[Fault], program: Path) -> None:
    """Builds the program with faults."""
    with tempfile.TemporaryDirectory(prefix="pathd-planted-") as name:
        top, chooser = Path(name), Path(name) / "planted.o"
        shutil.copytree(TOP / "crates", top / "crates", ignore=shutil.ignore_patterns("out"))
        shutil.copy(TOP / "crates.txt", top / "crates.txt")
        subprocess.run(["git", "init", "-q", str(top)], check=True)
        plant(faults, top)
        subprocess.run(["gcc", "-c", "-O1", str(runs.NATIVE / "planted.c"), "-o", str(chooser)], check=True)
        os.environ["RT_ALLOW_C"] = "1"
        building.build(top / "crates" / "pathd", program, objects=[chooser])


def run_tool(top: Path, fault: Fault, words: list[str]) -> subprocess.CompletedProcess:
    """Runs a tool of a repository while a fault is chosen."""
    env = {**os.environ, "PLANTED": str(fault.number)}
    return subprocess.run([top / "tools" / "pathd-tools", *words], capture_output=True, text=True, errors="replace", check=False, env=env)


def attack(fault: Fault, words: list[str]) -> tuple[int, str]:
    """Runs an attack, and answers how often it saw something, and the line that says so."""
    done = run_tool(TOP, fault, words)
    counted = COUNTED.search(done.stdout)
    if counted:
        return int(counted[2] or counted[3] or counted[4]), counted[0]
    # What a recorded run shows may be such that no image is made.
    ended = runs.last_line(done.stderr.encode()) or f"status {done.returncode}"
    return int(ended.startswith(JUDGED)), f"ended early: {ended}"


def try_gateway(fault: Fault, top: Path, program: Path) -> tuple[int, str]:
    """Tries a gateway with faults before a program, and answers how many of its tests failed, and a line that says so."""
    done = run_tool(top, fault, ["gateway", str(program)])
    failed = FAILED.findall(done.stdout)
    if done.returncode and not failed:
        raise SystemExit(f"{fault.name}: {runs.last_line(done.stderr.encode()) or runs.last_line(done.stdout.encode())}")
    return len(failed), f"{len(failed)} tests failed, as {failed[0]}" if failed else "no test failed"


def attack_program(fault: Fault, program: Path, options: argparse.Namespace) -> dict[str, tuple[int, str]]:
    """What each attack has seen of a fault."""
    given = ["--program", str(program), "--seed", options.seed]
    return {
        "power-cuts": attack(fault, ["power-cuts", *given, *CUTTING.split(), "--images", str(options.images), "--jobs", options.jobs]),
        "histories": attack(fault, ["histories", *given, "--replies", str(options.replies), "--kills", "6"]),
        "hostile": attack(fault, ["hostile", *given, "--frames", str(options.frames), "--images", "0", "--jobs", "1"]),
    }


def main(words: list[str]) -> int:
    """Plants and attacks."""
    faults = all_faults()
    parser = toolbox.parser(__doc__)
    parser.add_argument("--only", nargs="+", choices=[it.name for it in faults], metavar="NAME")
    parser.add_argument("--program", type=Path, help="keep the program here")
    parser.add_argument("--images", type=int, default=4_000)
    parser.add_argument("--replies", type=int, default=40_000)
    parser.add_argument("--frames", type=int, default=24_000)
    parser.add_argument("--seed", default="1")
    parser.add_argument("--jobs", default="2", help="processes of power-cuts")
    options = parser.parse_args(words)
    need.require("rt", "gcc")
    wanted = [it for it in faults if not options.only or it.name in options.only]
    unseen = []
    with tempfile.TemporaryDirectory() as name:
        program, top = (options.program or Path(name) / "pathd").resolve(), Path(name) / "top"
        if not program.exists():
            build([it for it in faults if not it.is_of_gateway], program)
        print(f"program {runs.sum_of(str(program))}, seed {options.seed}", flush=True)
        if any(it.is_of_gateway for it in wanted):
            shutil.copytree(TOP, top, ignore=shutil.ignore_patterns("out", ".git"))
            plant([it for it in faults if it.is_of_gateway], top)
        for fault in wanted:
            found = {"gateway": try_gateway(fault, top, program)} if fault.is_of_gateway else attack_program(fault, program, options)
            unseen += [] if any(count for count, _ in found.values()) else [fault.name]
            print(f"{fault.name}: {fault.body}", *(f"  {name}: {line}" for name, (_, line) in found.items()), sep="\n", flush=True)
    for name in unseen:
        print(f"not seen: {name}", file=sys.stderr)
    return 1 if unseen else 0
