"""Runs each tool that attacks the built program from outside: power cuts, histories, refusals,
peers, also of HTTP, a device that hangs, hostile bytes and a soak, and planted faults.
docs/RELIABILITY.md says what each tries.

    tools/pathd-tools attacks [--short] [--only NAME ..] [--for MINUTES] [--seed N] [--jobs N] [--summary FILE] [PROGRAM]

PROGRAM is crates/pathd/out/pathd if left out, which `rt run` builds. With --short all of it is
meant for ten minutes on a machine that does nothing else; without it the counts are those of
docs/RELIABILITY.md, and it takes some hours. --only takes some of the attacks by their names, so
that several can run side by side:

    power-cuts            images of a recorded server, of both versions, after openings, upgrades and copies
    power-cuts-rows       the same over a store of 2,000 rows, whose checkpoints have several pieces
    swallowed-KIND        the same, every second sync of a kind left out: group, gate, chunks, half
    histories             32 sessions, each of which sends 1 to 128 requests ahead
    histories-kills       the same, the server killed again and again
    refused-memory, refused-calls, peers, web-peers, hanging, hostile, soak, expiring, clocks
                          the tools of these names; web-peers builds the gateway
    loop                  what a loop device has of a store while the server is stopped; as root, by --only alone
    refused-tests         programs that `rt test` has built; by --only alone
    planted               faults in the sources, for which `rt` builds a program; by --only alone

With --for each of them goes on for so many minutes, with further seeds; one that is under way then
is not cut off. Each line of the summary has when the attack ended, the start of the program's
SHA-256, the attack with its words, its status, how long it took and its last line. The summary is
printed at the end with the whole SHA-256, and its lines are added to FILE as they come, which
several runs may share. A part that fails gives the status 1. It needs Python 3 and gcc (apt-get
install python3 gcc libc6-dev), for web-peers what `gateway/build` names, 10,100 descriptors, and the
loopback, and is no part of the gate.
"""
from __future__ import annotations

import argparse
import hashlib
import subprocess
import sys
import time
from dataclasses import dataclass
from pathlib import Path

from pathd_tools import TOP, need, runs, toolbox

KINDS = ["group", "gate", "chunks", "half"]


@dataclass(frozen=True)
class Attack:
    """An attack: its tool, the words that it always gets, its counts in short and in full, and which of --program,
    --seed, --jobs and --for it takes."""

    name: str
    tool: str
    words: str
    short: str
    full: str
    takes: frozenset[str]


def attack(name: str, tool: str, words: str, short: str, full: str, takes: str) -> Attack:
    """An attack, with what it takes in words."""
    return Attack(name, tool, words, short, full, frozenset(takes.split()))


CUTTING = "--images 1500 --commands 2400 --openings 1", "--images 4000 --commands 4000 --openings 1"
CUTTING_ROWS = "--images 1500 --commands 400 --openings 1 --restarts 0", "--images 100000"
ATTACKS = [
    attack("power-cuts", "power-cuts", "", "--images 6000 --commands 500 --openings 8 --restarts 2", "--images 500000", "program seed jobs for"),
    attack("power-cuts-rows", "power-cuts", "--rows 2000 --copies 1", *CUTTING_ROWS, "program seed jobs for"),
    *[attack(f"swallowed-{kind}", "power-cuts", f"--swallowed {kind}", *CUTTING, "program seed jobs") for kind in KINDS],
    attack("histories", "histories", "--kills 2", "--replies 30000", "--replies 1000000", "program seed for"),
    attack("histories-kills", "histories", "--kills 11", "--replies 30000", "--replies 1000000", "program seed for"),
    attack("refused-memory", "refused-memory", "", "", "", "last"),
    attack("refused-calls", "refused-calls", "", "--every 40", "", "program jobs for"),
    attack("refused-tests", "refused-tests", "::refused_ memory", "--most 40", "--most 2000", "jobs"),
    attack("peers", "peers", "", "--connections 2000 --seconds 5", "", "program"),
    attack("web-peers", "web-peers", "", "--connections 500 --seconds 5 --requests 4000", "", "program seed"),
    attack("hanging", "hanging", "", "--rounds 2 --seconds 5", "--rounds 20 --seconds 20", "program seed"),
    attack("hostile", "hostile", "", "--frames 60000 --images 4000", "--frames 1000000 --images 100000", "program seed jobs"),
    attack("expiring", "expiring", "", "--seconds 20", "--seconds 300", "program seed"),
    attack("clocks", "clocks", "", "", "", "program"),
    attack("soak", "soak", "", "--minutes 1 --rate 0", "--minutes 60 --rate 0", "program seed minutes"),
    attack("loop", "snapshots", "--kind loop", "--snapshots 20", "--snapshots 400", "program seed"),
    attack("planted", "planted", "", "--images 2000 --replies 20000", "", "seed jobs"),
]
# Those that need root, or programs that `rt` builds.
APART = {"loop", "planted", "refused-tests"}


@dataclass(frozen=True)
class Ended:
    """What came of an attack."""

    attack: Attack
    words: list[str]
    status: int
    seconds: float
    last_line: str

    def row(self, program_sum: str) -> str:
        """A line of the summary."""
        when = time.strftime("%Y-%m-%d %H:%M", time.gmtime())
        return f"| {when} | {program_sum[:12]} | {self.attack.name} | `{' '.join(self.words)}` | {self.status} | {self.seconds:.0f} | {self.last_line} |"


HEAD = ["| ended, UTC | program | attack | run | status | seconds | last line |", "|---" * 7 + "|"]


def words_of(it: Attack, is_short: bool, program: str, seed: int, jobs: int, minutes: float) -> list[str]:
    """The words of an attack."""
    words = [it.tool, *it.words.split(), *(it.short if is_short else it.full).split()]
    words += ["--program", program] if "program" in it.takes else []
    words += ["--seed", str(seed)] if "seed" in it.takes else []
    words += ["--jobs", str(jobs)] if "jobs" in it.takes else []
    if minutes:
        words += ["--for", f"{minutes:g}"] if "for" in it.takes else []
        words += ["--minutes", f"{minutes:g}"] if "minutes" in it.takes else []
    return [*words, program] if "last" in it.takes else words


def run(it: Attack, words: list[str]) -> Ended:
    """Runs an attack, and prints what it prints."""
    begun, last_line = time.monotonic(), ""
    with subprocess.Popen([TOP / "tools" / "pathd-tools", *words], stdout=subprocess.PIPE, text=True, errors="replace") as process:
        for line in process.stdout:
            sys.stdout.write(line)
            sys.stdout.flush()
            last_line = line.strip() or last_line
    return Ended(it, words, process.returncode, time.monotonic() - begun, last_line)


def go_on(it: Attack, options: argparse.Namespace, program: str) -> list[Ended]:
    """Runs an attack, again with the next seed where it has time left and does not look at the time itself."""
    found: list[Ended] = []
    until = time.monotonic() + 60 * options.minutes
    while not found or (not it.takes & {"for", "minutes"} and "seed" in it.takes and time.monotonic() < until and found[-1].status == 0):
        seed = options.seed + len(found)
        print(f"== {it.name}, seed {seed}", flush=True)
        words = words_of(it, options.short, program, seed, options.jobs, options.minutes)
        found.append(run(it, words))
        if options.summary:
            with options.summary.open("a") as file:
                file.write(found[-1].row(sum_of(program)) + "\n")
    return found


def sum_of(program: str) -> str:
    """The SHA-256 of a program."""
    return hashlib.sha256(Path(program).read_bytes()).hexdigest()


def main(words: list[str]) -> int:
    """Runs all of them."""
    parser = toolbox.parser(__doc__)
    parser.add_argument("--short", action="store_true", help="fewer cases")
    parser.add_argument("--only", nargs="+", choices=[it.name for it in ATTACKS], metavar="NAME", help="these attacks alone")
    parser.add_argument("--for", type=float, dest="minutes", default=0, metavar="MINUTES", help="how long each goes on")
    parser.add_argument("--seed", type=int, default=1)
    parser.add_argument("--jobs", type=int, default=2, help="the processes of those that make several")
    parser.add_argument("--summary", type=Path, metavar="FILE", help="add the lines of the summary to this file")
    parser.add_argument("program", nargs="?", metavar="PROGRAM")
    options = parser.parse_args(words)
    need.require("python3", "gcc")
    program = runs.program_of(options.program)
    chosen = [it for it in ATTACKS if it.name in options.only] if options.only else [it for it in ATTACKS if it.name not in APART]
    ended = [each for it in chosen for each in go_on(it, options, program)]
    print("", f"Program {sum_of(program)}, {runs.commit_name(program).split(',')[0]}", "", *HEAD, *(it.row(sum_of(program)) for it in ended), sep="\n")
    failed = list(dict.fromkeys(it.attack.name for it in ended if it.status))
    print("", f"{len(failed)} of the attacks above failed", *(f"  {name}" for name in failed), sep="\n")
    return 1 if failed else 0
