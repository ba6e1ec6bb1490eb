"""Where the running server's time goes: samples of its threads by `perf`, under one load after another.

    bench/pathd-bench samples PATHD [--rows N] [--seconds S] [--most N]

PATHD is the built program; `bench/pathd-bench build` makes one without proofs. Its server has N
rows of two entries. The loads:

- lookups of one row, by one session that sends 100 ahead;
- renewals: registrations of rows that are there, by 64 sessions that send 8 ahead;
- lone renewals, by one session that waits for each reply;
- checkpoints: the same as renewals, over journals that are full within a second;
- a start over a store with all rows in its checkpoint.

A table for each load has the functions in which most samples are, of the program, the C library and
the kernel, each with its share of all samples of the server. A line above it has the replies a
second, and the microseconds of the processor that the server took for one. It needs `perf`
(Debian's linux-perf), gcc and what reads the kernel's counters: root, or a low
/proc/sys/kernel/perf_event_paranoid.
"""
from __future__ import annotations

import os
import re
import subprocess
import tempfile
import time
from collections.abc import Iterator
from dataclasses import dataclass
from pathlib import Path

from pathd_bench import measure, server_rows, store_image, table
from pathd_bench.measure import Programs, Server
from pathd_tools import need, toolbox
from pathd_tools.load import load

# Samples a second of each thread that runs.
FREQUENCY = 999
# `perf report` prints a share, an object and a symbol, each between bars.
ROW = re.compile(r"\s*([\d.]+)%\s*\|\s*(\S+)\s*\|\s*\[.\] ([^|]+?)\s*(?:\|.*)?")
# The sectors of a journal that lasts, and of one that is full within a second.
LONG, SHORT = 262_144, 16_384
MILLION = 1_000_000
# The seconds of a load before and after a recording.
APART = 1.0


@dataclass(frozen=True)
class Work:
    """A load: its title, the kind of its requests, its sessions and how many requests each sends ahead, and the sectors of a journal."""

    title: str
    kind: str
    sessions: int
    ahead: int
    journal: int = LONG


LOADS = [
    Work("lookups of one row, one session, 100 ahead", "lookup", 1, 100),
    Work("renewals, 64 sessions, 8 ahead", "register", 64, 8),
    Work("lone renewals, one session", "register", 1, 1),
    Work("renewals beside checkpoints, 64 sessions, 8 ahead", "register", 64, 8, SHORT),
]


def shares(data: Path, program: str, most: int) -> Iterator[tuple[float, str, str]]:
    """The functions with most samples of a recording: the share in percent, the object and the symbol."""
    words = ["perf", "report", "-i", data, "--no-children", "--stdio", "--sort", "dso,symbol", "--comms", program, "--percentage", "relative", "-t", "|", "-g", "none"]
    printed = subprocess.run(words, check=True, capture_output=True, text=True, errors="replace").stdout
    rows = [found for line in printed.splitlines() if (found := ROW.fullmatch(line))]
    for row in rows[:most]:
        yield float(row[1]), row[2], row[3]


def show(title: str, said: str, data: Path, program: str, most: int) -> None:
    """Prints a table."""
    print(f"\n{title}: {said}\n\n| share, % | in | function |\n|---|---|---|")
    for share, where, symbol in shares(data, program, most):
        print(f"| {share:.1f} | `{where}` | `{symbol}` |")


def recorded(work: Work, programs: Programs, server: Server, seconds: float, data: Path) -> str:
    """Records a server under a load, and answers what the load measured."""
    running = measure.started_load(programs, server, work.kind, work.sessions, seconds + 2 * APART, work.ahead)
    before = server.processor_seconds()
    time.sleep(APART)
    words = ["perf", "record", "-q", "-e", "cpu-clock", "-F", str(FREQUENCY), "-a", "-o", data, "--", "sleep", str(seconds)]
    subprocess.run(words, check=True, stdout=subprocess.DEVNULL)
    made = measure.measured(running, work.kind)
    used = server.processor_seconds() - before
    return f"{made.rate:,.0f} replies a second, {used * MILLION / (made.rate * (seconds + 2 * APART)):.1f} µs of the processor each"


def under_load(work: Work, programs: Programs, folder: Path, rows: int, seconds: float, most: int) -> None:
    """Samples a server with rows under a load."""
    store = measure.formatted(programs, folder / "store", max(2_048, 3 * table.sectors_of(rows, table.SEGMENT)), work.journal)
    with measure.pathd(programs, store) as server:
        if not server_rows.fill(server.port, rows):
            raise SystemExit("a registration was refused")
        said = recorded(work, programs, server, seconds, folder / "data")
    show(work.title, said, folder / "data", programs.pathd.name, most)


def start(programs: Programs, folder: Path, rows: int, most: int) -> None:
    """Samples the start of a server."""
    store = folder / "image"
    store_image.write(store, rows, 2)
    words = ["perf", "record", "-q", "-e", "cpu-clock", "-F", str(FREQUENCY), "-o", folder / "data"]
    serving = [programs.pathd, "run", store, "--listen", "127.0.0.1:0", "--cores", measure.CORE]
    with Server([*words, "--", *serving], folder, mark="ready") as server:
        said = f"{server.seconds_to_start * 1_000:,.0f} ms"
        # `perf` writes what it has once the program that it runs has ended.
        subprocess.run(["pkill", "-KILL", "-P", str(server.process.pid)], check=False)
        server.process.wait()
    show(f"a start with {rows:,} rows", said, folder / "data", programs.pathd.name, most)


def main(words: list[str]) -> int:
    """Prints all tables."""
    parser = toolbox.parser(__doc__)
    parser.add_argument("pathd", type=Path, metavar="PATHD")
    parser.add_argument("--rows", type=int, default=100_000, metavar="N", help="the rows of the server [100,000]")
    parser.add_argument("--seconds", type=float, default=5, metavar="S", help="the seconds of a recording [5]")
    parser.add_argument("--most", type=int, default=12, metavar="N", help="the functions of a table [12]")
    options = parser.parse_args(words)
    need.require("gcc", "perf")
    with tempfile.TemporaryDirectory(dir=os.environ.get("TMPDIR", "/dev/shm")) as name:
        folder = Path(name)
        here = Path("/nonexistent")
        programs = Programs(options.pathd.resolve(), here, load.compiled(folder), here, here, here, here)
        for work in LOADS:
            under_load(work, programs, folder, options.rows, options.seconds, options.most)
        start(programs, folder, options.rows, options.most)
    return 0
