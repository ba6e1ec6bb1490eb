"""How many rows lookups and a purge visit, among more and more rows.

    bench/pathd-bench visits [--rows N ..]

For each number of rows a database gets down segments from one AS to others of the same ISD, 40 to
each. Six lookups ask for at most 64 of them, and a purge drops 1,000 further segments, which expire
earlier. The table has the rows that each shows or drops, and those that it visits. The counts are
those of `PathDb::matching_counted` and `PathDb::visited_by_purges`, by a program that is built
without proofs. It takes 2 GB of memory, and 1 GB of files below TMPDIR, for a million rows.
"""
from __future__ import annotations

import subprocess
import tempfile
from pathlib import Path

from pathd_bench import crates, frames
from pathd_tools import building, need, toolbox

ROWS = [1_000, 10_000, 100_000, 1_000_000]
NEW, EARLIER, EACH = 1_000, 3_600, 40
TITLES = [
    "from an AS to an AS",
    "from any AS to an AS",
    "from an AS to any AS",
    "from an ISD without rows to an AS",
    "from an AS without rows to an AS",
    "to an ISD without rows",
    "a purge",
]


def counts_of(program: Path, folder: Path, rows: int) -> list[tuple[int, int]]:
    """The rows that each call shows or drops, and those that it visits."""
    leaves = max(rows // EACH, 1)
    frames.write_rows(folder / "rows", range(rows), leaves)
    frames.write_rows(folder / "new", range(rows, rows + NEW), leaves, EARLIER)
    (folder / "expiry").write_text(str(frames.EXPIRY - 2 * EARLIER))
    done = subprocess.run([program], cwd=folder, capture_output=True, text=True, check=True)
    return [tuple(map(int, line.split())) for line in done.stdout.splitlines()]


def main(words: list[str]) -> int:
    """Prints the table."""
    parser = toolbox.parser(__doc__)
    parser.add_argument("--rows", type=int, nargs="+", default=ROWS, metavar="N", help="the rows of a database")
    options = parser.parse_args(words)
    need.require("rt")
    with tempfile.TemporaryDirectory() as name:
        program = Path(name) / "visits"
        building.build(crates.lay_out(Path(name) / "crate", "visits"), program)
        found = [counts_of(program, Path(name), rows) for rows in options.rows]
    print("| shown or dropped, visited | " + " | ".join(f"{rows:,} rows" for rows in options.rows) + " |")
    print("|---" * (len(options.rows) + 1) + "|")
    for at, title in enumerate(TITLES):
        print(f"| {title} | " + " | ".join("{:,}, {:,}".format(*counts[at]) for counts in found) + " |")
    return 0
