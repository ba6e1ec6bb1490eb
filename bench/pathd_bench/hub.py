"""Runs bench/hub_stress.rattle: eight threads that register, remove and purge, and eight that look up,
at a hub whose journal is sealed every few groups. Each lookup is then checked against the commands in
the order of their places. It prints how many lookups, commands, checkpoints and errors there were, and
ends with status 1 where there was an error.

    bench/pathd-bench hub [--lookups N] [--break] [--program PROGRAM]

With --break it then checks the records with four kinds of faults put into them, one kind at a time,
prints how many errors each check found, and ends with status 1 where one found none. PROGRAM keeps the
program, and is not built where it is there already. It needs `rt`, two minutes of a processor and 2 GB
of memory for the build, which makes no proof.
"""
from __future__ import annotations

import subprocess
import tempfile
from pathlib import Path

from pathd_bench import build, frames
from pathd_tools import toolbox


def main(words: list[str]) -> int:
    """Builds the program, and runs it."""
    parser = toolbox.parser(__doc__)
    parser.add_argument("--lookups", type=int, default=1_000_000, metavar="N")
    parser.add_argument("--break", dest="breaks", action="store_true", help="check records with faults, too")
    parser.add_argument("--program", type=Path)
    options = parser.parse_args(words)
    with tempfile.TemporaryDirectory() as name:
        program, segments = (options.program or Path(name) / "hub_stress").resolve(), Path(name) / "segments"
        if not program.exists():
            build.build("hub_stress", program, 1)
        frames.write_rows(segments, range(64), 8)
        faults = ["break"] if options.breaks else []
        return subprocess.run([program, segments, str(options.lookups), *faults], check=False).returncode
