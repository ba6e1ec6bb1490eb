"""Builds programs without their proofs, for measurements: `pathd`, and those of bench/*.rattle.

    bench/pathd-bench build FOLDER [NAME ..] [--level N]

NAME is `pathd`, `echo_server` or another file of bench/, and FOLDER gets a program of each name;
`pathd` and `echo_server` if none is given. Each takes about two minutes of a processor and 2 GB of
memory. tools/pathd_tools/building.py says how they are compiled: by LLVM at -O1, or at the level N,
with the run-time tests of `rt try`. Nothing is proved of such a program.
"""
from __future__ import annotations

import tempfile
from pathlib import Path

from pathd_bench import crates
from pathd_tools import TOP, building, need, toolbox

TABLE = ["pathd", "echo_server"]


def build(name: str, program: Path, level: int) -> None:
    """Builds a program of a name."""
    if name == "pathd":
        building.build(TOP / "crates" / name, program, level)
        return
    with tempfile.TemporaryDirectory() as folder:
        building.build(crates.lay_out(Path(folder), name), program, level)


def main(words: list[str]) -> int:
    """Builds the programs."""
    parser = toolbox.parser(__doc__)
    parser.add_argument("folder", type=Path, metavar="FOLDER")
    parser.add_argument("names", nargs="*", choices=["pathd", *crates.PROGRAMS, []], metavar="NAME")
    parser.add_argument("--level", type=int, default=1, choices=range(4), metavar="N", help="LLVM's level of optimization [1]")
    options = parser.parse_args(words)
    need.require("rt")
    options.folder.mkdir(parents=True, exist_ok=True)
    for name in options.names or TABLE:
        program = (options.folder / name).resolve()
        build(name, program, options.level)
        print(program, flush=True)
    return 0
