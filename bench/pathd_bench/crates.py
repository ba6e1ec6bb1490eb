"""Lays a program of bench/*.rattle out as a crate, with the crates that it uses and all that these use."""
from __future__ import annotations

import shutil
import subprocess
from pathlib import Path

from pathd_tools import TOP
from pathd_tools.pages.source import uses

# The crates that each program of bench/*.rattle uses.
PROGRAMS = {
    "echo_server": "",
    "hub_stress": "path_hub hub_claims hub_readers store_open sector_dev seg_lookup path_db seg_core isd_as",
    "visits": "path_db seg_core isd_as",
}


def lay_out(folder: Path, program: str) -> Path:
    """Lays a program into a folder, and answers its crate's folder."""
    known = uses()
    wanted, found = PROGRAMS[program].split(), set()
    while wanted:
        name = wanted.pop()
        if name in known and name not in found:
            found.add(name)
            wanted += known[name]
    for name in found:
        shutil.copytree(TOP / "crates" / name, folder / "crates" / name, symlinks=True)
    lines = [f"{name}: {' '.join(used)}".strip() for name, used in known.items() if name in found]
    (folder / "crates.txt").write_text("\n".join([*lines, f"{program}: {PROGRAMS[program]}".strip()]) + "\n")
    crate = folder / "crates" / program
    (crate / "src").mkdir(parents=True)
    shutil.copy(TOP / "bench" / f"{program}.rattle", crate / "src" / "main.rt")
    subprocess.run(["git", "init", "-q", str(folder)], check=True)
    return crate
