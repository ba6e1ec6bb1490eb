"""Installs the pages alone into a folder that is thrown away, as `make install` does, and tries what
is on them. It prints each link that leads nowhere, and each line of a block that names a folder of
the repository, which a server from the package lacks; and nothing else.

    tools/pathd-tools installed [--folder FOLDER]

FOLDER is a folder of pages that was installed before, as /usr/share/doc/pathd.
"""
from __future__ import annotations

import re
import subprocess
import tempfile
from pathlib import Path

from pathd_tools import need
from pathd_tools.pages.links import LINK, is_dead
from pathd_tools.pages.pages import prose
from pathd_tools.pages.source import TOP
from pathd_tools.toolbox import parser

LACKING = re.compile(r"(?:^|[\s\"'=])(?:\./)?(?:bench|clients|crates|deploy|docs|tools)/")


def blocks(page: Path) -> list[str]:
    """The lines of a page's blocks of code."""
    found = re.findall(r"^ *```[^\n]*\n(.*?)^ *```", page.read_text(), re.S | re.M)
    return [line for block in found for line in block.splitlines()]


def faults(folder: Path) -> list[str]:
    """What is wrong on the pages of a folder."""
    found = []
    for page in sorted(folder.glob("**/*.md")):
        name = page.relative_to(folder)
        found += [f"{name}: {link}" for link in LINK.findall(prose(page)) if is_dead(page, link, folder)]
        found += [f"{name}: {line.strip()}" for line in blocks(page) if LACKING.search(line)]
    return found


def main(words: list[str]) -> int:
    """Prints what is wrong."""
    options = parser(__doc__)
    options.add_argument("--folder", type=Path, metavar="FOLDER", help="of pages that are installed")
    folder = options.parse_args(words).folder
    with tempfile.TemporaryDirectory() as name:
        if folder is None:
            need.require("make")
            subprocess.run(["make", "--silent", "-C", TOP, "install-pages", f"DESTDIR={name}", "PREFIX=/usr"], check=True)
            folder = Path(name) / "usr/share/doc/pathd"
        found = faults(folder.resolve())
    print("".join(it + "\n" for it in found), end="")
    return 1 if found else 0
