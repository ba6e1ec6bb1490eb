"""Prints each line of the crates that has `unsafe`, but for those that are listed here, and each
listed one that is not there. It prints nothing else."""
from __future__ import annotations

import re

from pathd_tools.pages import source
from pathd_tools.pages.source import CRATES
from pathd_tools.toolbox import parser

# The lines that may be unsafe, each with its file: a note for contracts, which has no bytes, is sent to other threads.
ALLOWED = {
    "ghost_note/src/note.rt": "unsafe impl<T> Send for Note<T> {}",
}


def unsafe_lines() -> list[tuple[str, int, str]]:
    """The file, number and text of each line with `unsafe` in the code of a crate."""
    found = []
    for path in sorted(CRATES.glob("*/src/**/*.rt")):
        lines = source.lines_of(path)
        for at, line in enumerate(source.masked(path.read_text()).splitlines()):
            if re.search(r"\bunsafe\b", line):
                found.append((str(path.relative_to(CRATES)), at + 1, lines[at].strip()))
    return found


def main(words: list[str]) -> int:
    """Prints the lines."""
    parser(__doc__).parse_args(words)
    its = unsafe_lines()
    found = [f"crates/{path}:{number}: {text}" for path, number, text in its if ALLOWED.get(path) != text]
    found += [f"crates/{path} has no line: {text}" for path, text in ALLOWED.items() if (path, text) not in {(it[0], it[2]) for it in its}]
    print("".join(it + "\n" for it in found), end="")
    return 1 if found else 0
