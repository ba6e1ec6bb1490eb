"""Prints each line of a use on a crate's page that is a line of no source file which the paragraph
after the use links, and each page of a library of src/ that has no use. It prints nothing where the
pages agree with the sources."""
from __future__ import annotations

import re
from pathlib import Path

from pathd_tools.pages import source
from pathd_tools.pages.source import CRATES
from pathd_tools.toolbox import parser

USE = re.compile(r"^```rust\n(.*?)^```\n\n(.*?)(?:\n\n|\Z)", re.S | re.M)


def source_lines(page: Path, paragraph: str) -> set[str]:
    """The lines of the source files that a paragraph of a page links."""
    linked = [page.parent / it for it in re.findall(r"\]\(([^)#]+\.rt)\)", paragraph)]
    return {line.strip() for it in linked if it.is_file() for line in it.read_text().splitlines()}


def strange_lines(crate: str) -> list[str]:
    """What is wrong with the uses on a crate's page."""
    page = CRATES / crate / "README.md"
    if not page.is_file():
        return []
    uses = USE.findall(page.read_text())
    if not uses and (CRATES / crate / "src" / "lib.rt").is_file():
        return [f"crates/{crate}/README.md has no use"]
    found = []
    for use, paragraph in uses:
        known = source_lines(page, paragraph)
        lines = [it.strip() for it in use.splitlines() if it.strip()]
        found += [f"crates/{crate}/README.md: in no file that is linked after it: {it}" for it in lines if it not in known]
    return found


def main(words: list[str]) -> int:
    parser(__doc__).parse_args(words)
    found = [it for crate in source.libraries() for it in strange_lines(crate)]
    print("".join(it + "\n" for it in found), end="")
    return 1 if found else 0
