"""The pages of the repository: which there are, what is written between backticks on them, and the
blocks on them that tools write."""
from __future__ import annotations

import re
import sys
from functools import cache
from pathlib import Path

from pathd_tools.pages.source import CRATES, TOP

# What ends a block that a tool writes.
END = "<!-- end -->"


def pages() -> list[Path]:
    """README.md and what is beside it, docs/, the crates' pages and what is beside them, and those of clients, tools and the gateway."""
    found = [*TOP.glob("*.md"), *(TOP / "docs").glob("**/*.md"), *CRATES.glob("*.md"), *CRATES.glob("*/README.md")]
    found += [*TOP.glob("clients/**/*.md"), *TOP.glob("tools/**/*.md"), *TOP.glob("bench/*.md"), *TOP.glob("deploy/**/*.md"), *TOP.glob("gateway/*.md")]
    return sorted(found)


@cache
def prose(path: Path) -> str:
    """The text of a page without its blocks of code."""
    return re.sub(r"^( *)```.*?^\1```", "", path.read_text(), flags=re.S | re.M)


def put_block(path: Path, begin: str, made: str, writes: bool) -> int:
    """Writes the block of a page after the mark `begin`, or says that the page has another one: 1 where it has. The mark names the tool that writes."""
    text = path.read_text()
    kept = re.search(rf"{re.escape(begin)}.*?{re.escape(END)}", text, re.S)
    wanted = f"{begin}\n{made}\n{END}"
    if not kept:
        sys.exit(f"no {begin} in {path}")
    if writes:
        path.write_text(text.replace(kept[0], wanted))
    elif kept[0] != wanted:
        print(f"{path.relative_to(TOP)}: `{begin.removeprefix('<!-- ').removesuffix(' -->')}` would change the block after this mark")
        return 1
    return 0
