"""Tries every link of the repository's pages: that its file is there, and that a heading of that
page has its anchor. Links to the web are not followed. Of a path between backticks that begins with
a folder of the repository or of a crate it tries that it is there, unless a part of it is in
capital letters, as in `crates/NAME`. It prints each link and each path that leads nowhere, and
nothing else."""
from __future__ import annotations

import re
from functools import cache
from pathlib import Path

from pathd_tools.pages.pages import pages, prose
from pathd_tools.pages.source import TOP
from pathd_tools.toolbox import parser

LINK = re.compile(r"\[[^\]]*\]\(([^()\s]*(?:\([^()\s]*\))?)\)")


@cache
def anchors(path: Path) -> frozenset[str]:
    """The anchors of a page's headings, made as GitHub makes them."""
    found: list[str] = []
    for heading in re.findall(r"^#+ +(.*?) *#* *$", prose(path), re.M):
        text = re.sub(r"\[([^\]]*)\]\([^)]*\)", r"\1", heading).replace("`", "").lower()
        made = re.sub(r"[^\w\- ]", "", text).replace(" ", "-")
        same = sum(1 for it in found if re.fullmatch(re.escape(made) + r"(-\d+)?", it))
        found.append(f"{made}-{same}" if same else made)
    return frozenset(found)


def is_dead(page: Path, link: str, top: Path = TOP) -> bool:
    """Whether a link of a page leads to nothing within a folder."""
    if re.match(r"[a-z]+:", link):
        return False
    name, _, anchor = link.partition("#")
    target = (page.parent / name).resolve() if name else page
    if not target.exists() or top not in [target, *target.parents]:
        return True
    if not anchor:
        return False
    if re.fullmatch(r"L\d+", anchor):
        return int(anchor[1:]) > target.read_text().count("\n")
    return target.suffix != ".md" or anchor not in anchors(target)


def dead_paths(page: Path) -> list[str]:
    """The paths between backticks on a page that aren't there. `src/` and `specs/` are those of the crate that was named last on the line, or
    of the crate whose page it is; `out/` is made by the toolchain."""
    found = []
    for line in prose(page).splitlines():
        crate = page.parent.relative_to(TOP) if page.name == "README.md" and page.parent.parent.name == "crates" else None
        for path in re.findall(r"`([^`\s]+)(?: [^`]*)?`", line):
            named = re.match(r"crates/[a-z_0-9]+", path)
            crate = Path(named[0]) if named else crate
            if re.search(r"\b[A-Z]{2,}\b(?!\.md)|/out/|\*|specs/X\.antt", path):
                continue
            if re.match(r"(?:bench|clients|crates|deploy|docs|tools)/", path):
                found.append((path, TOP / path))
            elif crate and re.match(r"(?:src|specs|proofs|must-fail|more-edits)/\w", path):
                found.append((path, TOP / crate / path))
    return [path for path, target in found if not target.exists()]


def main(words: list[str]) -> int:
    parser(__doc__).parse_args(words)
    dead = [f"{page.relative_to(TOP)}: {link}" for page in pages() for link in LINK.findall(prose(page)) if is_dead(page, link)]
    dead += [f"{page.relative_to(TOP)}: {path}" for page in pages() for path in dead_paths(page)]
    print("".join(it + "\n" for it in dead), end="")
    return 1 if dead else 0
