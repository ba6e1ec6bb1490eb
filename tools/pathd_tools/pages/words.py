"""Prints every definition of specs/ from A to Z, with its file and line.

    tools/pathd-tools words            all words; a word of several crates has a line for each
    tools/pathd-tools words TEXT ..    those whose name has one of the texts, in any case
"""
from __future__ import annotations

from pathd_tools.pages import source
from pathd_tools.pages.source import CRATES
from pathd_tools.toolbox import parser


def index() -> list[tuple[str, str]]:
    """The words with their places, by rising name. One word may be defined in several crates."""
    found = []
    for crate in source.libraries():
        for path in sorted((CRATES / crate / "specs").rglob("*.antt")):
            for it in source.definitions(path).values():
                name = it.name.strip("◌")
                found.append((name.lower(), name, f"crates/{path.relative_to(CRATES)}:{it.line}"))
    return [(name, place) for _, name, place in sorted(found)]


def main(words: list[str]) -> int:
    options = parser(__doc__)
    options.add_argument("texts", nargs="*", metavar="TEXT", help="a part of the words to be printed")
    texts = [it.lower() for it in options.parse_args(words).texts]
    for name, place in index():
        if not texts or any(it in name.lower() for it in texts):
            print(f"{name:40} {place}")
    return 0
