"""Prints each public function of a crate, and each definition of its specs/ that a public contract cites,
of this crate or of another, which has no comment, and each library without a page. It prints nothing
where nothing is lacking.

A public contract is the signature and the clauses of a `pub fn` or of a method of a public trait, and
the ghost members of a trait or an `impl`: the relations that it gives, and what contracts see of a
type. Invariants are none.

`tools/pathd-tools complete --cited CRATE ..` prints the definitions of these crates that are cited.
"""
from __future__ import annotations

import re
from functools import cache
from pathlib import Path

from pathd_tools.pages import source
from pathd_tools.pages.reading import resolve
from pathd_tools.pages.source import CRATES, Definition, Function
from pathd_tools.toolbox import parser


def is_of_public_trait(it: Function) -> bool:
    """Whether a function is in the body of a public trait, whose methods have no `pub`."""
    items = (line for line in reversed(source.lines_of(it.path)[:it.line]) if re.match(r"[a-z]", line))
    return next(items, "").startswith("pub trait ")


def ghost_members(path: Path) -> str:
    """The ghost members of the traits and the `impl`s of a file, without its invariants."""
    kept, item, is_kept = [], "", False
    for line in source.code_lines(source.lines_of(path)):
        if re.match(r"[a-z]", line):
            item = line
        if member := re.match(r"    ghost (?!use\b)(\w+)", line):
            is_kept = member[1] != "invariant" and item.startswith(("impl", "pub trait"))
        elif re.match(r"(?:    )?[^\s\])}]", line):
            is_kept = False
        if is_kept:
            kept.append(line)
    return "\n".join(kept)


@cache
def cited() -> frozenset[tuple[Path, str]]:
    """The definitions of specs/ that public contracts of the libraries cite, as files and names."""
    found = set()
    for it in (it for crate in source.libraries() for it in source.functions(crate)):
        if not it.is_test and (it.is_public or is_of_public_trait(it)):
            found.update(resolved(it.path, "\n".join(source.code_lines(it.head.splitlines()))))
    for path in (it for crate in source.libraries() for it in (CRATES / crate / "src").rglob("*.rt")):
        found.update(resolved(path, ghost_members(path)))
    return frozenset(found)


def resolved(path: Path, contract: str) -> list[tuple[Path, str]]:
    """The definitions of specs/ that a text of a file cites."""
    return [(word.path, word.name) for word in resolve(path, contract) if word.path.suffix == ".antt"]


def words_of(crate: str) -> list[Definition]:
    """The definitions of a crate's specs/ that public contracts cite."""
    files = sorted((CRATES / crate / "specs").rglob("*.antt"))
    return [it for path in files for it in source.definitions(path).values() if (path, it.name) in cited()]


def has_comment(path: Path, line: int, mark: str) -> bool:
    """Whether a comment that begins with this mark is before a line, with attributes alone between them, or on the file's first line."""
    lines = source.lines_of(path)
    before = (it.strip() for it in reversed(lines[: line - 1]))
    return next((it for it in before if not it.startswith("#[")), "").startswith(mark) or lines[0].startswith(mark)


def lacking(crate: str) -> list[str]:
    """The public functions, and the words of public contracts, that have no comment."""
    if not (CRATES / crate / "README.md").is_file():
        return [f"crates/{crate} has no README.md"]
    functions = [it for it in source.functions(crate) if it.is_public and not it.is_test and not has_comment(it.path, it.line, "///")]
    words = [it for it in words_of(crate) if not has_comment(it.path, it.line, "--")]
    return [f"{it.path.relative_to(CRATES.parent)}:{it.line}: `{it.name}` has no comment" for it in [*functions, *words]]


def main(words: list[str]) -> int:
    options = parser(__doc__)
    options.add_argument("--cited", nargs="+", metavar="CRATE", help="print the definitions of these crates that are cited")
    asked = options.parse_args(words)
    if asked.cited:
        for word in (it for crate in asked.cited for it in words_of(crate)):
            print(f"crates/{word.path.relative_to(CRATES)}:{word.line}: {word.name}")
        return 0
    found = [it for crate in source.libraries() for it in lacking(crate)]
    print("".join(it + "\n" for it in found), end="")
    return 1 if found else 0
