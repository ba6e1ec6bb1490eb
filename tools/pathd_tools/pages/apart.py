"""Sees by crates.txt that the program, and each library that isn't of tests, uses no crate of tests
and nothing that only these use. Such a crate may end a test by `TestHost`, so what its functions
ensure holds only where they return. It prints each use that breaks this, and nothing else."""
from __future__ import annotations

from pathd_tools.pages.source import is_of_tests, uses
from pathd_tools.toolbox import parser


def main(words: list[str]) -> int:
    """Prints the uses."""
    parser(__doc__).parse_args(words)
    found = [f"{name} uses {it}" for name, used in uses().items() if not is_of_tests(name) for it in used if is_of_tests(it)]
    print("\n".join(found), end="\n" if found else "")
    return 1 if found else 0

