"""Compares the places that have the version of the program, the clients, the gateway and the pages with
that of crates/cli_words, which `pathd --version` prints. It prints what differs, and nothing else.

Modules of Go and packages of Python have their own forms of it, and so have Debian's packages, whose version
deploy/debian/version makes of it.
"""
from __future__ import annotations

import re
from collections.abc import Callable

from pathd_tools import TOP
from pathd_tools.toolbox import parser

NUMBER = r"(\d+(?:\.\d+)+(?:-?rc\d+)?)"


def as_printed(version: str) -> str:
    """The form that the program prints, such as 1.0-rc1."""
    return version


def of_module(version: str) -> str:
    """The form of a module of Go, which has three numbers: 1.0.0-rc1."""
    number, dash, candidate = version.partition("-")
    return number + ".0" * (2 - number.count(".")) + dash + candidate


def of_python(version: str) -> str:
    """The form of a package of Python: 1.0rc1."""
    return version.replace("-", "")


OWNER = ("crates/cli_words/src/lib.rt", rf'^pub const VERSION: &str = "{NUMBER} ')
PLACES: list[tuple[str, str, Callable[[str], str]]] = [
    ("crates/status_page/src/build.rt", rf'^pub const VERSION: &str = "{NUMBER}"', as_printed),
    ("clients/python/pyproject.toml", rf'^version = "{NUMBER}"', of_python),
    ("clients/go/README.md", rf"-require=pathd@v{NUMBER}", of_module),
    ("gateway/go.mod", rf"^\tpathd v{NUMBER}", of_module),
    ("gateway/main.go", rf'^const version = "{NUMBER}"', as_printed),
    ("docs/CLI.md", rf"^`pathd {NUMBER} \(", as_printed),
    ("CHANGELOG.md", rf"^## {NUMBER}", as_printed),
    ("SECURITY.md", rf"{NUMBER} is the version in the tree", as_printed),
]


def version_at(path: str, place: str) -> str:
    """The first version that a file has at a place, or nothing."""
    found = re.search(place, (TOP / path).read_text(), re.M)
    return found[1] if found else ""


def main(words: list[str]) -> int:
    """Prints the places with another version, and those without one."""
    parser(__doc__).parse_args(words)
    owned = version_at(*OWNER)
    wrong = [] if owned else [f"{OWNER[0]}: no version"]
    for path, place, form in PLACES:
        version, wanted = version_at(path, place), form(owned)
        if not version or version != wanted:
            wrong.append(f"{path}: {version or 'no version'}, not {wanted}")
    print("".join(it + "\n" for it in wrong), end="")
    return 1 if wrong else 0
