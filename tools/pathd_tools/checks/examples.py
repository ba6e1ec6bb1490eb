"""Carries out the programs on the pages of the clients, and compares what each prints.

    tools/pathd-tools examples [--program PROGRAM] PAGE ..

PAGE is a page of clients/, whose blocks of Python and Go are whole programs, or a program in Rust.
Each is run beside three new servers, which have the addresses 127.0.0.1:30252 and 192.0.2.1 to
192.0.2.3 in its text. It has to end with the status 0, and to print the next block of `text` on
the page, or in the program's first comment. Programs in Go are run with the packages of GOPATH.
"""
from __future__ import annotations

import os
import re
import subprocess
from collections.abc import Iterator, Sequence
from contextlib import ExitStack
from pathlib import Path

from pathd_tools import TOP, need, runs, toolbox

BLOCK = re.compile(r"^```(\w*)\n(.*?)^```$", re.M | re.S)
SUFFIXES = {"python": ".py", "go": ".go"}
SERVERS = 3
# How long a program may take, in seconds: Go compiles the packages it uses first.
LIMIT = 300


def programs(page: Path) -> Iterator[tuple[str, str, str]]:
    """The programs of a page, each with the suffix of its file and what it prints."""
    text = page.read_text()
    if page.suffix == ".rs":
        comment = re.sub(r"^//! ?", "", text, flags=re.M)
        yield page.suffix, text, dict(BLOCK.findall(comment))["text"]
        return
    blocks = BLOCK.findall(text)
    for (language, source), (following, wanted) in zip(blocks, [*blocks[1:], ("", "")]):
        if language in SUFFIXES:
            yield SUFFIXES[language], source, wanted if following == "text" else ""


def placed(source: str, addresses: Sequence[str]) -> str:
    """A program with the addresses of servers in place of those of the page."""
    first = addresses[0].replace(":", '", ')
    source = source.replace("127.0.0.1:30252", addresses[0]).replace('127.0.0.1", 30252', first)
    for number, address in enumerate(addresses, 1):
        source = source.replace(f"192.0.2.{number}:30252", address)
    return source


def command(file: Path) -> list[str]:
    """The words that run a program, which is compiled first where it has to be."""
    if file.suffix == ".py":
        return ["/usr/bin/python3", "-B", str(file)]
    if file.suffix == ".go":
        return ["go", "run", str(file)]
    subprocess.run(["rustc", "-D", "warnings", str(file), "-o", str(file.with_suffix(""))], check=True)
    return [str(file.with_suffix(""))]


def printed(program: str, suffix: str, source: str) -> str:
    """What a program prints beside new servers, with its faults."""
    with runs.scratch() as folder, ExitStack() as stack:
        addresses = []
        for number in range(SERVERS):
            store = folder / f"store{number}"
            runs.format_store(program, store, runs.model.Layout(64, 516))
            addresses.append(f"127.0.0.1:{stack.enter_context(runs.Server(program, store)).port}")
        file = folder / f"example{suffix}"
        file.write_text(placed(source, addresses))
        environment = {**os.environ, "PYTHONPATH": str(TOP / "clients/python")}
        done = subprocess.run(command(file), env=environment, capture_output=True, text=True, timeout=LIMIT, check=False)
        return done.stdout + (f"status {done.returncode}\n{done.stderr}" if done.returncode else "")


def differs(program: str, page: Path) -> int:
    """How many programs of a page print something else."""
    faults = 0
    for number, (suffix, source, wanted) in enumerate(programs(page), 1):
        got = printed(program, suffix, source)
        if got == wanted:
            print(f"ok: {page.relative_to(TOP)}, program {number}", flush=True)
        else:
            print(f"{page.relative_to(TOP)}, program {number} prints:\n{got}and not:\n{wanted}", flush=True)
            faults += 1
    return faults


def main(words: list[str]) -> int:
    """Carries out the programs of the pages."""
    parser = toolbox.parser(__doc__)
    parser.add_argument("--program", metavar="PROGRAM", help="crates/pathd/out/pathd if left out")
    parser.add_argument("pages", nargs="+", type=Path, metavar="PAGE")
    options = parser.parse_args(words)
    pages = [page.resolve() for page in options.pages]
    if any(page.suffix == ".rs" for page in pages):
        need.require("rustc")
    program = runs.program_of(options.program)
    return 1 if sum([differs(program, page) for page in pages]) else 0
