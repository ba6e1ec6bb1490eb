"""The checks of pages, and the suites of the clients with the program that was built."""
from __future__ import annotations

from collections.abc import Callable
from functools import partial
from pathlib import Path

from pathd_tools import TOP, bounded
from pathd_tools.testing.jobs import Job, Result

# The seconds that a check or a suite may take.
LIMIT = 1200
# The checks of pages, each with its words.
PAGES = ["links", "complete", "uses", "proofs", "apart", "unsafe", "codes", "help-texts", "versions", "frozen", "metric-names", "plots-page", "widths", "blocks", "installed", "pictures", "reading --check"]
GATEWAY = """protoc go protoc-gen-go protoc-gen-go-grpc golang-google-protobuf-dev golang-github-golang-protobuf-1-5-dev
golang-google-grpc-dev golang-golang-x-net-dev openssl"""
# What each suite needs, and its words, in which PROGRAM is the program's path.
SUITES = [
    (GATEWAY, "gateway PROGRAM"),
    ("protoc go protoc-gen-go golang-google-protobuf-dev gcc", "go-client PROGRAM"),
    ("python3-protobuf", "client PROGRAM"),
    ("rustc", "examples --program PROGRAM clients/rust/client.rs"),
    ("", "vectors -p PROGRAM tools/cases"),
    ("gcc", "defined PROGRAM"),
    ("", "try --once --program PROGRAM"),
    ("", "help-texts PROGRAM"),
    ("", "asking PROGRAM"),
    ("python3-protobuf python3-venv curl", "steps PROGRAM"),
]
# A suite whose folder is not there is none of these.
FOLDERS = {"gateway": "gateway", "go-client": "clients/go", "client": "clients/python"}


def run(words: list[str]) -> Result:
    """Runs a tool: whether it ends with the status 0."""
    done = bounded.run(["tools/pathd-tools", *words], LIMIT, cwd=TOP)
    late = f"\nit had not ended after {LIMIT} s" if done.is_late else ""
    is_well = done.status == 0 and not done.is_late
    return Result(int(is_well), int(not is_well), "" if is_well else f"status {done.status}", done.text + late)


def pages() -> list[Job]:
    """A job for each check of pages."""
    return [Job(line, partial(run, line.split())) for line in PAGES]


def suites(program: Callable[[], Path | None]) -> list[Job]:
    """A job for each suite, with the program that a call waits for; there may be none."""

    def with_program(words: list[str]) -> Result:
        path = program()
        if path is None:
            return Result(0, 1, "there is no program")
        return run([str(path) if word == "PROGRAM" else word for word in words])

    lines = [(needs, line) for needs, line in SUITES if (TOP / FOLDERS.get(line.split()[0], "tools")).is_dir()]
    return [Job(line.replace("PROGRAM", "pathd"), partial(with_program, line.split()), needs, is_timed=True) for needs, line in lines]
