"""Says which of these things are missing, and how to get each on Debian. The status is 2 where one
is missing, and else 0.

    tools/pathd-tools need [THING ..]

All things are looked for if none is given. The last line is one command that installs all that is
missing and that packages of Debian have. The tools and the benchmarks call this before they begin.
"""
from __future__ import annotations

import os
import shutil
import subprocess
import sys
from collections.abc import Callable
from dataclasses import dataclass

from pathd_tools import TOP, toolbox

DEBIANS_PYTHON = "/usr/bin/python3"


@dataclass(frozen=True)
class Thing:
    """Something that a tool needs: whether it is there, and how to get it."""

    name: str
    is_there: Callable[[], bool]
    packages: str = ""
    otherwise: str = ""

    @property
    def how(self) -> str:
        """How to get it."""
        return self.otherwise or install_line([self])


def install_line(things: list[Thing]) -> str:
    """One command that installs the packages of these things; nothing where they have none."""
    packages = dict.fromkeys(package for thing in things for package in thing.packages.split())
    return " ".join(["apt-get install", *packages]) if packages else ""


def runs(*words: str, given: str = "") -> bool:
    """Whether a command ends with the status 0."""
    try:
        return subprocess.run(words, input=given, text=True, capture_output=True, check=False).returncode == 0
    except OSError:
        return False


def program(name: str, package: str, command: str = "") -> Thing:
    """A command that is on the PATH, of a package of Debian."""
    return Thing(name, lambda: shutil.which(command or name) is not None, package)


def modules(name: str, imported: str, packages: str) -> Thing:
    """Modules of Debian's Python."""
    return Thing(name, lambda: runs(DEBIANS_PYTHON, "-c", f"import {imported}"), packages)


def header(name: str, file: str) -> Thing:
    """A package whose header the C++ compiler finds."""
    words = ("g++", "-std=c++17", "-fsyntax-only", "-x", "c++", "-")
    return Thing(name, lambda: runs(*words, given=f"#include <{file}>\n"), name)


def file(name: str, path: str) -> Thing:
    """A package of Debian that has this file."""
    return Thing(name, lambda: os.path.exists(path), name)


def is_new_python() -> bool:
    """Whether Debian's Python has the version that the tools are written for."""
    return runs(DEBIANS_PYTHON, "-c", "import sys; sys.exit(sys.version_info < (3, 11))")


THINGS = [
    Thing("rt", lambda: shutil.which("rt") is not None, otherwise="the toolchain, whose folder bin/ has to be on the PATH"),
    Thing("pathd", lambda: os.access(TOP / "crates/pathd/out/pathd", os.X_OK), otherwise="cd crates/pathd && rt run -- --help"),
    Thing("root", lambda: os.geteuid() == 0, otherwise="run it as root"),
    Thing("python3", is_new_python, "python3", "apt-get install python3 (3.11 or later)"),
    modules("python3-protobuf", "google.protobuf", "python3-protobuf"),
    program("protoc", "protobuf-compiler"),
    program("go", "golang-go"),
    program("protoc-gen-go", "protoc-gen-go"),
    program("protoc-gen-go-grpc", "protoc-gen-go-grpc"),
    program("rustc", "rustc"),
    file("golang-google-protobuf-dev", "/usr/share/gocode/src/google.golang.org/protobuf/proto/decode.go"),
    file("golang-github-golang-protobuf-1-5-dev", "/usr/share/gocode/src/github.com/golang/protobuf/proto/registry.go"),
    file("golang-google-grpc-dev", "/usr/share/gocode/src/google.golang.org/grpc/server.go"),
    file("golang-golang-x-net-dev", "/usr/share/gocode/src/golang.org/x/net/http2/server.go"),
    file("golang-github-mattn-go-sqlite3-dev", "/usr/share/gocode/src/github.com/mattn/go-sqlite3/sqlite3.go"),
    program("strace", "strace"),
    program("valgrind", "valgrind", "callgrind_annotate"),
    program("perf", "linux-perf"),
    program("perl", "perl"),
    program("curl", "curl"),
    program("bc", "bc"),
    Thing("time", lambda: os.access("/usr/bin/time", os.X_OK), "time"),
    program("losetup", "mount"),
    program("nspawn", "systemd-container", "systemd-nspawn"),
    program("nft", "nftables"),
    program("make", "make"),
    program("promtool", "prometheus"),
    program("chromium", "chromium"),
    program("debootstrap", "debootstrap"),
    program("lintian", "lintian"),
    program("ip", "iproute2"),
    program("glusterd", "glusterfs-server glusterfs-client"),
    program("wg", "wireguard-tools"),
    program("haproxy", "haproxy"),
    program("stunnel", "stunnel4"),
    program("openssl", "openssl"),
    program("btrfs", "btrfs-progs", "mkfs.btrfs"),
    program("xfs", "xfsprogs", "mkfs.xfs"),
    program("lvm", "lvm2", "lvcreate"),
    modules("python3-venv", "ensurepip, setuptools, wheel", "python3-venv python3-setuptools python3-wheel"),
    program("gcc", "gcc"),
    program("g++", "g++"),
    header("libprotobuf-dev", "google/protobuf/message.h"),
    header("libleveldb-dev", "leveldb/db.h"),
    header("librocksdb-dev", "rocksdb/db.h"),
    header("libsqlite3-dev", "sqlite3.h"),
    header("liblmdb-dev", "lmdb.h"),
]


def lacking(names: list[str]) -> list[Thing]:
    """Which of these things are missing."""
    known = {thing.name: thing for thing in THINGS}
    unknown = [name for name in names if name not in known]
    if unknown:
        raise SystemExit(f"{unknown[0]} is not among the things of tools/pathd_tools/need.py")
    return [known[name] for name in names if not known[name].is_there()]


def missing(names: list[str]) -> list[str]:
    """A line for each of these things that is missing, and one that installs all that packages have."""
    things = lacking(names)
    line = install_line(things)
    return [f"missing: {thing.name} ({thing.how})" for thing in things] + ([line] if line and len(things) > 1 else [])


def require(*names: str) -> None:
    """Ends the tool with the status 2 where one of these things is missing, and says which."""
    lines = missing(list(names))
    if lines:
        print(*lines, sep="\n", file=sys.stderr)
        raise SystemExit(2)


def main(words: list[str]) -> int:
    """Says what is missing."""
    parser = toolbox.parser(__doc__)
    parser.add_argument("things", nargs="*", metavar="THING")
    lines = missing(parser.parse_args(words).things or [thing.name for thing in THINGS])
    for line in lines:
        print(line, file=sys.stderr)
    return 2 if lines else 0
