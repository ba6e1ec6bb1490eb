"""Servers on the loopback that are measured, and loads on them (tools/native/load.c)."""
from __future__ import annotations

import os
import re
import shutil
import subprocess
import time
from collections.abc import Sequence
from dataclasses import dataclass
from functools import cache
from pathlib import Path

from pathd_tools import TOP, runs
from pathd_tools.load import load

# The stores that server_rivals.cc and store_rivals.cc take by these names.
RIVALS = ["leveldb", "rocksdb", "sqlite", "lmdb"]
LIBRARIES = ["-lleveldb", "-lrocksdb", "-lsqlite3", "-llmdb", "-lpthread"]
SECONDS_TO_START, SECONDS_TO_LEAVE = 300, 30
CORE = "1-ff00:0:110"
# By how much the timestamps of a load on a server are later than those of the one before it, above
# the registrations that a session makes in a load; and where they begin in a store that was filled.
LATER, AFTER_FILLING = 2_000_000, 100_000_000


@dataclass(frozen=True)
class Programs:
    """The programs of a table, by their paths."""

    pathd: Path
    echo: Path
    load: Path
    servers: Path
    stores: Path
    slow_sync: Path
    protobuf: Path


def compiled(folder: Path, pathd: Path, echo: Path) -> Programs:
    """Compiles what is not given into a folder."""
    bench = TOP / "bench"
    built = Programs(pathd, echo, load.compiled(folder), folder / "servers", folder / "stores", folder / "slow_sync.so", folder / "protobuf_parse")
    cxx = ["g++", "-O2", "-std=c++17"]
    subprocess.run(["gcc", "-O2", "-shared", "-fPIC", "-o", built.slow_sync, bench / "slow_sync.c"], check=True)
    subprocess.run([*cxx, "-o", built.servers, bench / "server_rivals.cc", *LIBRARIES], check=True)
    subprocess.run([*cxx, "-o", built.stores, bench / "store_rivals.cc", *LIBRARIES], check=True)
    subprocess.run(["protoc", f"--cpp_out={folder}", f"--proto_path={TOP / 'docs'}", "segments.proto"], check=True)
    parts = [bench / "protobuf_parse.cc", folder / "segments.pb.cc", "-lprotobuf", "-lpthread"]
    subprocess.run([*cxx, f"-I{folder}", "-o", built.protobuf, *parts], check=True)
    return built


class Server(runs.Process):
    """A server in a process, which is killed at the end."""

    def __init__(self, words: Sequence[object], folder: Path, slow_sync: Path | None = None, microseconds: int = 0, mark: str = "") -> None:
        env = {} if slow_sync is None else {"LD_PRELOAD": str(slow_sync), "SYNC_MICROSECONDS": str(microseconds)}
        begun = time.monotonic()
        super().__init__([str(word) for word in words], folder / "printed", env, has_output=True)
        self.made = 0
        self.port = self._port(mark)
        # From the start of the process until it serves.
        self.seconds_to_start = time.monotonic() - begun

    def _port(self, mark: str) -> int:
        until = time.monotonic() + SECONDS_TO_START
        while time.monotonic() < until and self.process.poll() is None:
            text = self.notices.read_text(errors="replace")
            found = re.search(r"127\.0\.0\.1:(\d+)", text)
            if found and mark in text:
                return int(found[1])
            time.sleep(0.002)
        self.kill()
        raise SystemExit(f"no server: {self.notices.read_text(errors='replace')}")

    def processor_seconds(self) -> float:
        """The seconds that the process ran on a processor so far, with those of threads that have ended."""
        used = Path(f"/proc/{self.process.pid}/stat").read_text().rpartition(")")[2].split()
        return (int(used[11]) + int(used[12])) / os.sysconf("SC_CLK_TCK")

    def wait_for_sessions(self, threads: int) -> None:
        """Waits until the sessions that have left are gone, which leaves so many threads."""
        until = time.monotonic() + SECONDS_TO_LEAVE
        while self.status("Threads") > threads and time.monotonic() < until:
            time.sleep(0.01)


@cache
def all_seats(program: Path) -> list[str]:
    """The words by which all seats of a server may have commands under way; an earlier program has none."""
    printed = subprocess.run([program, "run", "--help"], check=True, capture_output=True, text=True).stdout
    return ["--spare", "0"] if "--spare" in printed else []


def pathd(programs: Programs, store: Path, microseconds: int | None = None, made: int = 0) -> Server:
    """`pathd` over a store that is there; without preloaded syncs where no microseconds are given."""
    words = [programs.pathd, "run", store, "--listen", "127.0.0.1:0", "--cores", CORE, *all_seats(programs.pathd)]
    server = Server(words, store.parent, programs.slow_sync if microseconds is not None else None, microseconds or 0, "ready")
    server.made = made
    return server


def formatted(programs: Programs, store: Path, checkpoint: int = 65_536, journal: int = 65_536) -> Path:
    """A new store."""
    store.unlink(missing_ok=True)
    words = [programs.pathd, "format", store, "--checkpoint", str(checkpoint), "--journal", str(journal)]
    subprocess.run(words, check=True, stdout=subprocess.DEVNULL)
    return store


def serving(programs: Programs, name: str, folder: Path, microseconds: int | None = None, commits: str = "each") -> Server:
    """A new server of a name: `pathd`, `echo` or a rival's, over an empty store in a folder. A rival commits
    `each` registration, or those of one read in `batches`."""
    if name == "pathd":
        return pathd(programs, formatted(programs, folder / "store"), microseconds)
    if name == "echo":
        return Server([programs.echo], folder)
    shutil.rmtree(folder / "rival", ignore_errors=True)
    (folder / "rival").mkdir()
    slow = programs.slow_sync if microseconds is not None else None
    return Server([programs.servers, name, folder / "rival", commits], folder, slow, microseconds or 0)


@dataclass(frozen=True)
class Load:
    """What a load measured of one kind of requests: replies a second, and percentiles of their times in microseconds."""

    rate: float
    p50: float
    p99: float
    p999: float
    most: float


class WrongReply(Exception):
    """A load got a reply other than its request's, or a refusal, or its session ended."""


def started_load(programs: Programs, server: Server, kind: str, sessions: int, seconds: float, ahead: int = 1, rate: float = 0) -> subprocess.Popen:
    """A load that runs."""
    words = [programs.load, "127.0.0.1", server.port, "--sessions", sessions, "--seconds", seconds, "--mix", kind, "--rows", 1, "--window", ahead]
    if kind == "register":
        # A load beside it that looks up registers the same rows first, with the least timestamp.
        server.made += LATER
        words += ["--made", server.made]
    words += ["--rate", rate] if rate else []
    return subprocess.Popen([str(word) for word in words], stdout=subprocess.PIPE, stderr=subprocess.PIPE, text=True)


def measured(run: subprocess.Popen, kind: str) -> Load:
    """What a load measured, once it has ended."""
    out, err = run.communicate()
    line = next((line.split() for line in out.splitlines() if line.startswith(f"{kind} ")), None)
    if run.returncode != 0 or line is None:
        raise WrongReply(f"a load of the kind {kind} ended with the status {run.returncode}: {err.strip()[:400]} {out.strip()[-200:]}")
    return Load(*(float(word) for word in line[2:7]))


def put_load(programs: Programs, server: Server, kind: str, sessions: int, seconds: float, ahead: int = 1, rate: float = 0) -> Load:
    """Puts a load on a server."""
    return measured(started_load(programs, server, kind, sessions, seconds, ahead, rate), kind)
