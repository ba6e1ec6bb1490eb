"""Measures `pathd` beside what a user would take in its place, all in the same rounds, and writes
the raw figures to a CSV file.

    bench/pathd-bench table PATHD ECHO CSV [--rounds N] [--seconds S] [--rows N ..] [--only KIND ..] [--quick]

PATHD is the built program, and ECHO that of bench/echo_server.rattle; `bench/pathd-bench build`
makes both without proofs. The kinds of figures:

- registrations: by 1, 8 and 64 sessions, by one that sends 32 and 128 ahead, and by 64 that send 8
  ahead, with syncs as they are, 0.1 ms and 1 ms longer; beside LevelDB, RocksDB, SQLite and LMDB
  over the same sockets (bench/server_rivals.cc), which commit each registration, and, where
  requests are sent ahead, beside these with those of one read as one batch;
- lookups: of one row, by 1, 8 and 64 sessions and in batches of 100; beside these and the echo
  server;
- latencies: of a lookup by 4 sessions, while nobody registers, and while 8 sessions register at
  half of their greatest rate, with syncs 0.1 ms longer; beside these and, where nobody registers,
  the echo server;
- checkpoints: of a lookup and of a registration while 8 sessions that send 32 ahead fill journals,
  so that checkpoints of all rows are made; of pathd alone;
- opening: seconds until a server of a store serves, beside a rival that opens a store of as many
  values of as many bytes and reads each, and the memory that is resident then;
- memory: resident before a session, after 64, after sessions of one request, with rows of segments
  of 88 bytes, and with as many of 220;
- once: seconds of the processor for the same registrations, beside Google's protobuf, which parses
  them alone;
- growth: registrations by one session that sends 32 ahead, and lookups by 8, among more and more
  rows; of pathd alone.

A line of CSV has the round, the kind, the figure, the program, the microseconds by which a sync is
longer, the sessions, how many requests each sends ahead, the rows of the store, the value, its
unit, and the load of the machine (the average of a minute) at that time. `bench/pathd-bench plots`
draws it. Files are in /dev/shm, or below TMPDIR where that is set. Programs take turns within each
round. A wrong or refused reply ends the table, with the status 1.

Nine rounds take about an hour, and 4 GB of memory with a million rows. --quick has two rounds of
half a second each, without the million rows, and takes about five minutes. It needs Python 3, gcc,
g++, protoc, and Debian's libprotobuf-dev, libleveldb-dev, librocksdb-dev, libsqlite3-dev and
liblmdb-dev.
"""
from __future__ import annotations

import csv
import hashlib
import os
import platform
import shutil
import subprocess
import sys
import tempfile
import time
from collections.abc import Iterator
from dataclasses import dataclass, field
from pathlib import Path

from pathd_bench import frames, measure, server_rows, store_image
from pathd_bench.measure import AFTER_FILLING, RIVALS, Load, Programs, WrongReply
from pathd_tools import need, toolbox
from pathd_tools.load.load import epoch_of

COLUMNS = ["round", "kind", "figure", "program", "sync_us", "sessions", "ahead", "rows", "value", "unit", "load"]
SYNCS = [0, 100, 1000]
# Sessions, and how many requests each sends before it reads their replies.
REGISTERING = [(1, 1), (8, 1), (64, 1), (1, 32), (1, 128), (64, 8)]
LOOKING = [(1, 1), (8, 1), (64, 1), (1, 100)]
PERCENTILES = {"50 %": "p50", "99 %": "p99", "99.9 %": "p999", "most": "most"}
ROWS = [1_000, 10_000, 100_000, 1_000_000]
QUICK_ROWS = [1_000, 10_000, 100_000]
# The rows below which a store is too small for figures of checkpoints and of opening.
MANY = 10_000
# The bytes of a segment of tools/native/load.c, and of one with a signature of so many bytes in both of its entries.
SEGMENT, SIGNED, SIGNATURE = 88, 220, 64
# What the record of a row has before its segment.
BEFORE_SEGMENT = 5
SECTOR = 512
# How many registrations `once` gets: each with a lookup after it, and each of 16 segments.
PAIRS, BATCHES = 200_000, 4_000
CORES_OF_FRAMES = "1-ff00:0:100,1-ff00:0:110"


@dataclass(frozen=True)
class Figure:
    """A raw figure, without its round."""

    figure: str
    program: str
    value: float
    unit: str
    sync_us: int = 0
    sessions: int = 0
    ahead: int = 1
    rows: int = 1


@dataclass
class Bench:
    """What the kinds of figures share: the programs, a folder, the seconds of a load, and stores with rows."""

    programs: Programs
    folder: Path
    seconds: float
    rows: list[int]
    stores: dict[tuple[int, int], Path] = field(default_factory=dict)
    kept: dict[str, Path] = field(default_factory=dict)
    images: dict[int, tuple[Path, int]] = field(default_factory=dict)

    def store(self, rows: int, journal: int = 65_536) -> Path:
        """A store that a server filled with rows, whose last checkpoint has them all, for reading alone."""
        if (rows, journal) not in self.stores:
            self.stores[rows, journal] = self._filled(rows, journal)
        return self.stores[rows, journal]

    def image(self, rows: int) -> tuple[Path, int]:
        """A store with rows of two entries in its checkpoint and nothing in its journal, and the bytes of a segment."""
        if rows not in self.images:
            path = self.folder / f"image-{rows}"
            self.images[rows] = path, store_image.write(path, rows, 2)
        return self.images[rows]

    def fresh(self, rows: int, journal: int = 65_536) -> Path:
        """A copy of that store, which may be written."""
        copy = self.folder / "copy"
        shutil.copy(self.store(rows, journal), copy)
        return copy

    def _filled(self, rows: int, journal: int) -> Path:
        store = self.folder / f"rows-{rows}-{journal}"
        # Room for as many rows again.
        checkpoint = max(2_048, 2 * sectors_of(rows, SEGMENT))
        measure.formatted(self.programs, store, checkpoint, journal)
        with measure.pathd(self.programs, store) as server:
            words = [self.programs.load, "127.0.0.1", str(server.port), "--rows", str(rows), "--seconds", "0.01"]
            subprocess.run(words, check=True, stdout=subprocess.DEVNULL)
            before = epoch_of(store)
            while epoch_of(store) == before:
                measure.put_load(self.programs, server, "register", 8, 0.5, 128)
        return store


def sectors_of(rows: int, segment: int) -> int:
    """How many sectors the records of so many rows take, whose segments have so many bytes."""
    return -(-rows * (BEFORE_SEGMENT + segment) // SECTOR)


def percentiles(load: Load, kind: str, program: str, **more: int) -> Iterator[Figure]:
    """The figures of a load's percentiles."""
    for name, attribute in PERCENTILES.items():
        yield Figure(f"{kind}, {name}", program, getattr(load, attribute), "us", **more)


# The kinds of figures


def registrations(bench: Bench) -> Iterator[Figure]:
    """Registrations a second, and their percentiles: beside rivals that commit each, and beside rivals that commit batches."""
    for sync_us in SYNCS:
        for sessions, ahead in REGISTERING:
            where = {"sync_us": sync_us, "sessions": sessions, "ahead": ahead}
            ours = registering(bench, "pathd", "each", where)
            for commits, figure, times in [("each", "registrations", "registration"), ("batches", "registrations beside batches", "registration beside batches")]:
                # Of requests that don't come together a batch has one.
                if commits == "batches" and ahead == 1:
                    continue
                loads = {"pathd": ours, **{name: registering(bench, name, commits, where) for name in RIVALS}}
                for name, load in loads.items():
                    yield Figure(figure, name, load.rate, "a second", **where)
                    yield from percentiles(load, times, name, **where)


def registering(bench: Bench, name: str, commits: str, where: dict[str, int]) -> Load:
    """The load of registrations on a new server."""
    with measure.serving(bench.programs, name, bench.folder, where["sync_us"], commits) as server:
        return measure.put_load(bench.programs, server, "register", where["sessions"], bench.seconds, where["ahead"])


def lookups(bench: Bench) -> Iterator[Figure]:
    """Lookups a second."""
    for sessions, ahead in LOOKING:
        for name in ["pathd", "echo", *RIVALS]:
            with measure.serving(bench.programs, name, bench.folder) as server:
                load = measure.put_load(bench.programs, server, "echo" if name == "echo" else "lookup", sessions, bench.seconds, ahead)
            yield Figure("lookups", name, load.rate, "a second", sessions=sessions, ahead=ahead)
            yield from percentiles(load, "lookup", name, sessions=sessions, ahead=ahead)


def latencies(bench: Bench) -> Iterator[Figure]:
    """Percentiles of a lookup, idle and beside registrations."""
    sync_us = 100
    for name in ["pathd", "echo", *RIVALS]:
        with measure.serving(bench.programs, name, bench.folder, sync_us) as server:
            kind = "echo" if name == "echo" else "lookup"
            idle = measure.put_load(bench.programs, server, kind, 4, bench.seconds)
            yield from percentiles(idle, "a lookup, idle", name, sync_us=sync_us, sessions=4)
            if name == "echo":
                continue
            greatest = measure.put_load(bench.programs, server, "register", 8, bench.seconds).rate
            beside = measure.started_load(bench.programs, server, "register", 8, bench.seconds + 0.6, rate=greatest / 2)
            time.sleep(0.3)
            busy = measure.put_load(bench.programs, server, "lookup", 4, bench.seconds)
            measure.measured(beside, "register")
            yield from percentiles(busy, "a lookup beside registrations", name, sync_us=sync_us, sessions=4)


def checkpoints(bench: Bench) -> Iterator[Figure]:
    """Percentiles of a lookup and of a registration while checkpoints are made."""
    for rows in [rows for rows in bench.rows if rows >= MANY]:
        # So small a journal is full after about a second.
        journal = max(2_048, rows * 65_536 // 1_000_000)
        store = bench.fresh(rows, journal)
        with measure.pathd(bench.programs, store, made=AFTER_FILLING) as server:
            where = {"sessions": 4, "rows": rows}
            idle = measure.put_load(bench.programs, server, "lookup", 4, bench.seconds)
            yield from percentiles(idle, "a lookup, idle", "pathd", **where)
            before, seconds = epoch_of(store), max(3 * bench.seconds, rows / 100_000)
            beside = measure.started_load(bench.programs, server, "register", 8, seconds + 0.6, 32)
            time.sleep(0.3)
            busy = measure.put_load(bench.programs, server, "lookup", 4, seconds)
            registering = measure.measured(beside, "register")
            yield from percentiles(busy, "a lookup beside checkpoints", "pathd", **where)
            yield from percentiles(registering, "32 registrations beside checkpoints", "pathd", sessions=8, ahead=32, rows=rows)
            yield Figure("registrations beside checkpoints", "pathd", registering.rate, "a second", sessions=8, ahead=32, rows=rows)
            yield Figure("checkpoints", "pathd", (epoch_of(store) - before) / seconds, "a second", sessions=8, ahead=32, rows=rows)
            yield Figure("memory at the most", "pathd", server.status("VmHWM"), "KiB", sessions=8, ahead=32, rows=rows)


def opening(bench: Bench) -> Iterator[Figure]:
    """Seconds to open a store of rows of two entries, all in its checkpoint, and the memory of a row that was opened."""
    with measure.pathd(bench.programs, measure.formatted(bench.programs, bench.folder / "copy")) as server:
        empty = server.status("VmRSS")
    for rows in [rows for rows in bench.rows if rows >= MANY]:
        image, length = bench.image(rows)
        assert length == SIGNED
        with measure.pathd(bench.programs, image) as server:
            yield Figure("opening", "pathd", server.seconds_to_start, "seconds", rows=rows)
            yield Figure("opening, processor", "pathd", server.processor_seconds(), "seconds", rows=rows)
            yield Figure("memory, opened", "pathd", server.status("VmRSS"), "KiB", rows=rows)
            yield Figure("memory at the most, opened", "pathd", server.status("VmHWM"), "KiB", rows=rows)
            yield Figure("memory of a row, opened", "pathd", 1024 * (server.status("VmRSS") - empty) / rows, "bytes", rows=rows)
        for name in RIVALS:
            place = values_of(bench, name, rows, length)
            printed = subprocess.run([bench.programs.stores, "read", name, place], check=True, capture_output=True, text=True).stdout
            size, clock, processor = printed.split()
            assert int(size) == rows * length
            yield Figure("opening", name, float(clock), "seconds", rows=rows)
            yield Figure("opening, processor", name, float(processor), "seconds", rows=rows)


def values_of(bench: Bench, name: str, rows: int, length: int) -> Path:
    """A rival's store of values as long as segments."""
    place = bench.folder / f"{name}-{rows}"
    if not place.exists():
        values = bench.folder / "values"
        head, rest = length.to_bytes(4, "big"), b"\x5a" * (length - 8)
        values.write_bytes(b"".join(head + number.to_bytes(8, "big") + rest for number in range(1, rows + 1)))
        subprocess.run([bench.programs.stores, "fill", name, values, place], check=True)
        values.unlink()
    return place


def memory(bench: Bench) -> Iterator[Figure]:
    """Resident memory, and the memory of a row that was registered."""
    rows = max(rows for rows in bench.rows if rows <= 100_000)
    with measure.pathd(bench.programs, store_for(bench, rows, SEGMENT)) as server:
        none, threads = server.status("VmRSS"), server.status("Threads")
        yield Figure("before a session", "pathd", none, "KiB")
        measure.put_load(bench.programs, server, "lookup", 64, bench.seconds)
        few = server.status("VmRSS")
        # As many sessions as may be open have left, and 32 come.
        server.wait_for_sessions(threads)
        yield Figure("after 64 sessions", "pathd", few, "KiB", sessions=64)
        coming = measure.put_load(bench.programs, server, "connect", 32, 2 * bench.seconds)
        yield Figure("sessions of one request", "pathd", coming.rate, "a second", sessions=32)
        yield Figure("after sessions of one request", "pathd", server.status("VmRSS"), "KiB", sessions=32)
        words = [bench.programs.load, "127.0.0.1", str(server.port), "--rows", str(rows), "--seconds", "0.01"]
        subprocess.run(words, check=True, stdout=subprocess.DEVNULL)
        yield Figure(f"memory of a row of {SEGMENT} bytes, registered", "pathd", 1024 * (server.status("VmRSS") - few) / rows, "bytes", rows=rows)
    with measure.pathd(bench.programs, store_for(bench, rows, SIGNED)) as server:
        none = server.status("VmRSS")
        if not server_rows.fill(server.port, rows, bytes(SIGNATURE)):
            raise WrongReply("a registration was not acknowledged")
        yield Figure(f"memory of a row of {SIGNED} bytes, registered", "pathd", 1024 * (server.status("VmRSS") - none) / rows, "bytes", rows=rows)


def store_for(bench: Bench, rows: int, segment: int) -> Path:
    """An empty store with room for so many rows and as many again."""
    return measure.formatted(bench.programs, bench.folder / "copy", 2 * sectors_of(rows, segment) + 2_048)


def once(bench: Bench) -> Iterator[Figure]:
    """Seconds of the processor of `once`, beside libprotobuf's parse of the same registrations."""
    for name, what, times in [
        (f"{PAIRS:,} registrations and lookups", "pairs", PAIRS),
        (f"{BATCHES:,} registrations of 16 segments", "registrations", BATCHES),
    ]:
        given = kept_frames(bench, what, times)
        yield Figure(name, "pathd", processor_seconds([bench.programs.pathd, "once", "--cores", CORES_OF_FRAMES], given), "seconds")
        words = [bench.programs.protobuf, first_frame(given), str(times)]
        printed = subprocess.run(words, check=True, capture_output=True, text=True).stdout
        yield Figure(name, "libprotobuf", float(printed.split()[0]), "seconds")


def kept_frames(bench: Bench, what: str, times: int) -> Path:
    """A file of frames, which is made once."""
    name = f"{what}-{times}"
    if name not in bench.kept:
        bench.kept[name] = bench.folder / name
        bench.kept[name].write_bytes({"pairs": frames.pairs, "registrations": frames.batches}[what](times))
    return bench.kept[name]


def first_frame(path: Path) -> Path:
    """A file of the first of some frames, which is a registration."""
    data, first = path.read_bytes(), path.with_suffix(".first")
    first.write_bytes(data[: 4 + int.from_bytes(data[:4], "big")])
    return first


def processor_seconds(words: list[object], given: Path) -> float:
    """The seconds that a program ran on a processor."""
    with open(given, "rb") as file:
        process = subprocess.Popen([str(word) for word in words], stdin=file, stdout=subprocess.DEVNULL)
    _, status, used = os.wait4(process.pid, 0)
    process.returncode = os.waitstatus_to_exitcode(status)
    if process.returncode != 0:
        raise WrongReply(f"`once` ended with the status {process.returncode}")
    return used.ru_utime + used.ru_stime


def growth(bench: Bench) -> Iterator[Figure]:
    """Registrations and lookups a second among more and more rows."""
    for rows in bench.rows:
        with measure.pathd(bench.programs, bench.fresh(rows), made=AFTER_FILLING) as server:
            found = measure.put_load(bench.programs, server, "lookup", 8, bench.seconds)
            yield Figure("lookups among rows", "pathd", found.rate, "a second", sessions=8, rows=rows)
            load = measure.put_load(bench.programs, server, "register", 1, bench.seconds, 32)
            yield Figure("registrations among rows", "pathd", load.rate, "a second", sessions=1, ahead=32, rows=rows)


KINDS = {
    "registrations": registrations,
    "lookups": lookups,
    "latencies": latencies,
    "checkpoints": checkpoints,
    "opening": opening,
    "memory": memory,
    "once": once,
    "growth": growth,
}


# The file


def about(programs: Programs) -> list[str]:
    """Lines on the machine and the programs, for the head of the file."""
    model = next((line.split(":")[1].strip() for line in Path("/proc/cpuinfo").read_text().splitlines() if line.startswith("model name")), "")
    lines = [f"begun {time.strftime('%Y-%m-%d %H:%M:%S', time.gmtime())} UTC, {os.cpu_count()} processors, {model}, Linux {platform.release()}"]
    for name, path in [("pathd", programs.pathd), ("echo", programs.echo)]:
        lines.append(f"{name} {hashlib.sha256(path.read_bytes()).hexdigest()}")
    packages = ["libleveldb1d", "librocksdb7.8", "libsqlite3-0", "liblmdb0", "libprotobuf32"]
    found = subprocess.run(["dpkg-query", "-W", "-f", "${Package} ${Version}, ", *packages], capture_output=True, text=True, check=False)
    return [*lines, found.stdout.rstrip(", ")]


def measure_all(bench: Bench, kinds: list[str], rounds: int, path: Path) -> None:
    """Measures each kind in each round, and writes each figure as it comes."""
    with open(path, "w", newline="") as file:
        file.writelines(f"# {line}\n" for line in about(bench.programs))
        lines = csv.writer(file, lineterminator="\n")
        lines.writerow(COLUMNS)
        for number in range(1, rounds + 1):
            for kind in kinds:
                begun = time.monotonic()
                for it in KINDS[kind](bench):
                    cells = [it.figure, it.program, it.sync_us, it.sessions, it.ahead, it.rows, f"{it.value:.6g}", it.unit]
                    lines.writerow([number, kind, *cells, f"{os.getloadavg()[0]:.2f}"])
                    file.flush()
                print(f"round {number}, {kind}: {time.monotonic() - begun:.0f} seconds, load {os.getloadavg()[0]:.1f}", flush=True)


def main(words: list[str]) -> int:
    """Measures."""
    parser = toolbox.parser(__doc__)
    parser.add_argument("pathd", type=Path, metavar="PATHD")
    parser.add_argument("echo", type=Path, metavar="ECHO")
    parser.add_argument("csv", type=Path, metavar="CSV")
    parser.add_argument("--rounds", type=int, help="how many rounds [9]")
    parser.add_argument("--seconds", type=float, help="the seconds of a load [2]")
    parser.add_argument("--rows", type=int, nargs="+", metavar="N", help="the rows of stores [1000 10000 100000 1000000]")
    parser.add_argument("--only", nargs="+", choices=list(KINDS), default=list(KINDS), metavar="KIND", help="only these kinds of figures")
    parser.add_argument("--quick", action="store_true", help="two rounds of half a second, without a million rows")
    options = parser.parse_args(words)
    need.require("python3", "gcc", "g++", "protoc", "libprotobuf-dev", "libleveldb-dev", "librocksdb-dev", "libsqlite3-dev", "liblmdb-dev")
    rounds = options.rounds or (2 if options.quick else 9)
    seconds = options.seconds or (0.5 if options.quick else 2.0)
    rows = sorted(options.rows or (QUICK_ROWS if options.quick else ROWS))
    where = os.environ.get("TMPDIR") or ("/dev/shm" if os.access("/dev/shm", os.W_OK) else None)
    with tempfile.TemporaryDirectory(prefix="pathd-table-", dir=where) as name:
        folder = Path(name)
        programs = measure.compiled(folder, options.pathd.resolve(), options.echo.resolve())
        try:
            measure_all(Bench(programs, folder, seconds, rows), options.only, rounds, options.csv)
        except WrongReply as wrong:
            print(f"wrong: {wrong}", file=sys.stderr)
            return 1
    return 0
