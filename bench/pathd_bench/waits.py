"""The longest waits of a lookup and of a registration, beside what other sessions do.

    bench/pathd-bench waits PATHD [--rows N ..] [--seconds S] [--journal J]

PATHD is the built program; `bench/pathd-bench build` makes one without proofs. For each number of
rows a server is filled with core segments, half of them from ISD 2 to ISD 1 and half of them the
other way. One session then sends 500 lookups a second and another one 200 registrations a second,
alone and beside each of these:

- purges: five a second, each of which drops one row;
- wildcards: lookups from 2-0 to 2-0 by four sessions, which visit rows and show none;
- checkpoints: removals of nothing, by eight sessions that send 32 ahead, which fill journals of
  J sectors.

A time is counted from the moment at which the request was due. The table has the times in
milliseconds that 99.9 % of the requests took at the most, and the longest. Files are in /dev/shm,
or below TMPDIR where that is set. It needs gcc, and 2 GB of memory for a million rows.
"""
from __future__ import annotations

import os
import socket
import struct
import tempfile
import threading
import time
from collections.abc import Callable
from pathlib import Path

from pathd_bench import measure
from pathd_bench.measure import Load, Programs, Server
from pathd_tools import messages, toolbox
from pathd_tools.load import load
from pathd_tools.messages import PURGE, Hop

CORE_TYPE = 3
IN_A_REGISTRATION, AT_ONCE = 16, 64
ONE, TWO = 0x0001_FF00_0000_0110, 0x0002_FF00_0000_0210
WILDCARD = 0x0002_0000_0000_0000
# Segments of 2096, so that none expires by the machine's clock.
MADE = 4_000_000_000
# After it is filled a server rests for a second for each of these rows, so that its checkpoints are over.
ROWS_A_SECOND = 100_000
# The seconds of the shortest lifetime of a hop field.
LEAST_LIFETIME = 338
LOOKUPS_A_SECOND, REGISTRATIONS_A_SECOND, PURGES_A_SECOND = 500, 200, 5
SEGMENT = 88


def segment(number: int, timestamp: int = MADE, exp_time: int = 63) -> bytes:
    """The segment of a number: from ISD 2 to ISD 1 where it is even, and else the other way."""
    ends = (TWO, ONE) if number % 2 == 0 else (ONE, TWO)
    hops = [Hop(ends[0], 0, 1 + number % 1_000), Hop(ends[1], 1 + number // 1_000, 0)]
    return messages.make_segment(hops, timestamp, exp_time)


class Session:
    """A session that waits for each reply."""

    def __init__(self, port: int) -> None:
        self.connection = socket.create_connection(("127.0.0.1", port), 60)
        self.replies = self.connection.makefile("rb")

    def ask(self, frames: bytes, count: int = 1) -> list[bytes]:
        """The replies to requests that are sent at once."""
        self.connection.sendall(frames)
        return [self.replies.read(struct.unpack(">I", self.replies.read(4))[0]) for _ in range(count)]


def fill(port: int, rows: int) -> None:
    """Registers so many core segments."""
    session = Session(port)
    firsts = range(0, rows, IN_A_REGISTRATION)
    frames = [messages.registration((CORE_TYPE, segment(number)) for number in range(first, min(first + IN_A_REGISTRATION, rows))) for first in firsts]
    for at in range(0, len(frames), AT_ONCE):
        sent = frames[at : at + AT_ONCE]
        if any(reply[:1] != b"\x81" for reply in session.ask(b"".join(sent), len(sent))):
            raise SystemExit("a registration was refused")


def purge(port: int, rows: int, is_over: threading.Event) -> None:
    """Registers a row that expires soon, and purges by a time after that, now and then."""
    session = Session(port)
    made = int(time.time())
    while not is_over.wait(1 / PURGES_A_SECOND):
        made += 1
        session.ask(messages.registration([(CORE_TYPE, segment(rows, made, 0))]))
        session.ask(messages.frame(PURGE, struct.pack(">Q", 2 * (made + LEAST_LIFETIME))))


def look_up_wildcards(port: int, _rows: int, is_over: threading.Event) -> None:
    """Looks up between two wildcards, one lookup after the other."""
    session = Session(port)
    while not is_over.is_set():
        session.ask(messages.lookup_frame(WILDCARD, WILDCARD))


def beside(work: Callable[[int, int, threading.Event], None], threads: int, server: Server, rows: int, run: Callable[[], tuple[Load, Load]]) -> tuple[Load, Load]:
    """What `run` measures beside threads of some work."""
    is_over = threading.Event()
    started = [threading.Thread(target=work, args=(server.port, rows, is_over)) for _ in range(threads)]
    for thread in started:
        thread.start()
    found = run()
    is_over.set()
    for thread in started:
        thread.join()
    return found


def probe(programs: Programs, server: Server, seconds: float) -> tuple[Load, Load]:
    """The times of lookups and of registrations by a session each."""
    lookups = measure.started_load(programs, server, "lookup", 1, seconds, rate=LOOKUPS_A_SECOND)
    registrations = measure.started_load(programs, server, "register", 1, seconds, rate=REGISTRATIONS_A_SECOND)
    return measure.measured(lookups, "lookup"), measure.measured(registrations, "register")


def beside_checkpoints(programs: Programs, server: Server, seconds: float) -> tuple[Load, Load]:
    """The same, beside removals of nothing, which fill journals."""
    others = measure.started_load(programs, server, "remove", 8, seconds + 1, 32)
    found = probe(programs, server, seconds)
    measure.measured(others, "remove")
    return found


def sectors(rows: int) -> int:
    """The sectors of a checkpoint area with room for as many rows again."""
    return max(65_536, 2 * rows * (SEGMENT + 5) // 512)


def print_waits(programs: Programs, folder: Path, rows: int, seconds: float, journal: int) -> None:
    """Prints the lines of a number of rows."""
    store = measure.formatted(programs, folder / "store", sectors(rows), journal)
    cores = f"{measure.CORE},2-ff00:0:210"
    words = [programs.pathd, "run", store, "--listen", "127.0.0.1:0", "--cores", cores, *measure.all_seats(programs.pathd)]
    with Server(words, folder, mark="ready") as server:
        fill(server.port, rows)
        time.sleep(1 + rows / ROWS_A_SECOND)
        alone: Callable[[], tuple[Load, Load]] = lambda: probe(programs, server, seconds)
        cases: list[tuple[str, Callable[[], tuple[Load, Load]]]] = [
            ("nothing", alone),
            ("purges", lambda: beside(purge, 1, server, rows, alone)),
            ("wildcards", lambda: beside(look_up_wildcards, 4, server, rows, alone)),
            ("checkpoints", lambda: beside_checkpoints(programs, server, seconds)),
        ]
        for name, run in cases:
            lookup, registration = run()
            figures = [lookup.p999, lookup.most, registration.p999, registration.most]
            print(f"{rows:>9} {name:<12}" + "".join(f"{figure / 1_000:>10.2f}" for figure in figures), flush=True)


def main(words: list[str]) -> int:
    """Prints the table."""
    parser = toolbox.parser(__doc__)
    parser.add_argument("pathd", type=Path, metavar="PATHD")
    parser.add_argument("--rows", type=int, nargs="+", default=[10_000, 100_000, 1_000_000], metavar="N", help="the rows of the store [10,000, 100,000 and 1,000,000]")
    parser.add_argument("--seconds", type=float, default=10, metavar="S", help="the seconds of a line [10]")
    parser.add_argument("--journal", type=int, default=8_192, metavar="J", help="the sectors of a journal [8,192]")
    options = parser.parse_args(words)
    place = os.environ.get("TMPDIR", "/dev/shm")
    with tempfile.TemporaryDirectory(dir=place) as made:
        folder = Path(made)
        none = Path("/nonexistent")
        programs = Programs(options.pathd.resolve(), none, load.compiled(folder), none, none, none, none)
        print("     rows beside      lookup: 99.9 %  most; registration: 99.9 %  most, ms")
        for rows in options.rows:
            print_waits(programs, folder, rows, options.seconds, options.journal)
    return 0
