"""A day of an ISD, played in an hour or less.

    bench/pathd-bench day PATHD [--ases N] [--rows N] [--minutes M] [--lookups N] [--journal J] [--seed N] [--csv FILE] [--picture FILE]

PATHD is the built program; `bench/pathd-bench build` makes one without proofs. All times of the day
are shorter by the same factor, which is 24 for an hour. Hop fields live for a multiple of 337.5
seconds, so that a segment's timestamp is as much in the past as its lifetime is too long.

- An ISD has 16 core ASes and N other ones. A segment has two to seven entries, four in the mean,
  with a signature of 71 bytes each, and lives for six hours of the day. One of 25 is a core segment
  to one of 20 other ISDs. All others are down segments, as many to each AS.
- Each segment is registered anew, with seven more, when 0.7 of its lifetime is over.
- Links fail, 20 in an hour of the day, some of them at one moment. A link has one of 2,000 segments.
  They are not registered any more, and expire. At once as many to the same ASes are registered,
  which begin by another link.
- Four sessions look up. The AS of a lookup is chosen by Zipf's law. Of 20 lookups 16 ask for the
  segments from any core AS of the ISD, three for those from one of them, and one for those between
  the ISD and another one.
- The server purges by itself each five seconds. In the middle of the 13th hour it is killed (-9) and
  started again.

The table has a line for each hour of the day: the rows at its end, the registered segments, the
lookups and the purged rows a second, the milliseconds that 50 and 99.9 % of the lookups and of the
registrations took at the most, and the longest, the checkpoints, the server's processor seconds a
second, and its resident MiB. The time of a lookup begins when it is due, and that of a registration
when it is sent. Both have what this program needs itself, some 0.1 ms. Each reply has to be one of
its request's kind. CSV and picture are of the same table. Files are in /dev/shm, or below TMPDIR
where that is set. A million rows take some 3 GB there, and as much memory besides.
"""
from __future__ import annotations

import bisect
import csv
import math
import multiprocessing
import os
import random
import socket
import struct
import subprocess
import tempfile
import time
from collections import defaultdict
from collections.abc import Callable, Iterable
from dataclasses import asdict, dataclass, fields
from itertools import accumulate
from pathlib import Path
from typing import Any

from pathd_bench.measure import Server
from pathd_tools import messages, runs, toolbox
from pathd_tools.load.svg import COLORS, DASHES, Area, Curve, Picture, draw_curves
from pathd_tools.messages import Hop

HOURS, LIFETIME, RENEWED, KILLED = 24, 6, 0.7, 12.5
CORES, ISDS, LINKS, ONE_OF_CORE = 16, 20, 2_000, 25
FAILURES, TOGETHER = 20, 4
DOWN, CORE = 2, 3
IN_A_REGISTRATION, AT_ONCE = 8, 32
# The most sectors of a checkpoint area.
MOST_SECTORS = 1_048_576
# The seconds of which the lifetime of a hop field is a multiple.
LIFETIMES = 337.5
SIGNATURE = bytes(71)
# Of how many of 100 segments the entries are 2, 3, 4, 5, 6 and 7 at the most.
LENGTHS = [5, 35, 70, 90, 97, 100]
# The greatest multiplier of a hash of 64 bits by a product.
MIXED = 0x9E37_79B9_7F4A_7C15
WRITERS, READERS = 2, 4
# The second of the day, by the clock, at which a request was due, the seconds that it took, and how many segments it registered.
RECORD = struct.Struct("<ddI")
TICK, SECONDS_TO_COME_BACK = 0.02, 300.0


@dataclass(frozen=True)
class Day:
    """What is played: the numbers of ASes and of rows, and the seconds that the day takes."""

    ases: int
    rows: int
    seconds: float
    seed: int

    def clock(self, hours: float) -> float:
        """The seconds that hours of the day take."""
        return hours * self.seconds / HOURS

    def groups(self) -> int:
        """How many groups of segments are registered together."""
        return self.rows // IN_A_REGISTRATION

    def hops(self, row: int, generation: int) -> tuple[int, list[Hop]]:
        """The type of a row's segment and its hops, after its link has failed so many times."""
        group = row // IN_A_REGISTRATION
        chance = ((row + 1) * MIXED & (1 << 64) - 1) >> 16
        kind = CORE if group % ONE_OF_CORE == 0 else DOWN
        number, step = group % self.ases, self.ases // 8
        last = isd_as(2 + chance % ISDS, number % CORES) if kind == CORE else isd_as(1, CORES + number)
        between = [isd_as(1, CORES + (number + 1 + step * it + (chance >> it) % step) % self.ases) for it in range(bisect.bisect_right(LENGTHS, chance % 100))]
        ases = [isd_as(1, chance % CORES), *between, last]
        # Each row has an interface of its own, and each generation another one.
        ingress, egress = 1 + row % 60_000, 1 + row // 60_000
        hops = [Hop(it, ingress, egress) for it in ases]
        hops[0] = Hop(ases[0], 0, 1 + generation)
        hops[-1] = Hop(last, ingress, 0)
        return kind, [*hops[:-2], Hop(hops[-2].isd_as, hops[-2].ingress, 100 * egress + generation), hops[-1]]

    def registration(self, group: int, generation: int, now: float) -> bytes:
        """The request that registers a group's segments at a moment."""
        lifetimes = math.ceil(self.clock(LIFETIME) / LIFETIMES)
        made = int(now + self.clock(LIFETIME) - lifetimes * LIFETIMES)
        rows = [(row, *self.hops(row, generation)) for row in range(group * IN_A_REGISTRATION, (group + 1) * IN_A_REGISTRATION)]
        return messages.registration((kind, messages.make_segment(hops, made, lifetimes - 1, row & 0xFFFF, SIGNATURE)) for row, kind, hops in rows)

    def failures(self) -> list[tuple[float, list[int]]]:
        """When links fail, by the clock, and which."""
        chance = random.Random(f"{self.seed}/links")
        moments = sorted(chance.uniform(0, self.seconds) for _ in range(HOURS * FAILURES // TOGETHER))
        return [(moment, [chance.randrange(LINKS) for _ in range(TOGETHER)]) for moment in moments]

    def lookups(self, seed: str) -> Iterable[bytes]:
        """Requests without an end."""
        chance = random.Random(seed)
        shares = list(accumulate(1 / (rank + 1) for rank in range(self.ases)))
        while True:
            kind = chance.randrange(20)
            rank = bisect.bisect_left(shares, chance.uniform(0, shares[-1]))
            to = isd_as(1, CORES + rank * 7_919 % self.ases)
            if kind == 0:
                yield messages.lookup_frame(1 << 48, 2 + chance.randrange(ISDS) << 48)
            else:
                yield messages.lookup_frame(isd_as(1, chance.randrange(CORES)) if kind < 4 else 1 << 48, to)


def isd_as(isd: int, number: int) -> int:
    """The AS of a number in an ISD."""
    return isd << 48 | 0xFF00_0000_0000 + number


# The sessions, a process each


class Session:
    """A session that is opened again where it breaks, and what it noted."""

    def __init__(self, port: int, notes: Path) -> None:
        self._port = port
        self._notes = open(notes, "wb")
        self._connect()

    def _connect(self) -> None:
        until = time.monotonic() + SECONDS_TO_COME_BACK
        while True:
            try:
                self._connection = socket.create_connection(("127.0.0.1", self._port), 60)
                self._replies = self._connection.makefile("rb")
                return
            except OSError:
                if time.monotonic() > until:
                    raise
                time.sleep(0.005)

    def _asked(self, frames: list[bytes]) -> list[bytes]:
        self._connection.sendall(b"".join(frames))
        contents = []
        for _ in frames:
            head = self._replies.read(4)
            content = self._replies.read(int.from_bytes(head, "big"))
            if len(head) < 4 or not content:
                raise ConnectionError
            contents.append(content)
        return contents

    def ask(self, frames: list[bytes], wanted: int) -> None:
        """Sends requests at once, and again in a new session where this one breaks. Each reply has to be of this kind."""
        while True:
            try:
                replies = self._asked(frames)
                break
            except OSError:
                self._connection.close()
                self._connect()
        for reply in replies:
            if reply[0] != wanted:
                raise SystemExit(f"a reply begins with {reply[:2].hex()}, and not with {wanted:x}")

    def note(self, due: float, took: float, segments: int = 0) -> None:
        """Notes a request."""
        self._notes.write(RECORD.pack(due, took, segments))

    def end(self) -> None:
        """Ends the session, and writes the notes."""
        self._connection.close()
        self._notes.close()


def hold_writer(day: Day, number: int, port: int, begun: Any, filled: Any, notes: Path) -> None:
    """Registers the segments of each WRITERS-th group: all of them, and from the begin of the day on those that are due."""
    session = Session(port, notes)
    groups = list(range(number, day.groups(), WRITERS))
    every = RENEWED * day.clock(LIFETIME)
    of_link = defaultdict(list)
    for group in groups:
        of_link[group * 7_919 % LINKS].append(group)
    generations: dict[int, int] = defaultdict(int)

    def register(some: list[int], ages: list[float]) -> None:
        for at in range(0, len(some), AT_ONCE):
            now = time.time()
            part = list(zip(some[at : at + AT_ONCE], ages[at : at + AT_ONCE]))
            frames = [day.registration(group, generations[group * 7_919 % LINKS], now - age) for group, age in part]
            sent = time.time()
            session.ask(frames, 0x81)
            if begun.value:
                session.note(sent - begun.value, time.time() - sent, len(frames) * IN_A_REGISTRATION)

    register(groups, [every * (1 - at / len(groups)) for at in range(len(groups))])
    filled.release()
    while not begun.value:
        time.sleep(TICK)
    failures, done = day.failures(), 0
    while (now := time.time() - begun.value) < day.seconds:
        due = []
        while failures and failures[0][0] <= now:
            for link in failures.pop(0)[1]:
                generations[link] += 1
                due += of_link[link]
        until = int(now / every * len(groups))
        due += [groups[it % len(groups)] for it in range(done, until)]
        done = until
        register(due, [0.0] * len(due))
        time.sleep(TICK)
    session.end()


def hold_reader(day: Day, number: int, port: int, begun: Any, rate: float, notes: Path) -> None:
    """Looks up at a rate from the begin of the day on."""
    session = Session(port, notes)
    for count, frame in enumerate(day.lookups(f"{day.seed}/{number}")):
        due = count / rate
        if due > day.seconds:
            break
        time.sleep(max(0.0, begun.value + due - time.time()))
        session.ask([frame], 0x82)
        session.note(due, time.time() - begun.value - due)
    session.end()


# What the server says of itself


@dataclass(frozen=True)
class Sample:
    """What a server has come to: totals since the begin of the day, and what it holds now."""

    rows: float
    purged: float
    checkpoints: float
    processor: float
    resident: float


class Played:
    """A server over one store, whose totals go on after a kill."""

    def __init__(self, pathd: Path, folder: Path, journal: int, day: Day) -> None:
        self._folder, self.port, self._numbers = folder, runs.free_port(), runs.free_port()
        store = folder / "store"
        sectors = min(MOST_SECTORS, max(65_536, 2 * day.rows))
        subprocess.run([pathd, "format", store, "--checkpoint", str(sectors), "--journal", str(journal)], check=True, stdout=subprocess.DEVNULL)
        cores = ",".join(f"1-ff00:0:{number:x}" for number in range(CORES))
        self._words = [pathd, "run", store, "--listen", f"127.0.0.1:{self.port}", "--status", f"127.0.0.1:{self._numbers}", "--cores", cores, "--purge", "5"]
        self._before = dict.fromkeys(("purged", "checkpoints", "processor"), 0.0)
        self._server = Server(self._words, folder, mark="ready")

    def _totals(self) -> dict[str, float]:
        found = runs.numbers(self._numbers)
        return {
            "rows": found["pathd_rows"],
            "purged": found['pathd_outcomes_total{outcome="removed"}'],
            "checkpoints": found["pathd_checkpoints_total"],
            "processor": self._server.processor_seconds(),
            "resident": self._server.status("VmRSS") / 1024,
        }

    def sample(self) -> Sample:
        """What the server has come to."""
        return Sample(**{name: value + self._before.get(name, 0.0) for name, value in self._totals().items()})

    def kill(self) -> float:
        """Kills the server, and starts it again; how long it takes until it serves."""
        before = self.sample()
        self._before = {name: getattr(before, name) for name in self._before}
        self._server.kill()
        self._server = Server(self._words, self._folder, mark="ready")
        return self._server.seconds_to_start

    def end(self) -> None:
        """Ends the server."""
        self._server.kill()


# The table


@dataclass(frozen=True)
class Hour:
    """An hour of the day. Rates are by the seconds of the clock, and times in milliseconds."""

    hour: int
    rows: int
    registered: float
    lookups: float
    purged: float
    lookup_50: float
    lookup_999: float
    lookup_most: float
    registration_50: float
    registration_999: float
    registration_most: float
    checkpoints: int
    processor: float
    resident: int


def by_hour(day: Day, notes: list[Path]) -> list[list[tuple[float, int]]]:
    """How long the requests of each hour took, in milliseconds, by rising times, and how many segments they registered."""
    hours: list[list[tuple[float, int]]] = [[] for _ in range(HOURS)]
    for path in notes:
        for due, took, segments in RECORD.iter_unpack(path.read_bytes()):
            hours[min(HOURS - 1, int(due / day.seconds * HOURS))].append((1_000 * took, segments))
    return [sorted(it) for it in hours]


def part(times: list[tuple[float, int]], share: float) -> float:
    """The time that this share of requests took at the most."""
    return times[min(len(times) - 1, int(share * len(times)))][0] if times else 0.0


def table(day: Day, samples: list[Sample], lookups: list[Path], registrations: list[Path]) -> list[Hour]:
    """The hours of a day, of which there is a sample at the begin and at each end."""
    found, length = [], day.clock(1)
    asked, sent = by_hour(day, lookups), by_hour(day, registrations)
    for hour, (before, after) in enumerate(zip(samples, samples[1:])):
        times = [part(of[hour], share) for of in (asked, sent) for share in (0.5, 0.999, 1)]
        rates = sum(segments for _, segments in sent[hour]) / length, len(asked[hour]) / length, (after.purged - before.purged) / length
        checkpoints, processor = after.checkpoints - before.checkpoints, (after.processor - before.processor) / length
        found.append(Hour(hour, int(after.rows), *rates, *times, int(checkpoints), processor, int(after.resident)))
    return found


def shown(value: float) -> str:
    """A cell of the table."""
    return f"{value:,}" if isinstance(value, int) else f"{value:.3g}" if value < 100 else f"{value:,.0f}"


def curves(hours: list[Hour]) -> dict[str, list[Curve]]:
    """The curves of a picture, by their units."""

    def curve(name: str, column: str, color: int, dashes: int = 0) -> Curve:
        return Curve(name, COLORS[color], [(it.hour, float(getattr(it, column))) for it in hours], DASHES[dashes])

    rates = [curve("registered segments", "registered", 0), curve("lookups", "lookups", 1), curve("purged rows", "purged", 2)]
    times = [
        curve(f"{kind}s, {share}", f"{kind}_{column}", color, dashes)
        for color, kind in enumerate(("registration", "lookup"))
        for dashes, (share, column) in enumerate((("50 %", "50"), ("99.9 %", "999"), ("longest", "most")))
    ]
    return {"a second": rates, "milliseconds": times, "MiB": [curve("resident", "resident", 3)]}


def draw(hours: list[Hour], picture: Path) -> None:
    """Draws the rates above, the times in the middle, and the memory below."""
    drawn = Picture(900, 720)
    for number, (unit, of_unit) in enumerate(curves(hours).items()):
        area = Area(70, 720, 24 + 230 * number, 214 + 230 * number)
        draw_curves(drawn, area, of_unit, unit, [KILLED], HOURS)
    for hour in range(0, HOURS + 1, 3):
        drawn.text(70 + hour / HOURS * 650, 688, str(hour), "middle", 10)
    drawn.text(395, 706, "hours of the day; the gray line: the server is killed and started again", "middle", 11)
    drawn.write(picture)


def started(work: Callable[..., None], day: Day, played: Played, given: list[tuple]) -> list[multiprocessing.Process]:
    """A process for each of these arguments, after the day, its number and the server's port."""
    processes = [multiprocessing.Process(target=work, args=(day, number, played.port, *more)) for number, more in enumerate(given)]
    for process in processes:
        process.start()
    return processes


def play(day: Day, played: Played, folder: Path, rate: float) -> tuple[list[Hour], float]:
    """Plays the day, with this many lookups a second. The hours, and how long the server took to start after it was killed."""
    begun, filled = multiprocessing.Value("d", 0.0, lock=False), multiprocessing.Semaphore(0)
    registrations, lookups = ([folder / f"{kind}{number}" for number in range(count)] for kind, count in (("writer", WRITERS), ("reader", READERS)))
    at_first = time.monotonic()
    processes = started(hold_writer, day, played, [(begun, filled, notes) for notes in registrations])
    for _ in registrations:
        while not filled.acquire(timeout=1):
            if any(it.exitcode for it in processes):
                raise SystemExit("a registration was refused")
    print(f"{day.rows:,} segments were registered in {time.monotonic() - at_first:.0f} s", flush=True)
    samples = [played.sample()]
    begun.value = time.time()
    processes += started(hold_reader, day, played, [(begun, rate / READERS, notes) for notes in lookups])
    took = 0.0
    for hour in range(HOURS):
        if hour == int(KILLED):
            time.sleep(max(0.0, begun.value + day.clock(KILLED) - time.time()))
            took = played.kill()
        time.sleep(max(0.0, begun.value + day.clock(hour + 1) - time.time()))
        samples.append(played.sample())
    for process in processes:
        process.join()
    if any(it.exitcode for it in processes):
        raise SystemExit("a session did not get the replies of its requests")
    return table(day, samples, lookups, registrations), took


def main(words: list[str]) -> int:
    """Plays the day, and prints the table."""
    parser = toolbox.parser(__doc__)
    parser.add_argument("pathd", type=Path, metavar="PATHD")
    parser.add_argument("--ases", type=int, default=10_000, metavar="N", help="the ASes of the ISD beside its core ASes [10,000]")
    parser.add_argument("--rows", type=int, default=1_000_000, metavar="N", help="the segments [1,000,000]")
    parser.add_argument("--minutes", type=float, default=60, metavar="M", help="the minutes of the day [60]")
    parser.add_argument("--lookups", type=float, default=1_000, metavar="N", help="the lookups a second [1,000]")
    parser.add_argument("--journal", type=int, default=131_072, metavar="J", help="the sectors of a journal [131,072]")
    parser.add_argument("--seed", type=int, default=1)
    parser.add_argument("--csv", type=Path, metavar="FILE", help="the table goes here")
    parser.add_argument("--picture", type=Path, metavar="FILE", help="a picture of it goes here, as SVG")
    options = parser.parse_args(words)
    day = Day(options.ases, options.rows, 60 * options.minutes, options.seed)
    with tempfile.TemporaryDirectory(dir=os.environ.get("TMPDIR", "/dev/shm")) as made:
        played = Played(options.pathd.resolve(), Path(made), options.journal, day)
        try:
            hours, took = play(day, played, Path(made), options.lookups)
        finally:
            played.end()
    names = [it.name for it in fields(Hour)]
    print(" ".join(f"{name:>16}" for name in names))
    for hour in hours:
        print(" ".join(f"{shown(value):>16}" for value in asdict(hour).values()))
    print(f"the server was killed, and served again after {took:.1f} s")
    if options.csv:
        with open(options.csv, "w", encoding="utf-8", newline="") as file:
            csv.writer(file, lineterminator="\n").writerows([names, *(asdict(hour).values() for hour in hours)])
    if options.picture:
        draw(hours, options.picture)
    return 0
