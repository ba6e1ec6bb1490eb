"""Runs of the built program for the scripts that attack it: a server on the loopback, a session's
replies, random commands, and the histories by which what was answered is judged."""
from __future__ import annotations

import argparse
import bisect
import hashlib
import os
import random
import re
import shutil
import signal
import socket
import struct
import subprocess
import tempfile
import time
import urllib.request
from collections.abc import Iterator, Sequence
from contextlib import contextmanager
from pathlib import Path
from typing import Self

from pathd_model import model
from pathd_tools import TOP, messages, need, toolbox

NATIVE = TOP / "tools" / "native"
PROGRAM = TOP / "crates/pathd/out/pathd"
# Segments of 2096, so that none expires by the machine's clock.
MADE = 4_000_000_000
CORE_A, CORE_B = 0x0001_FF00_0000_0110, 0x0002_0000_0000_FC00
LEAVES = [0x0001_FF00_0000_0111 + n for n in range(4)]
CORES = {CORE_A, CORE_B}
LARGE = 3_000
# The words of each server: its core ASes, and that it lists.
RUN_WORDS = ["--cores", "1-ff00:0:110,2-64512", "--lists"]
# How many requests sessions send before they read replies, at the most: one after the other.
AHEAD = (1, 8, 32, 128, 2, 64)
# Lookups of each kind, with wildcards among them.
QUERIES = [(CORE_A, leaf) for leaf in LEAVES] + [(leaf, CORE_A) for leaf in LEAVES] + [
    (CORE_A, CORE_B), (CORE_B, CORE_A), (1 << 48, LEAVES[0]), (LEAVES[1], 2 << 48), (0, LEAVES[2]), (LEAVES[3], 0), (CORE_A, 0),
]
# Pages of each type: of the rows of an ISD, an AS, or two, and after an id.
PAGES = [(model.UP, 1 << 48, 0, b""), (model.DOWN, 1 << 48, 1 << 48, b""), (model.CORE, 2 << 48, 0, b"")] + [
    (model.DOWN, CORE_A, LEAVES[0], b""), (model.CORE, 0, CORE_A, b""), (model.DOWN, 0, LEAVES[1] & (1 << 48) - 1, b""),
    *((kind, 0, 1 << 48, bytes([first]) + bytes(31)) for kind, first in ((model.UP, 0x10), (model.DOWN, 0x80), (model.CORE, 0xF0))),
]
# Lookups and pages.
ASKED = [*QUERIES, *PAGES]
# Rows that expire within seconds, whose ends no lookup and no page above covers: how many there are
# of each type, and after how many seconds.
FADING, FADES_AFTER = 8, (3, 9)


def program_of(path: str | None) -> str:
    """The program at a path, or the built one; ends the script where there is none."""
    program = Path(path) if path else PROGRAM
    if not os.access(program, os.X_OK):
        raise SystemExit(f"no program: {program}; `rt run -- --help` in crates/pathd builds it")
    return str(program.resolve())


def compiled(source: str, folder: Path) -> str:
    """A library to be preloaded, built from a C file of tools/native/."""
    need.require("gcc")
    library = folder / (Path(source).stem + ".so")
    subprocess.run(["cc", "-shared", "-fPIC", "-O1", str(NATIVE / source), "-o", str(library), "-ldl", "-lpthread"], check=True)
    return str(library)


def begin(text: str, words: list[str], is_last: bool = False, **defaults: object) -> tuple[argparse.Namespace, str]:
    """The options of a tool that tries the built program, by their defaults, and the program: the option --program, or the last
    word. A list has the words that an option may be, its default first, and a tuple those of which it may be some, by default all.
    `further` is the option --for. What is tried is printed."""
    parser = toolbox.parser(text)
    named = {"nargs": "?", "metavar": "PROGRAM"} if is_last else {}
    parser.add_argument("program" if is_last else "--program", help="the built program [crates/pathd/out/pathd]", **named)
    for name, default in defaults.items():
        option = "--for" if name == "further" else f"--{name}"
        if isinstance(default, list):
            parser.add_argument(option, choices=default, default=default[0])
        elif isinstance(default, tuple):
            parser.add_argument(option, choices=default, default=default, nargs="+")
        elif isinstance(default, bool):
            parser.add_argument(option, action="store_true")
        else:
            parser.add_argument(option, type=type(default), default=default, metavar=name[0].upper(), dest=name, help="[%(default)s]")
    options = parser.parse_args(words)
    program = program_of(options.program)
    options.since = time.monotonic()
    print(commit_name(program) + (f", seed {options.seed}" if "seed" in defaults else ""), flush=True)
    return options, program


def end(options: argparse.Namespace, line: str, faults: Sequence[str], counts: dict[str, int] | None = None) -> int:
    """Prints what a tool has counted, the first faults, and a line with the seconds; the status."""
    for name, count in sorted((counts or {}).items()):
        print(f"  {name}: {count}")
    for fault in faults[:10]:
        print(f"  {fault[:2000]}")
    print(f"{line}, {time.monotonic() - options.since:.0f} seconds")
    return 1 if faults else 0


@contextmanager
def scratch() -> Iterator[Path]:
    """A folder in memory, where there is one, which is removed at the end."""
    where = "/dev/shm" if os.access("/dev/shm", os.W_OK) else None
    folder = Path(tempfile.mkdtemp(prefix="pathd-", dir=where))
    try:
        yield folder
    finally:
        shutil.rmtree(folder, ignore_errors=True)


def sum_of(program: str) -> str:
    """The start of a program's SHA-256."""
    return hashlib.sha256(Path(program).read_bytes()).hexdigest()[:12]


def commit_name(program: str) -> str:
    """What the figures are of: the commit of this tree, and the start of the program's SHA-256."""
    words = ["git", "-C", str(TOP), "rev-parse", "--short=12", "HEAD"]
    commit = subprocess.run(words, capture_output=True, text=True, check=False).stdout.strip() or "no commit"
    return f"commit {commit}, program {sum_of(program)}"


def format_store(program: str, store: Path, layout: model.Layout, version: int = 2) -> None:
    """Makes a store, of version 1 where that is asked for."""
    words = [program, "format", str(store), "--checkpoint", str(layout.checkpoint), "--journal", str(layout.journal)]
    subprocess.run(words, check=True, stdout=subprocess.DEVNULL)
    if version == 1:
        with open(store, "r+b") as file:
            file.seek(model.SECTOR + 7)
            file.write(b"\1")


def connected(port: int, timeout: float = 60.0) -> socket.socket:
    """A connection to a port of the loopback."""
    connection = socket.create_connection(("127.0.0.1", port), timeout)
    connection.setsockopt(socket.IPPROTO_TCP, socket.TCP_NODELAY, 1)
    return connection


def free_port() -> int:
    """A port of the loopback that nobody has."""
    with socket.create_server(("127.0.0.1", 0)) as listener:
        return listener.getsockname()[1]


def numbers(port: int, host: str = "127.0.0.1", timeout: float = 60) -> dict[str, float]:
    """The numbers of the page at a port, by the name and the labels of each."""
    with urllib.request.urlopen(f"http://{host}:{port}/metrics", timeout=timeout) as page:
        lines = page.read().decode("ascii").splitlines()
    return {name: float(value) for name, value in (line.rsplit(" ", 1) for line in lines if line and not line.startswith("#"))}


class Process:
    """A program that serves until it is ended, whose standard error is kept in a file, and its output where `has_output` is true."""

    def __init__(self, command: Sequence[str], notices: Path, env: dict | None = None, has_output: bool = False) -> None:
        self.notices = notices
        with open(notices, "wb") as lines:
            output = lines if has_output else subprocess.DEVNULL
            self.process = subprocess.Popen(command, stdin=subprocess.DEVNULL, stdout=output, stderr=lines, env={**os.environ, **(env or {})})

    def _noticed(self, line: str) -> int:
        """The port of a line that it has written, or is still to write."""
        for _ in range(2000):
            found = re.search(line, self.notices.read_text(), re.M)
            if found:
                return int(found.group(1))
            if self.process.poll() is not None:
                raise RuntimeError(f"the server ended: {self.notices.read_text()}")
            time.sleep(0.005)
        self.kill()
        raise RuntimeError("the server doesn't listen")

    def status(self, name: str) -> int:
        """A number of /proc/PID/status, as VmRSS or VmHWM in KiB, or Threads."""
        text = Path(f"/proc/{self.process.pid}/status").read_text()
        return int(re.search(rf"^{name}:\s+(\d+)", text, re.M).group(1))

    def descriptors(self) -> int:
        """How many descriptors it has open."""
        return len(os.listdir(f"/proc/{self.process.pid}/fd"))

    def kill(self) -> None:
        """Ends the program at once, as a crash does."""
        if self.process.poll() is None:
            self.process.send_signal(signal.SIGKILL)
        self.process.wait()

    def __enter__(self) -> Self:
        return self

    def __exit__(self, *_ended: object) -> None:
        self.kill()


class Server(Process):
    """A server of a store on the loopback, run by the words `under` where there are some. Port 0 is any free one."""

    def __init__(
        self,
        program: str,
        store: Path,
        words: Sequence[str] = (),
        env: dict | None = None,
        limits: str = "",
        notices: Path | None = None,
        under: Sequence[str] = (),
        port: int = 0,
    ) -> None:
        command = [*under, program, "run", str(store), "--listen", f"127.0.0.1:{port}", *RUN_WORDS, *words]
        if limits:
            command = ["bash", "-c", f'{limits} && exec "$@"', "bash", *command]
        super().__init__(command, notices or Path(f"{store}.notices"), env)
        self.port = self._noticed(r" at 127\.0\.0\.1:(\d+):")

    def status_port(self) -> int:
        """The port at which the server's numbers are asked for, where `--status` is among its words."""
        return int(re.search(r"^pathd: status at 127\.0\.0\.1:(\d+)$", self.notices.read_text(), re.M).group(1))

    def lookups_port(self) -> int:
        """The port at which sessions only look up, where `--lookups` is among its words."""
        return self._noticed(r"^pathd: lookups at 127\.0\.0\.1:(\d+)$")

    def connect(self, timeout: float = 60.0, port: int = 0) -> socket.socket:
        """A connection to the server, at its first listener if no port is named."""
        return connected(port or self.port, timeout)


class Replies:
    """The contents of the frames that come over a connection."""

    def __init__(self, connection: socket.socket) -> None:
        self.connection = connection
        self.rest = b""
        self.contents: list[bytes] = []

    def next(self) -> bytes:
        """The next one; ConnectionError where the peer has ended."""
        while not self.contents:
            piece = self.connection.recv(1 << 18)
            if not piece:
                raise ConnectionError("the server ended the session")
            self.contents, self.rest = messages.whole_frames(self.rest + piece)
            self.contents.reverse()
        return self.contents.pop()


def last_line(text: bytes) -> str:
    """The last line of a standard error, which names the kind of an error; the line before says why."""
    return text.decode().strip().rpartition("\n")[2]


def shown(program: str, store: Path) -> tuple[int, bytes, bytes]:
    """Status, output and errors of `show`."""
    done = subprocess.run([program, "show", str(store)], capture_output=True, check=False)
    return done.returncode, done.stdout, done.stderr


class Again:
    """A command over files 0 to 9, whose names its last word ends with, that is run again and again in one process (tools/native/run_again.c)."""

    def __init__(self, library: str, words: list[str], folder: Path) -> None:
        self.words, self.library, self.paths = words, library, (folder / "out", folder / "err")
        self._start()

    def _start(self) -> None:
        self.reports, reporting = os.pipe()
        # Files to which each write appends.
        self.files = [os.open(path, os.O_RDWR | os.O_CREAT | os.O_APPEND, 0o600) for path in self.paths]
        env = {**os.environ, "LD_PRELOAD": self.library, "RUN_AGAIN": str(reporting)}
        given = {"stdin": subprocess.PIPE, "stdout": self.files[0], "stderr": self.files[1], "pass_fds": [reporting], "bufsize": 0}
        self.process = subprocess.Popen(self.words, env=env, **given)
        os.close(reporting)

    def run(self, count: int = 1) -> list[tuple[int, bytes, bytes]]:
        """Status, output and errors of the runs over the first so many files. A run that ends the process is followed by a new one."""
        found: list[tuple[int, bytes, bytes]] = []
        while len(found) < count:
            for file in self.files:
                os.ftruncate(file, 0)
            first, at = len(found), [0, 0]
            self.process.stdin.write(bytes(range(ord("0") + first, ord("0") + count)))
            for _ in range(first, count):
                report = self._next()
                sizes = report[1:] or [os.fstat(file).st_size for file in self.files]
                out, err = (os.pread(file, size - begun, begun) for file, size, begun in zip(self.files, sizes, at))
                found.append((report[0] if report else self.process.wait(), out, err))
                at = sizes
                if not report:
                    self.close()
                    self._start()
                    break
        return found

    def _next(self) -> tuple[int, ...]:
        """What is reported of the next run: its status, and the sizes of both files; nothing where the process has ended."""
        report = b""
        while len(report) < 12:
            piece = os.read(self.reports, 12 - len(report))
            if not piece:
                return ()
            report += piece
        return struct.unpack("=3i", report)

    def close(self) -> None:
        """Ends the process."""
        self.process.stdin.close()
        self.process.wait()
        for file in (self.reports, *self.files):
            os.close(file)


def make_rows(keys: int) -> list[tuple[int, list[messages.Hop]]]:
    """This number of types and paths, of each type, between the ends of QUERIES."""
    rows = []
    for number in range(keys):
        kind = 1 + number % 3
        leaf = LEAVES[number // 3 % len(LEAVES)]
        ends = (CORE_B, CORE_A) if kind == model.CORE else (CORE_A, leaf)
        hops = [messages.Hop(ends[0], 0, 1 + number), messages.Hop(ends[1], 1 + number // 5, 0)]
        if number % 4 == 3:
            middle = messages.Hop(0x0001_FF00_0000_0200 + number, 7, 8)
            hops = [hops[0], middle, hops[1]]
        rows.append((kind, hops))
    return rows


class Commands:
    """Random commands over a fixed number of keys; a share of the segments has sizes up to LARGE bytes."""

    def __init__(self, seed: str, keys: int, share: float = 0) -> None:
        self.random = random.Random(seed)
        self.share = share
        self.rows = make_rows(keys)
        self.ids = {}

    def segment(self, number: int) -> tuple[int, bytes]:
        """A segment of the key of a number, made at a random time."""
        kind, hops = self.rows[number]
        made, exp_time = MADE + self.random.randrange(100_000), self.random.choice((60, 63))
        if self.share and self.random.random() < self.share:
            return kind, messages.segment_of_size(hops, made, self.random.randrange(400, LARGE), exp_time)
        return kind, messages.make_segment(hops, made, exp_time)

    def next(self, removals: float = 0.25, purges: float = 0.04) -> tuple:
        """A registration, removal or purge."""
        chosen = self.random.random()
        if chosen < purges:
            return ("purge", 2 * (MADE + self.random.randrange(-100, 25_000)) + 675 * 62)
        if chosen < purges + removals:
            kind, segment = self.segment(self.random.randrange(len(self.rows)))
            return ("remove", kind, model.row_of(segment).id)
        count = self.random.choice((1, 1, 1, 1, 2, 3, 5))
        segments = [self.segment(self.random.randrange(len(self.rows))) for _ in range(count)]
        return ("register", tuple(sorted(segments, key=lambda row: row[0])))


def fading(chance: random.Random, seconds: float | None = None) -> tuple:
    """A registration of a row that expires so many seconds since 1970, or some seconds from now, or a removal of such a row."""
    number = chance.randrange(3 * FADING)
    kind = 1 + number % 3
    hops = [messages.Hop(9 << 48 | 1, 0, 1 + number), messages.Hop(9 << 48 | 2, 1, 0)]
    if chance.random() < 0.2:
        return ("remove", kind, messages.path_id(hops))
    expires = int(time.time() + chance.randint(*FADES_AFTER) if seconds is None else seconds)
    # 337.5 seconds are the least time of a hop field, so that the row expires half a second later.
    return ("register", ((kind, messages.make_segment(hops, expires - 337, 0)),))


def is_own_purge(record: bytes) -> bool:
    """Whether a command's record is a purge by the clock, as sessions' purges are by moments that are far from it."""
    return record[:1] == b"\2" and len(record) == 9 and int.from_bytes(record[1:], "big") < 2 * (MADE - 1_000)


def records_of(payload: bytes) -> Iterator[tuple[int, bytes]]:
    """The places and the records of the commands of a group's payload; none of other bytes."""
    kind, count, zeros, size, place = struct.unpack_from(">BBHIQ", payload) if len(payload) >= 16 else (0,) * 5
    if kind != 1 or zeros or len(payload) < 16 + size:
        return
    at = 16
    for number in range(count):
        length = int.from_bytes(payload[at : at + 4], "big")
        if at + 4 + length > 16 + size:
            return
        yield place + number, payload[at + 4 : at + 4 + length]
        at += 4 + length


def asking_frame(asked: tuple) -> bytes:
    """The frame of a lookup, which has two sides, or of a page."""
    return messages.lookup_frame(*asked) if len(asked) == 2 else messages.list_frame(*asked)


def answer_to(asked: tuple, db: dict, now: int = 0) -> bytes:
    """The reply to a lookup, which isn't refused, or to a page."""
    if len(asked) == 2:
        query = model.classify(CORES, *asked)
        return b"\x82" + model.found_body(query[0], model.matching(db, query, now))
    return b"\x85" + model.listed_body(asked[0], *model.page(db, asked[:3], asked[3], now))


def asked_of(content: bytes) -> tuple:
    """The lookup or the page that a request asks for."""
    return model.lookup_of(content) if content[0] == model.LOOKUP else model.list_of(content)


def greatest_window(number: int, ahead: int) -> int:
    """How many requests the session of a number sends at one time at the most, where none sends more than `ahead`."""
    return min(ahead, AHEAD[number % len(AHEAD)])


def next_window(chance: random.Random, most: int) -> int:
    """How many requests a session sends at one time: often one, and as often as many as it may."""
    return chance.choice((1, most, chance.randint(1, most)))


def digest(body: bytes) -> bytes:
    """A short name of a reply's body."""
    return hashlib.blake2b(body, digest_size=12).digest()


class Answers:
    """What each lookup and each page finds after each front of a list of commands, and what each command counts."""

    def __init__(self, queries: Sequence[tuple], start: dict | None = None) -> None:
        self.db = dict(start or {})
        self.count = 0
        self.outcomes: list[tuple[int, int, int, int]] = []
        self.asked = {query: model.classify(CORES, *query) if len(query) == 2 else query[:3] for query in queries}
        self.versions = {query: [0] for query in queries}
        self.digests = {query: [self._digest(query)] for query in queries}

    def _digest(self, query: tuple) -> bytes:
        return digest(answer_to(query, self.db))

    def add(self, command: tuple) -> None:
        """Folds the next command on."""
        outcome = model.apply(self.db, command)
        self.count += 1
        self.outcomes.append(outcome)
        if outcome == (0, 0, outcome[2], 0):
            return
        for query, asked in self.asked.items():
            if self._touches(command, asked):
                found = self._digest(query)
                if found != self.digests[query][-1]:
                    self.versions[query].append(self.count)
                    self.digests[query].append(found)

    @staticmethod
    def _touches(command: tuple, asked: tuple[int, int, int]) -> bool:
        kind, start, end = asked
        if command[0] == "purge":
            return True
        if command[0] == "remove":
            return command[1] == kind
        for its, segment in command[1]:
            row = model.row_of(segment)
            if its == kind and model.covers(start, row.first) and model.covers(end, row.last):
                return True
        return False

    def first_version(self, query: tuple, found: bytes, least: int) -> int | None:
        """The length of the shortest front, of `least` commands or more, after which a query finds this."""
        versions, digests = self.versions[query], self.digests[query]
        at = bisect.bisect_right(versions, least) - 1
        for index in range(at, len(versions)):
            if digests[index] == found:
                return max(versions[index], least)
        return None
