"""The servers, writers and readers of `tools/pathd-tools servers`. It imports the client of
clients/python, which needs python3-protobuf."""
from __future__ import annotations

import random
import threading
import time
from argparse import Namespace
from collections.abc import Iterator
from dataclasses import dataclass, field
from pathlib import Path

from pathd_client import (
    Acknowledge, Found, Lookup, NotAcknowledged, QueueFull, Refused, Register, Remove, Request, SegmentType, Servers, SessionError,
)
from pathd_client.segments_pb2 import PathSegment

from pathd_model import model
from pathd_tools import TOP, messages, runs

SERVERS = 3
KEYS = 50
READERS = 2
LAYOUT = model.Layout(2048, 1024)
# Of a call, and of the queues at the end, in seconds.
WITHIN = 10.0
PATIENCE = 120.0


@dataclass
class Figures:
    """What a thread has done, and what went wrong."""

    commands: list[tuple] = field(default_factory=list)
    acknowledged: int = 0
    late: int = 0
    full: int = 0
    lookups: int = 0
    longest: float = 0.0
    faults: list[str] = field(default_factory=list)


class Writer:
    """Registers and removes segments of keys that no other thread has, in an order of its own."""

    def __init__(self, number: int, seed: int) -> None:
        self.figures = Figures()
        self._random = random.Random(f"{seed}/{number}")
        self._rows = runs.make_rows(KEYS * (number + 1))[KEYS * number :]
        self._made = runs.MADE

    def next(self) -> tuple:
        """A command, as pathd_model has them. No two segments of it or of others have one timestamp."""
        if self._random.random() < 0.1:
            kind, segment = self._segment()
            return ("remove", kind, model.row_of(segment).id)
        return ("register", tuple(self._segment() for _ in range(self._random.choice((1, 1, 1, 2, 5)))))

    def run(self, servers: Servers, until: float, rate: float) -> None:
        """Sends commands until a moment."""
        figures = self.figures
        due = time.monotonic()
        while time.monotonic() < until:
            command = self.next()
            try:
                servers.command(request_of(command))
                figures.acknowledged += 1
            except NotAcknowledged as few:
                figures.late += 1
                if any(isinstance(reply, Refused) for reply in few.replies):
                    figures.faults.append(str(few))
            except QueueFull:
                figures.full += 1
                time.sleep(0.05)
                continue
            figures.commands.append(command)
            due = max(due + 1 / rate, time.monotonic() - 1) if rate else 0
            time.sleep(max(0.0, due - time.monotonic()))

    def _segment(self) -> tuple[int, bytes]:
        kind, hops = self._random.choice(self._rows)
        self._made += 1
        return kind, messages.make_segment(hops, self._made)


def request_of(command: tuple) -> Request:
    """The request of a command."""
    if command[0] == "remove":
        return Remove(SegmentType(command[1]), command[2])
    return Register([(SegmentType(kind), PathSegment.FromString(segment)) for kind, segment in command[1]])


def read(servers: Servers, figures: Figures, until: float) -> None:
    """Looks up until a moment."""
    chance = random.Random(0)
    while time.monotonic() < until:
        begun = time.monotonic()
        try:
            reply = servers.lookup(Lookup(*chance.choice(runs.QUERIES)))
            if not isinstance(reply, Found):
                figures.faults.append(f"a lookup is {reply}")
        except SessionError as fault:
            figures.faults.append(f"a lookup has no reply: {fault}")
        figures.lookups += 1
        figures.longest = max(figures.longest, time.monotonic() - begun)
        time.sleep(0.005)


class Three:
    """Three servers of stores of their own, which keep their ports."""

    def __init__(self, program: str, folder: Path, slow: dict | None) -> None:
        self._program = program
        self.stores = [folder / f"store{number}" for number in range(SERVERS)]
        self._envs = [None] * (SERVERS - 1) + [slow]
        for store in self.stores:
            runs.format_store(program, store, LAYOUT)
        self._servers = [runs.Server(program, store, env=env) for store, env in zip(self.stores, self._envs)]
        self.addresses = [("127.0.0.1", server.port) for server in self._servers]
        self.kills = 0

    def kill(self, number: int) -> None:
        """Kills a server."""
        self._servers[number].kill()
        self.kills += 1

    def start(self, number: int) -> None:
        """Starts a server that was killed."""
        port = self.addresses[number][1]
        self._servers[number] = runs.Server(self._program, self.stores[number], env=self._envs[number], port=port)

    def rows(self) -> list[bytes]:
        """What `show` prints of the rows of each store."""
        shown = []
        for store in self.stores:
            status, printed, said = runs.shown(self._program, store)
            shown.append(printed[: printed.rindex(b"place ")] if status == 0 else said)
        return shown

    def close(self) -> None:
        """Kills all of them."""
        for server in self._servers:
            server.kill()


def most_waiting(servers: Servers) -> int:
    """How many commands wait for the server for which most do."""
    return max(state.waiting for state in servers.states.values())


def turns(three: Three, servers: Servers, until: float, seed: int) -> Iterator[int]:
    """Kills each server in turn, and starts it again. Answers how many commands waited then for the one that had most."""
    chance = random.Random(seed)
    number = 0
    while time.monotonic() < until:
        three.kill(number)
        time.sleep(chance.uniform(1.0, 2.0))
        yield most_waiting(servers)
        three.start(number)
        servers.drain(WITHIN)
        number = (number + 1) % SERVERS


def slow_syncs(folder: Path, milliseconds: float) -> dict | None:
    """The environment in which each sync of a server takes longer."""
    if not milliseconds:
        return None
    library = runs.compiled(str(TOP / "bench" / "slow_sync.c"), folder)
    return {"LD_PRELOAD": library, "SYNC_MICROSECONDS": str(int(1000 * milliseconds))}


def attack(three: Three, options: Namespace) -> list[str]:
    """Does what the words say; answers what is wrong."""
    writers = [Writer(number, options.seed) for number in range(options.writers)]
    readers = [Figures() for _ in range(READERS)]
    with Servers(three.addresses, acknowledge=Acknowledge(options.acknowledge), within=WITHIN) as servers:
        begun = time.monotonic()
        until = begun + 60 * options.minutes
        threads = [threading.Thread(target=it.run, args=(servers, until, options.rate)) for it in writers]
        threads += [threading.Thread(target=read, args=(servers, it, until)) for it in readers]
        for thread in threads:
            thread.start()
        waited = [] if options.calm else list(turns(three, servers, until, options.seed))
        for thread in threads:
            thread.join()
        took = time.monotonic() - begun
        waited.append(most_waiting(servers))
        faults = [] if servers.drain(PATIENCE) else [f"queues are not empty: {servers.states}"]
        faults += [f"{address}: {state}" for address, state in servers.states.items() if state.refused or state.dropped]
    three.close()
    figures = [writer.figures for writer in writers] + readers
    print_figures(figures, options.acknowledge, took)
    print(f"  {three.kills} kills; at most {max(waited)} commands waited for a server")
    return faults + [fault for it in figures for fault in it.faults] + compared(three, writers)


def print_figures(figures: list[Figures], acknowledge: str, took: float) -> None:
    """Prints what the threads have done."""
    count = sum(it.acknowledged for it in figures)
    late, full = sum(it.late for it in figures), sum(it.full for it in figures)
    print(f"  {count} commands acknowledged by {acknowledge}, {count / took:.0f} a second; {late} not in time, {full} found a full queue")
    lookups, longest = sum(it.lookups for it in figures), max(it.longest for it in figures)
    print(f"  {lookups} lookups, the longest in {longest:.2f} s")


def compared(three: Three, writers: list[Writer]) -> list[str]:
    """Compares the rows of the stores with each other, and with the fold of all commands."""
    db: dict = {}
    for writer in writers:
        for command in writer.figures.commands:
            model.apply(db, command)
    text = model.show_text(db, 0)
    wanted = text[: text.rindex(b"place ")]
    shown = three.rows()
    print(f"  {wanted.count(10)} rows wanted; the stores have {', '.join(str(it.count(10)) for it in shown)}")
    faults = [] if len(set(shown)) == 1 else ["the stores have different rows"]
    return faults + [f"store {number} hasn't the rows of the fold" for number, it in enumerate(shown) if it != wanted]
