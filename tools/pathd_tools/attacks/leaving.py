"""Clients of a server that give up, and clients that only look up; and a clock for the limits of
their times. tools/pathd_tools/attacks/hanging.py uses them."""
from __future__ import annotations

import multiprocessing
import os
import pickle
import random
import socket
import struct
import time
from collections import Counter
from collections.abc import Callable
from contextlib import suppress
from dataclasses import replace
from pathlib import Path

from pathd_model import model
from pathd_tools import runs
from pathd_tools.attacks.histories import LOOKS, LOOKUPS, NEVER, Asked

# How many requests a client that gives up sends at one time, and how many seconds it waits for replies, at the most.
AHEAD, PATIENCE = 128, 0.3
# How it gives up: it closes its connection, ends its own side, ends within a frame, or resets the connection.
WAYS = ["close", "end", "cut", *4 * ["reset"]]
# Seconds: for a lookup; until the server has ended a session whose client has gone; for anything else.
AT_ONCE, SOON, LATEST = 1.0, 5.0, 10.0
# The codes of refusals: of a session; of a command that was not taken; of one that may have been, as its client had gone.
NO_SEAT, BUSY, GONE = b"\x61", b"\x51", b"\x63"
NAP = 0.005
RESET = struct.pack("ii", 1, 0)


class Clock:
    """Counts time in naps of a process of its own."""

    def __init__(self) -> None:
        self._naps = multiprocessing.RawValue("Q")
        multiprocessing.Process(target=self._nap, args=(os.getpid(),), daemon=True).start()

    def _nap(self, parent: int) -> None:
        while os.getppid() == parent:
            time.sleep(NAP)
            self._naps.value += 1

    def now(self) -> float:
        """The seconds since the clock was made."""
        return NAP * self._naps.value

    def wait(self, condition: Callable[[], bool], seconds: float) -> float | None:
        """Waits until a condition holds: how long that took, or none where it took longer."""
        begun = self.now()
        while not condition():
            if self.now() > begun + seconds:
                return None
            time.sleep(4 * NAP)
        return self.now() - begun


class Client:
    """A session, with what it has asked and was answered."""

    def __init__(self, port: int, frames: list[bytes], clock: Clock) -> None:
        self.connection = runs.connected(port)
        self._replies = runs.Replies(self.connection)
        self._frames, self._clock, self._sent_at = frames, clock, 0.0
        self.answered: list[Asked] = []
        self.under_way: list[Asked] = []
        # The longest time of a lookup or a page by the clock.
        self.longest = 0.0

    def send(self, requests: list[int], is_cut: bool = False) -> None:
        """Sends requests, the last one without its last byte where that is said."""
        data = b"".join(runs.asking_frame(runs.ASKED[it - LOOKUPS]) if it >= LOOKUPS else self._frames[it] for it in requests)
        sent, self._sent_at = time.monotonic_ns(), self._clock.now()
        self.under_way = [Asked(sent, NEVER, it, 0, b"") for it in requests[: len(requests) - is_cut]]
        self.connection.settimeout(LATEST)
        self.connection.sendall(data[: len(data) - is_cut])

    def take(self, seconds: float) -> bool:
        """Takes replies until all have come, or the time is over; whether all have come."""
        until = self._clock.now() + seconds
        self.connection.settimeout(10 * NAP)
        while self.under_way:
            try:
                content = self._replies.next()
            except TimeoutError:
                if self._clock.now() > until:
                    return False
                continue
            reply = runs.digest(content) if content[0] in LOOKS else content[1:]
            self.answered.append(replace(self.under_way.pop(0), received=time.monotonic_ns(), kind=content[0], reply=reply))
            if content[0] in LOOKS:
                self.longest = max(self.longest, self._clock.now() - self._sent_at)
        return True

    def has_ended(self) -> bool:
        """Whether the server has ended the session, without a further reply."""
        try:
            return not self.connection.recv(1)
        except TimeoutError:
            return False
        except ConnectionError:
            return True

    def is_turned_away(self) -> bool:
        """Whether the connection was refused a session."""
        return bool(self.answered) and self.answered[0].kind == model.REFUSED and self.answered[0].reply == NO_SEAT

    def asked(self) -> list[Asked]:
        """What was asked; nothing of a connection that was refused a session, as the server reads nothing of it."""
        return [] if self.is_turned_away() else self.answered + self.under_way


def settled(session: list[Asked], gives_up: bool) -> list[Asked]:
    """A session without the commands that were refused as the server was busy. It isn't known whether those were carried out that
    were refused as their client, which gives up, had gone."""
    found = []
    for asked in session:
        code = asked.reply[:1] if asked.kind == model.REFUSED else b""
        if code == GONE and gives_up:
            found.append(replace(asked, kind=0, received=NEVER))
        elif code != BUSY:
            found.append(asked)
    return found


def look_up(port: int, frames: list[bytes], clock: Clock, seed: str, path: Path) -> None:
    """Looks up and lists until the server is gone, and writes what was answered to a file, with the longest time by the clock."""
    chance = random.Random(seed)
    client, is_served = Client(port, frames, clock), True
    with suppress(OSError):
        while is_served := client.take(LATEST):
            time.sleep(NAP)
            client.send([LOOKUPS + chance.randrange(len(runs.ASKED)) for _ in range(chance.choice((1, 1, 4)))])
    path.write_bytes(pickle.dumps((client.asked(), client.longest if is_served else LATEST)))


def give_up(port: int, frames: list[bytes], clock: Clock, seed: str, requests: list[int], until: float, path: Path) -> None:
    """Holds sessions one after the other until a moment, gives up each, and writes what they asked to a file, with counts and faults."""
    chance = random.Random(seed)
    sessions: list[list[Asked]] = []
    counts: Counter = Counter()
    faults: list[str] = []
    with suppress(OSError):
        while time.monotonic() < until and len(requests) >= AHEAD:
            client, way = Client(port, frames, clock), chance.choice(WAYS)
            with suppress(OSError), client.connection:
                hold(client, way, chance, requests)
                faults += left_by(client, way, clock)
            sessions.append(settled(client.asked(), True))
            counts["turned away" if client.is_turned_away() else "gave up"] += 1
            time.sleep(chance.uniform(0, PATIENCE) if client.is_turned_away() else 0)
    path.write_bytes(pickle.dumps((sessions, counts, faults)))


def hold(client: Client, way: str, chance: random.Random, requests: list[int]) -> None:
    """Looks up, and then sends some of the requests that are left, and lookups among them, while a client has patience and replies come."""
    client.send([LOOKUPS])
    if not client.take(LATEST) or client.is_turned_away():
        return
    until = time.monotonic() + chance.uniform(0, PATIENCE)
    while len(requests) >= AHEAD:
        window = [requests.pop() for _ in range(AHEAD if chance.random() < 0.7 else chance.randint(1, AHEAD))]
        window = [LOOKUPS + chance.randrange(len(runs.ASKED)) if chance.random() < 0.1 else it for it in window]
        client.send(window, way == "cut")
        if not client.take(until - time.monotonic()) or way == "cut" or time.monotonic() > until:
            return


def left_by(client: Client, way: str, clock: Clock) -> list[str]:
    """Gives up a session, whose connection is closed after it; what doesn't hold of a session that ends on one side."""
    if way == "reset":
        client.connection.setsockopt(socket.SOL_SOCKET, socket.SO_LINGER, RESET)
    elif way == "end":
        client.connection.shutdown(socket.SHUT_WR)
        if not client.take(SOON) or clock.wait(client.has_ended, SOON) is None:
            return [f"a client that has ended its side has no {'replies' if client.under_way else 'end'} after {SOON:g} seconds"]
    return []
