"""Tries a server whose device hangs, while its clients give up.

    tools/pathd-tools hanging [--program PROGRAM] [--seed N] [--rounds N] [--seconds N] [--sessions N]

In each round N sessions, at most 32, register, remove, purge, look up and list, as those of histories
do. Then a preloaded library (tools/native/hanging_calls.c) has calls on the store's file wait for
--seconds seconds: syncs before they are made, writes, all calls, syncs that are made, or reads, by turns. In half of
the rounds the device goes on for some milliseconds now and then. The N sessions wait. Other clients
come meanwhile, hundreds of times. Each sends 1 to 128 requests and gives up after a fraction of a
second: it closes its connection, resets it, ends within a frame, or ends its own side and waits.
While the device hangs

- a session that only looks up has each reply within a second, at both listeners, and so has whoever
  asks for the page of numbers;
- a new connection is served, or is refused by 0x61 where all seats are taken; one to the listener
  for lookups is served;
- a client that has ended its own side has all replies, and the end of the session, within 5 seconds;
- 5 seconds after all these clients have gone, their seats are free;
- memory (VmHWM) is at most what docs/CAPACITY.md names, and there are at most as many threads and
  descriptors as 64 sessions may have.

In every second round the server is killed (-9) while a call hangs. In the others the device goes on.
Within 10 seconds each session that has waited has its replies, and a new command is acknowledged.
The server is killed a second later. After each kill it is shown, as histories shows it, that one
order of the commands explains all replies, what `show` prints, and what a library has seen written
(tools/native/recorded_calls.c). So each command that was acknowledged is there, and none that was
not sent or was refused by 0x51. One that has no reply, or 0x63, may be there.

Then the device hangs while clients send registrations of the greatest size and reset. Seats have to
be as said, and so has memory, with each of these registrations as one that waits.

At last it hangs while 24 clients come again and again. Each sends far more than a session takes
ahead (1, 128, 600 or 5,000 commands, or 8 of the greatest size), and closes. Lookups at the listener
for them have to be answered, and seats have to be free, as said.

A process that naps counts these seconds, so that the time is left out in which a busy machine gives
it no processor. The figures that are printed are by the machine's clock. It needs Python 3, gcc and
the loopback. It ends with the status 1 where something doesn't hold.
"""
from __future__ import annotations

import argparse
import mmap
import multiprocessing
import pickle
import random
import re
import shutil
import socket
import struct
import threading
import time
from collections import Counter
from collections.abc import Callable
from contextlib import suppress
from pathlib import Path

from pathd_model import model
from pathd_tools import messages, recording, runs
from pathd_tools.attacks import histories, peers, soak
from pathd_tools.attacks.histories import ACKS, NEVER, Asked
from pathd_tools.attacks.leaving import AHEAD, AT_ONCE, LATEST, RESET, SOON, Client, Clock, give_up, look_up, settled

WORDS = [*histories.WORDS, "--status", "127.0.0.1:0", "--spare", "8", "--leave", "1"]
# A backlog of some thousand commands fills several of its journals.
LAYOUT = model.Layout(256, 1024)
# The numbers by which tools/native/hanging_calls.c knows the calls that wait.
KINDS = {"syncs": 4, "writes": 2, "all calls": 15, "syncs that are made": 8, "reads": 1}
ALL = KINDS["all calls"]
# How many clients give up at one time, and how many commands there are for them for each second.
LEAVING, EACH_SECOND = 32, 3_000
# How many clients only look up: one at each listener.
LOOKING = 2
# How many replies each session has before the device hangs.
BEFORE = 40
# After how many seconds a connection is reset over which a registration of the greatest size was sent.
UNTIL_RESET = 0.1
# How many commands wait in a server's queue at the most, and the KiB of the greatest.
MOST_WAITING, OF_GREATEST = 8_448, 128
# How many clients come again, with how many small commands or how many of the greatest size at one time.
COMING, FAR_AHEAD, OF_THE_GREATEST = 24, (1, 128, 600, 5_000), 8
# Sessions, as many connections that are drained after theirs, and the server's own threads. Beside them visits of the page.
MOST_THREADS, MOST_DESCRIPTORS = 2 * peers.MOST_SESSIONS + 16, 3 * peers.MOST_SESSIONS + 32


class Device:
    """The numbers that are shared with tools/native/hanging_calls.c: the kinds of calls that wait, and how many wait."""

    def __init__(self, path: Path) -> None:
        path.write_bytes(bytes(8))
        with open(path, "r+b") as file:
            self._shared = mmap.mmap(file.fileno(), 8)

    def hang(self, kinds: int) -> None:
        """Has calls of these kinds wait, or none by 0."""
        struct.pack_into("=I", self._shared, 0, kinds)

    def is_waited_for(self) -> bool:
        """Whether a call waits."""
        return struct.unpack_from("=II", self._shared)[1] > 0


def own_commands(seed: int, count: int) -> list[tuple]:
    """At most so many commands about rows that no session of histories has, each of them once, so that each one's sender is known."""
    commands = runs.Commands(f"{seed}/hanging", 2 * histories.KEYS)
    commands.rows = commands.rows[histories.KEYS :]
    return list(dict.fromkeys(commands.next(0.2, 0.005) for _ in range(count)))


def bound(layout: model.Layout, rows: int) -> int:
    """The KiB that docs/CAPACITY.md names, where the records of the rows have so many KiB."""
    return peers.OF_PROGRAM + layout.journal // 2 + 4 * rows + peers.MOST_SESSIONS * peers.OF_SESSION


def page_of(server: runs.Server) -> str:
    """The page of a server's numbers, or why there is none. One who asks too late, as on a busy machine, gets nothing and asks again."""
    try:
        return next(text for text in (peers.page(server) for _ in range(10)) if text)
    except (OSError, StopIteration) as fault:
        return repr(fault)


def number_of(page: str, name: str) -> int:
    """A number of a page; -1 where the page hasn't it."""
    found = re.search(rf"^{re.escape(name)} (\d+)$", page, re.M)
    return int(found.group(1)) if found else -1


def is_segment(_: bytes) -> bool:
    """Whatever a server has written as a segment is one."""
    return True


class Trial:
    """The rounds over one store."""

    def __init__(self, program: str, folder: Path, options: argparse.Namespace) -> None:
        self.program, self.folder, self.options, self.clock = program, folder, options, Clock()
        self.pool = histories.make_pool(options.seed, options.begun)
        self.pool += (added := own_commands(options.seed, int(EACH_SECOND * options.seconds)))
        self.own = range(len(self.pool) - len(added), len(self.pool))
        self.frames = [messages.command_frame(command) for command in self.pool]
        self.checker = histories.Checker(self.pool, 0, may_refuse=True)
        self.hanging, self.log, self.store = folder / "hanging", folder / "written", folder / "store"
        self.device = Device(self.hanging)
        libraries = [runs.compiled(name, folder) for name in ("hanging_calls.c", "recorded_calls.c")]
        self.env = {"LD_PRELOAD": ":".join(libraries), "HANGING": str(self.hanging), "RECORD": str(self.log), "WRITES_ALONE": "1"}
        runs.format_store(program, self.store, LAYOUT)
        self.faults: list[str] = []
        self.figures: Counter = Counter()
        self._clients: list[tuple[multiprocessing.Process, Path]] = []

    def _start(self, target: Callable, *given: object) -> multiprocessing.Process:
        """Starts a client, which writes a file at its end."""
        path = self.folder / f"client{len(self._clients)}"
        process = multiprocessing.Process(target=target, args=(*given, path))
        process.start()
        self._clients.append((process, path))
        return process

    def _start_staying(self, server: runs.Server, counts: object, seed: str) -> None:
        """Starts the sessions that wait, whose replies are counted, and those that only look up."""
        asking = [runs.asking_frame(it) for it in runs.ASKED]
        for number in range(self.options.sessions):
            self._start(histories.hold_session, server.connect(600), f"{seed}/{number}", self.frames, asking, counts, number, self.options)
        for port in (server.port, server.lookups_port()):
            self._start(look_up, port, self.frames, self.clock, f"{seed}/{port}")

    def round(self, number: int) -> None:
        """A round, which prints a line."""
        seed, kind, is_killed = f"{self.options.seed}/{number}", list(KINDS)[number % len(KINDS)], number % 2 == 1
        chance, begun, new, went_on = random.Random(seed), time.time(), [], NEVER
        self.figures, self._clients, self.device = Counter(), [], Device(self.hanging)
        self.log.write_bytes(b"")
        requests = chance.sample(self.own, len(self.own))
        counts = multiprocessing.Array("Q", self.options.sessions, lock=False)
        with runs.Server(self.program, self.store, WORDS, {**self.env, "STORE": str(self.store)}) as server:
            self._start_staying(server, counts, seed)
            self.clock.wait(lambda: min(counts) >= BEFORE, LATEST)
            self.device.hang(KINDS[kind])
            if self.clock.wait(self.device.is_waited_for, SOON) is None:
                self.device.hang(ALL)
            given, until = (server.port, self.frames, self.clock), time.monotonic() + self.options.seconds
            leaving = [self._start(give_up, *given, f"{seed}/leaving{it}", requests[it :: LEAVING + 1], until) for it in range(LEAVING)]
            last = time.monotonic() + self.options.seconds * chance.uniform(0.4, 1)
            while time.monotonic() < last if is_killed else any(it.is_alive() for it in leaving):
                time.sleep(0.05)
                self._watch(server)
                if number % 4 > 1 and chance.random() < 0.2:
                    self.device.hang(0)
                    time.sleep(chance.uniform(0, 0.01))
                    self.device.hang(KINDS[kind])
            if is_killed:
                self.device.hang(ALL)
                self.clock.wait(self.device.is_waited_for, SOON)
            else:
                self._await_seats(server, self.options.sessions + LOOKING, "while the device hangs")
                went_on = time.monotonic_ns()
                new = self._go_on(server, counts, requests[LEAVING])
                self._await_seats(server, self.options.sessions + LOOKING, "once the device has gone on")
            server.kill()
        self._judge(f"round {number + 1}: {kind} wait, killed {'meanwhile' if is_killed else 'afterwards'}", begun, new, went_on)

    def _watch(self, server: runs.Server) -> None:
        """Looks at the page, at what a server takes, and at what new connections get."""
        begun = self.clock.now(), time.monotonic()
        text = page_of(server)
        self._note_time("ms for the page", begun, "the page of numbers")
        if "\npathd_stopped 0\n" not in text:
            self.faults.append(f"the page is {text[:200]!r}")
        for port, replies in ((server.port, (peers.FOUND_NOTHING, peers.TURNED_AWAY, b"")), (server.lookups_port(), (peers.FOUND_NOTHING,))):
            begun, reply = (self.clock.now(), time.monotonic()), b""
            with suppress(OSError), runs.connected(port) as connection:
                connection.sendall(peers.NOTHING)
                reply = peers.read_all(connection, len(peers.FOUND_NOTHING))
            self._note_time("ms for a new connection", begun, "a new connection")
            if reply not in replies:
                self.faults.append(f"a new connection gets {reply.hex()}")
        sample = soak.sample_of(server)
        taken = {"KiB": server.status("VmHWM"), "threads": sample.threads, "descriptors": sample.descriptors}
        for name, value in [*taken.items(), ("refused by 0x51", number_of(text, 'pathd_refusals_total{code="51"}'))]:
            self._note(name, value)

    def _note(self, name: str, value: int) -> None:
        """Notes the greatest of some values."""
        self.figures[name] = max(self.figures[name], value)

    def _note_time(self, name: str, begun: tuple[float, float], what: str) -> None:
        """Notes how long something took since a moment of both clocks."""
        self._note(name, int(1000 * (time.monotonic() - begun[1])))
        if self.clock.now() - begun[0] > AT_ONCE:
            self.faults.append(f"{what} took {self.clock.now() - begun[0]:.1f} seconds")

    def _await_seats(self, server: runs.Server, held: int, when: str) -> None:
        """Waits until no more seats are taken than those of clients that have not gone."""

        def taken() -> int:
            return number_of(page_of(server), "pathd_sessions")

        took = self.clock.wait(lambda: 0 <= taken() <= held, SOON)
        self._note("ms until seats are free", int(1000 * (SOON if took is None else took)))
        if took is None:
            self.faults.append(f"{when} {taken() - held} seats are taken {SOON:g} seconds after their clients have gone")

    def _go_on(self, server: runs.Server, counts: list[int], request: int) -> list[Asked]:
        """Has the device go on, and waits for the replies to those that have waited, and to a new session, which is given back."""
        wanted = [replies + runs.greatest_window(number, AHEAD) for number, replies in enumerate(counts)]
        self.device.hang(0)
        if self.clock.wait(lambda: all(now >= then for now, then in zip(counts, wanted)), LATEST) is None:
            self.faults.append(f"a session that has waited lacks replies {LATEST:g} seconds after the device has gone on")
        client, until, is_committed = Client(server.port, self.frames, self.clock), self.clock.now() + LATEST, False
        with suppress(OSError), client.connection:
            while not is_committed and self.clock.now() < until:
                client.send([request])
                is_committed = client.take(LATEST) and client.answered[-1].kind in ACKS
                time.sleep(AT_ONCE if is_committed else 0.1)
        if not is_committed:
            self.faults.append(f"no new command is acknowledged {LATEST:g} seconds after the device has gone on")
        return settled(client.asked(), False)

    def _ended_sessions(self, went_on: int) -> list[list[Asked]]:
        """What the sessions of a round have asked, once their server was killed."""
        sessions: list[list[Asked]] = []
        for number, (process, path) in enumerate(self._clients):
            process.join()
            if number < self.options.sessions:
                sessions.append(settled(histories.read_session(path), False))
                self._note_waiting(sessions[-1], went_on)
            elif number < self.options.sessions + LOOKING:
                asked, longest = pickle.loads(path.read_bytes())
                sessions.append(asked)
                self._note("ms for a lookup", max(((it.received - it.sent) // 1_000_000 for it in asked if it.kind), default=0))
                if longest > AT_ONCE:
                    self.faults.append(f"a lookup took {longest:.1f} seconds")
            else:
                given_up, found, faults = pickle.loads(path.read_bytes())
                sessions += given_up
                self.figures.update(found)
                self.faults += faults
        return sessions

    def _judge(self, name: str, begun: float, new: list[Asked], went_on: int) -> None:
        """Judges all that was answered, and prints a line."""
        ended, before, start = time.time(), Counter(self.checker.counts), self.checker.place
        sessions = [new, *self._ended_sessions(went_on)]
        shutil.copy(self.store, self.folder / "copy")
        shown, events = runs.shown(self.program, self.folder / "copy"), recording.events_of(self.log)
        own = {place: command for place, (_, command) in recording.own_purges(events, LAYOUT).items()}
        written = {place: model.command_in(record, 2, is_segment) for place, (_, record) in recording.written_records(events, LAYOUT).items()}
        try:
            self.checker.check(histories.Round(sessions, own, self.store.read_bytes(), shown, begun, ended, written))
        except model.NoStore as fault:
            self.checker.fault(f"the store doesn't open: {fault}")
        limits = (("KiB", bound(LAYOUT, LAYOUT.checkpoint // 2)), ("threads", MOST_THREADS), ("descriptors", MOST_DESCRIPTORS))
        self.faults += [f"{self.figures[it]} {it}, and at most {most} are expected" for it, most in limits if self.figures[it] > most]
        figures = {"replies": (self.checker.counts - before)["replies"], "commands": self.checker.place - start, **self.figures}
        print(f"  {name}: " + ", ".join(f"{value} {it}" for it, value in figures.items()), flush=True)

    def _note_waiting(self, session: list[Asked], went_on: int) -> None:
        """Notes when a session had the replies for which it has waited, where the device has gone on."""
        waited = [it.received for it in session if it.sent < went_on <= it.received] if went_on != NEVER else []
        if NEVER in waited:
            self.faults.append("a session that has waited lacks a reply")
        elif waited:
            self._note("ms until those that waited are answered", (max(waited) - went_on) // 1_000_000)

    def greatest(self) -> None:
        """Clients that send a registration of the greatest size and reset at once, which prints a line."""
        layout, rows = peers.LAYOUT, 64 * 8_185 // 1024
        store, resets = self.folder / "greatest", Counter()
        runs.format_store(self.program, store, layout)
        self.figures = Counter()
        self.device = Device(self.hanging)
        with runs.Server(self.program, store, WORDS, {**self.env, "STORE": str(store)}) as server:
            self.device.hang(KINDS["syncs"])
            until = time.monotonic() + self.options.seconds

            def send(frame: bytes) -> None:
                while time.monotonic() < until:
                    with suppress(OSError), server.connect() as connection:
                        connection.setsockopt(socket.SOL_SOCKET, socket.SO_LINGER, RESET)
                        connection.sendall(frame)
                        self.clock.wait(lambda: False, UNTIL_RESET)
                        resets["resets"] += 1

            frames = [peers.registration(runs.LEAVES[0], it * 16, 16, 8_180) for it in range(4)]
            threads = [threading.Thread(target=send, args=(frames[it % 4],)) for it in range(2 * LEAVING)]
            for thread in threads:
                thread.start()
            for thread in threads:
                thread.join()
            self._watch(server)
            self._await_seats(server, 0, "while the device hangs after the greatest registrations")
        most = bound(layout, rows) + OF_GREATEST * min(resets["resets"], MOST_WAITING)
        if self.figures["KiB"] > most:
            self.faults.append(f"{self.figures['KiB']} KiB after registrations of the greatest size, and at most {most} are expected")
        print("  the greatest registrations: " + ", ".join(f"{value} {it}" for it, value in (resets | self.figures).items()), flush=True)

    def far_ahead(self, name: str, data: bytes) -> None:
        """Clients that send all of these bytes, close, and come again, which prints a line."""
        store, sent = self.folder / f"far-{len(data)}", Counter()
        runs.format_store(self.program, store, peers.LAYOUT)
        self.figures, self.device = Counter(), Device(self.hanging)
        with runs.Server(self.program, store, WORDS, {**self.env, "STORE": str(store)}) as server:
            self.device.hang(KINDS["syncs"])
            until = time.monotonic() + self.options.seconds

            def come() -> None:
                while time.monotonic() < until:
                    with suppress(OSError), server.connect(AT_ONCE) as connection:
                        connection.sendall(data)
                        sent["times"] += 1
                    time.sleep(UNTIL_RESET)

            threads = [threading.Thread(target=come) for _ in range(COMING)]
            for thread in threads:
                thread.start()
            while any(it.is_alive() for it in threads):
                self._watch(server)
                time.sleep(UNTIL_RESET)
            self._await_seats(server, 0, f"while the device hangs after {name}")
        print(f"  {name}: " + ", ".join(f"{value} {it}" for it, value in (sent | self.figures).items()), flush=True)


def main(words: list[str]) -> int:
    """Makes the rounds, and prints what was found."""
    options, program = runs.begin(__doc__, words, seed=1, rounds=6, seconds=8.0, sessions=12)
    options.begun, options.ahead, options.for_lookups = int(time.time()), AHEAD, 0
    with runs.scratch() as folder:
        trial = Trial(program, folder, options)
        for number in range(options.rounds):
            trial.round(number)
            if trial.checker.faults:
                break
        trial.greatest()
        small = messages.registration([(model.DOWN, messages.make_segment([messages.Hop(runs.CORE_A, 0, 1), messages.Hop(runs.LEAVES[0], 1, 0)], runs.MADE))])
        for count in FAR_AHEAD:
            trial.far_ahead(f"{count} commands ahead", count * small)
        trial.far_ahead(f"{OF_THE_GREATEST} of the greatest size ahead", OF_THE_GREATEST * peers.registration(runs.LEAVES[0], 0, 16, 8_180))
    faults = trial.checker.faults + trial.faults
    often = [f"{fault} ({count} times)" for fault, count in Counter(it[:300] for it in faults).most_common()]
    return runs.end(options, f"{options.rounds} rounds, {trial.checker.counts['replies']} replies, {len(faults)} faults", often, trial.checker.counts)
