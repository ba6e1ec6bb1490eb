"""Serves a mixed load for long, with many checkpoints, and watches the server's memory, threads and
descriptors.

    tools/pathd-tools soak [--program PROGRAM] [--seed N] [--minutes N] [--rows N] [--sessions N] [--rate N] [--ahead N] [--coming N] [--series FILE]

Sessions, a process each, register, remove, purge, look up and list, 1 to --ahead requests at one
time, at --rate requests a second each (0: as many as they can), for an hour if nothing else is
said. Beside them --coming further sessions a second come to the listener for lookups, each for one
lookup. At the end

- each request has its reply, and the places of the acknowledgements are those from 0 on, without a
  gap;
- each acknowledgement has the counts that the fold of the commands before it gives;
- the server is killed (-9), and what `show` prints is the fold of all commands;
- resident memory hasn't grown: its greatest in the last third is at most a tenth and 1 MiB above
  its greatest in the second third; nor have threads and descriptors, whose greatest numbers are at
  most two above those of the second third.

With --rows so many rows are registered first, which no command of the sessions touches. It prints
the longest time from a request to its reply, of lookups and of commands. FILE gets the resident
KiB, the threads and the descriptors of each second, as CSV. It needs Python 3, the loopback, and 3
GB of memory for a million rows. It ends with the status 1 where something doesn't hold.
"""
from __future__ import annotations

import multiprocessing
import os
import random
import socket
import struct
import threading
import time
from pathlib import Path
from typing import NamedTuple

from pathd_model import model
from pathd_tools import messages, runs

POOL = 5_000
KEYS = 60
LAYOUT = model.Layout(64, 516)
# A store for up to a million rows more, whose journals last longer than a checkpoint takes.
LARGE_LAYOUT = model.Layout(262_144, 32_768)
# The type and both ends of the rows that rest, and how many commands register them at one time.
CORE_TYPE = 3
RESTING = 200 << 48 | 1, 201 << 48 | 1
IN_A_REGISTRATION, AT_ONCE = 16, 64
# They were made later than the rows of all purges, so that none drops them.
MADE_LATE = 4_290_000_000
# The place, the counts and the number of the command.
RECORD = struct.Struct("<QIIIII")


class Sample(NamedTuple):
    """What a server takes at a moment: resident KiB, threads, descriptors."""

    resident: int
    threads: int
    descriptors: int


# How much each may be above its greatest in the third of the time before: a share, and a number.
ABOVE = {"resident": (0.1, 1024), "threads": (0.0, 2), "descriptors": (0.0, 2)}


def resting_segment(number: int) -> bytes:
    """The segment of a row that rests."""
    return messages.make_segment([messages.Hop(RESTING[0], 0, 1 + number % 1_000), messages.Hop(RESTING[1], 1 + number // 1_000, 0)], MADE_LATE, 63)


def register_resting(server: runs.Server, rows: int, faults: list[str]) -> int:
    """Registers the rows that rest, and answers by how many commands."""
    commands = []
    for first in range(0, rows, IN_A_REGISTRATION):
        segments = tuple((CORE_TYPE, resting_segment(it)) for it in range(first, min(rows, first + IN_A_REGISTRATION)))
        commands.append(segments)
    with server.connect() as connection:
        replies = runs.Replies(connection)
        for first in range(0, len(commands), AT_ONCE):
            part = commands[first : first + AT_ONCE]
            connection.sendall(b"".join(messages.command_frame(("register", it)) for it in part))
            for place, segments in enumerate(part, first):
                content = replies.next()
                if content[0] != 0x81 or struct.unpack(">QIIII", content[1:]) != (place, len(segments), 0, 0, 0):
                    faults.append(f"the rows of the place {place} were not inserted")
    return len(commands)


def hold_session(connection: socket.socket, seed: str, frames: list[bytes], until: float, rate: float, most: int, path: Path) -> None:
    """Sends requests until a moment, and writes the acknowledgements to a file; the last record has the numbers of requests and replies, and the longest times of lookups and commands in microseconds."""
    chance = random.Random(seed)
    replies = runs.Replies(connection)
    asking = [runs.asking_frame(it) for it in runs.ASKED]
    asked = answered = found = 0
    longest = {False: 0.0, True: 0.0}
    next_at = time.monotonic()
    with open(path, "wb") as file:
        try:
            while time.monotonic() < until:
                window = [chance.randrange(2 * POOL) for _ in range(runs.next_window(chance, most))]
                begun = time.monotonic()
                connection.sendall(b"".join(frames[it] if it < POOL else asking[it % len(asking)] for it in window))
                asked += len(window)
                for number in window:
                    content = replies.next()
                    answered += 1
                    longest[number < POOL] = max(longest[number < POOL], time.monotonic() - begun)
                    if number >= POOL:
                        found += content[0] in (0x82, 0x85)
                    elif content[0] in (0x81, 0x83, 0x84):
                        file.write(RECORD.pack(*struct.unpack(">QIIII", content[1:]), number))
                if rate:
                    next_at = max(next_at, time.monotonic() - 1) + len(window) / rate
                    time.sleep(max(0.0, next_at - time.monotonic()))
        except OSError:
            pass
        file.write(RECORD.pack((1 << 64) - 1, asked, answered, found, *(int(1e6 * longest[it]) for it in (False, True))))


def come_and_go(server: runs.Server, until: float, coming: float, faults: list[str]) -> None:
    """Opens sessions of one lookup each, so many a second."""
    asked = messages.lookup_frame(*runs.QUERIES[0])
    next_at = time.monotonic()
    try:
        while coming > 0 and time.monotonic() < until:
            with server.connect(port=server.lookups_port()) as connection:
                connection.sendall(asked)
                if runs.Replies(connection).next()[0] != 0x82:
                    faults.append("a session of one lookup got another reply")
            next_at += 1 / coming
            time.sleep(max(0.0, next_at - time.monotonic()))
    except OSError as fault:
        faults.append(f"a session of one lookup: {fault}")


def sample_of(server: runs.Server) -> Sample:
    """What a server takes now."""
    return Sample(server.status("VmRSS"), server.status("Threads"), len(os.listdir(f"/proc/{server.process.pid}/fd")))


def main(words: list[str]) -> int:
    """Serves, watches, and prints what was found."""
    options, program = runs.begin(__doc__, words, seed=1, minutes=60.0, rows=0, sessions=8, rate=250.0, ahead=128, coming=20.0, series="")
    source = runs.Commands(f"{options.seed}/soak", KEYS)
    pool = [source.next(0.2, 0.02) for _ in range(POOL)]
    frames = [messages.command_frame(command) for command in pool]
    faults: list[str] = []
    samples: list[Sample] = []
    layout = LARGE_LAYOUT if options.rows else LAYOUT
    with runs.scratch() as folder:
        store = folder / "store"
        runs.format_store(program, store, layout)
        paths = [folder / f"session{it}" for it in range(options.sessions)]
        with runs.Server(program, store, ["--lookups", "127.0.0.1:0"]) as server:
            first = register_resting(server, options.rows, faults)
            until = time.monotonic() + 60 * options.minutes
            processes = []
            for number, path in enumerate(paths):
                given = (server.connect(), f"{options.seed}/{number}", frames, until, options.rate, runs.greatest_window(number, options.ahead), path)
                processes.append(multiprocessing.Process(target=hold_session, args=given))
                processes[-1].start()
            coming = threading.Thread(target=come_and_go, args=(server, until, options.coming, faults))
            coming.start()
            while any(process.is_alive() for process in processes):
                if server.process.poll() is None:
                    samples.append(sample_of(server))
                time.sleep(min(1.0, 60 * options.minutes / 60))
            coming.join()
            for process in processes:
                process.join()
            if server.process.poll() is not None:
                faults.append("the server ended")
            notices = server.notices.read_text()
        counts = check(paths, pool, program, store, faults, layout, first, options.rows)
    watch(samples, faults)
    if options.series:
        write_series(Path(options.series), samples)
    print(*(f"  {line}" for line in notices.splitlines() if "checkpoint" not in line), sep="\n")
    print(f"  {counts}")
    return runs.end(options, f"{options.minutes} minutes, {len(faults)} faults", faults)


def check(paths: list[Path], pool: list[tuple], program: str, store: Path, faults: list[str], layout: model.Layout, first: int, rows: int) -> str:
    """Folds all commands from the place `first` on, adds the rows that rest, and compares."""
    asked = answered = found = 0
    longest = [0, 0]
    acknowledged = {}
    for path in paths:
        data = path.read_bytes()
        for at in range(0, len(data), RECORD.size):
            place, *counts, number = RECORD.unpack_from(data, at)
            if place == (1 << 64) - 1:
                asked, answered, found = asked + counts[0], answered + counts[1], found + counts[2]
                longest = [max(longest[0], counts[3]), max(longest[1], number)]
            elif acknowledged.setdefault(place, (tuple(counts), number)) != (tuple(counts), number):
                faults.append(f"two commands have the place {place}")
    if asked != answered:
        faults.append(f"of {asked} requests {answered} were answered")
    if answered != found + len(acknowledged):
        faults.append(f"{answered - found - len(acknowledged)} requests were refused")
    end = first + len(acknowledged)
    if sorted(acknowledged) != list(range(first, end)):
        faults.append("the places have gaps")
        return ""
    db: dict = {}
    for place in range(first, end):
        counts, number = acknowledged[place]
        if model.apply(db, pool[number]) != counts:
            faults.append(f"the place {place} counts {counts}")
    model.apply(db, ("register", tuple((CORE_TYPE, resting_segment(it)) for it in range(rows))))
    image = store.read_bytes()
    heads = [model.head_of(image, layout.area(half)) for half in (0, 1) if image[layout.gate(half) * model.SECTOR] == model.OPEN]
    if runs.shown(program, store) != (0, model.show_text(db, end), b""):
        faults.append("`show` doesn't print the fold of all commands")
    print(f"  the longest waits: {longest[0] / 1000:.0f} ms of a lookup, {longest[1] / 1000:.0f} ms of a command")
    return f"{answered} replies: {len(acknowledged)} acknowledgements, {found} lookups and pages; {max(head[1] for head in heads) - 1} checkpoints"


def watch(samples: list[Sample], faults: list[str]) -> None:
    """Prints how what the server takes went, and notes what grew."""
    third = max(1, len(samples) // 3)
    parts = [samples[at : at + third] for at in range(0, 3 * third, third) if samples[at : at + third]]
    for name, (share, number) in ABOVE.items():
        greatest = [max(getattr(sample, name) for sample in part) for part in parts]
        print(f"  {name}, the greatest of each third: {', '.join(map(str, greatest))}")
        if len(greatest) == 3 and greatest[2] > greatest[1] * (1 + share) + number:
            faults.append(f"{name} grows")


def write_series(path: Path, samples: list[Sample]) -> None:
    """Writes what the server took in each second."""
    path.write_text("\n".join([",".join(Sample._fields), *(",".join(map(str, sample)) for sample in samples)]) + "\n")
