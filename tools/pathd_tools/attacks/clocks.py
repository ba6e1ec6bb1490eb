"""Sets the clock of a server that purges by itself, and sees that it loses no row.

    tools/pathd-tools clocks [--program PROGRAM] [--rows N] [--seconds N]

A server that purges each second has rows that expire within some hours, and has purged once, so
that it trusts its clock. A preloaded library
(tools/native/set_clock.c) sets its clock ahead by ten hours, by 30 days and by 50 years, and back by
50 years, for some seconds each, and then back to the time. Meanwhile its purges have to rest, and
after that they have to go on. The server is killed (-9), and started again with a clock that is 30
days ahead: they rest, until the clock is right. In the end all rows have to be there.

It needs Python 3 and gcc, and the loopback. It ends with the status 1 where a row is lost, or purges
do not rest or go on within --seconds seconds, and prints what was found.
"""
from __future__ import annotations

import os
import time
from pathlib import Path

from pathd_model import model
from pathd_tools import messages, runs
from pathd_tools.systems import until

LAYOUT = model.Layout(4096, 2048)
WORDS = ["--purge", "1", "--status", "127.0.0.1:0"]
HOUR, DAY, YEAR = 3_600, 86_400, 31_557_600
JUMPS = (10 * HOUR, 30 * DAY, 50 * YEAR, -50 * YEAR)
# How many rows a registration has; for how long a clock is wrong after purges rest, in seconds.
EACH, WRONG = 8, 3


class Clock:
    """The clock of a server, which is set by a file."""

    def __init__(self, folder: Path) -> None:
        self._file, self._library = folder / "ahead", runs.compiled("set_clock.c", folder)
        self.set(0)

    def set(self, ahead: int) -> None:
        """Sets it ahead by so many seconds, at once."""
        new = self._file.with_suffix(".new")
        new.write_text(f"{ahead}\n")
        os.replace(new, self._file)

    def env(self) -> dict[str, str]:
        """The variables of a program that has this clock."""
        return {"LD_PRELOAD": self._library, "AHEAD": str(self._file)}


def numbers(server: runs.Server) -> dict[str, float]:
    """The numbers of a server, by their names."""
    return runs.numbers(server.status_port(), timeout=10)


def is_soon(server: runs.Server, name: str, least: float, most: float, seconds: float) -> bool:
    """Whether a number lies between two within so many seconds."""
    return until(lambda: least <= numbers(server)[name] <= most, seconds)


def register(server: runs.Server, count: int) -> None:
    """Registers this number of rows, which were made now."""
    made = int(time.time())
    rows = [(kind, messages.make_segment(hops, made, 63)) for kind, hops in runs.make_rows(count)]
    with server.connect() as connection:
        replies = runs.Replies(connection)
        for at in range(0, count, EACH):
            connection.sendall(messages.registration(sorted(rows[at : at + EACH], key=lambda row: row[0])))
            if replies.next()[0] != 0x81:
                raise SystemExit("a registration was refused")


def jumped(server: runs.Server, clock: Clock, ahead: int, seconds: float) -> list[str]:
    """What is wrong while the clock is set for a while, and after it."""
    clock.set(ahead)
    rests = is_soon(server, "pathd_purges_resting", 1, 1, seconds)
    time.sleep(WRONG)
    clock.set(0)
    goes_on = is_soon(server, "pathd_purges_resting", 0, 0, seconds)
    faults = [] if rests else [f"ahead by {ahead} s: purges do not rest"]
    return faults if goes_on else [*faults, f"after {ahead} s: purges do not go on"]


def main(words: list[str]) -> int:
    """Sets the clock, and prints what was found."""
    options, program = runs.begin(__doc__, words, rows=2_000, seconds=10.0)
    with runs.scratch() as folder:
        store, clock, faults = folder / "store", Clock(folder), []
        runs.format_store(program, store, LAYOUT)
        with runs.Server(program, store, WORDS, clock.env()) as server:
            register(server, options.rows)
            commands = numbers(server)["pathd_commands_total"]
            if not is_soon(server, "pathd_commands_total", commands + 1, float("inf"), options.seconds):
                raise SystemExit("the server does not purge by itself")
            for ahead in JUMPS:
                faults += jumped(server, clock, ahead, options.seconds)
            kept = numbers(server)["pathd_rows"]
        clock.set(30 * DAY)
        with runs.Server(program, store, WORDS, clock.env()) as server:
            faults += jumped(server, clock, 30 * DAY, options.seconds)
            left = numbers(server)["pathd_rows"]
            notices = server.notices.read_text()
    faults += [f"{options.rows - int(rows)} rows are lost" for rows in (kept, left) if rows != options.rows]
    return runs.end(options, f"{len(JUMPS) + 1} jumps, {options.rows} rows, {len(faults)} faults", faults + [notices] * bool(faults))
