"""Puts a load on a server, checks each reply, and prints how many replies a second came and how
long they took.

    tools/pathd-tools load [ADDR] [--sessions N] [--seconds S] [--mix KIND=WEIGHT,..] [--rate R] [--window W] [--rows N] [--made N] [--series FILE [--store FILE]]

Each session registers its part of the rows first, which takes no part in the figures, and a row of
its own. Then it sends requests one after the other, of kinds that are drawn by their weights, and
compares each reply with the one that the request has to get:

    lookup    of one of the rows; the answer is that row, byte for byte
    register  the session's own row, each time with a later timestamp; one row is updated, and the place is above that of the command before
    fresh     a lookup of the session's own row; the answer is what it registered last
    purge     at the moment 0, so that nothing is dropped; remove: of an id that no row has; both are checked by counts and place

A load that registers at a server for the second time needs a greater --made, since a timestamp that
isn't later updates nothing.

For each kind the program prints the replies, how many came a second, the 50th, 99th and 99.9th
percentile of their times and the longest one in microseconds, and how many were refusals or other
than the wanted ones. With --rate a time is counted from the moment at which the request was due, so
that a wait of the server counts for all requests that would have been sent meanwhile. With --window
above 1 it is the time of a batch of one kind.

--series FILE gets a line for each kind and each quarter of a second, for `tools/pathd-tools plot`.
With --store FILE, the server's file on the same machine, the series also says when a checkpoint
counted: this script reads the epochs in the file's halves every ten milliseconds, and changes
nothing.

The rows are registered from 1-ff00:0:110, which has to be a core AS of the server (--cores). The
load is made by tools/native/load.c, which is compiled for the run: it needs gcc. The status is 0, 1
where a reply was wrong or refused or a session ended early, and 2 for words that can't be read.
"""
from __future__ import annotations

import struct
import subprocess
import tempfile
import time
from pathlib import Path

from pathd_tools import TOP, need, toolbox

SOURCE = TOP / "tools" / "native" / "load.c"
SECTOR = 512
OPEN = 0xA7
PASSED_ON = ["sessions", "seconds", "mix", "rate", "window", "rows", "made", "seed", "series", "every"]


def compiled(folder: Path) -> Path:
    """The program that makes the load."""
    need.require("gcc")
    program = folder / "load"
    subprocess.run(["gcc", "-O2", "-o", program, SOURCE, "-lpthread"], check=True)
    return program


def epoch_of(store: Path) -> int:
    """The greatest epoch of the open halves of a store's file; 0 where none is open."""
    with store.open("rb", buffering=0) as file:
        _magic, _layout, area, journal = struct.unpack(">8sIII", file.read(20))
        greatest = 0
        for first in (1, 2 + area + journal):
            file.seek(SECTOR * (first + area))
            if file.read(1) == bytes([OPEN]):
                file.seek(SECTOR * first)
                _magic, _version, epoch, _place = struct.unpack(">4sIQQ", file.read(24))
                greatest = max(greatest, epoch)
    return greatest


def checkpoints_beside(load: subprocess.Popen, store: Path) -> list[tuple[float, int]]:
    """When a checkpoint counted while the load runs, by the monotonic clock, and its epoch."""
    found = []
    last = epoch_of(store)
    while load.poll() is None:
        time.sleep(0.01)
        epoch = epoch_of(store)
        if epoch > last:
            found.append((time.monotonic(), epoch))
            last = epoch
    return found


def add_checkpoints(series: Path, found: list[tuple[float, int]]) -> None:
    """Puts the checkpoints into a series, in seconds since the load began."""
    begun = float(series.read_text().split(maxsplit=3)[2])
    with series.open("a") as file:
        for at, epoch in found:
            if at >= begun:
                file.write(f"# checkpoint {at - begun:.3f} {epoch}\n")


def main(words: list[str]) -> int:
    """Does what the words say."""
    parser = toolbox.parser(__doc__)
    parser.add_argument("address", nargs="?", default="127.0.0.1:30252", metavar="ADDR", help="the server's address [%(default)s]")
    parser.add_argument("--sessions", type=int, help="how many sessions, each by a thread [8]")
    parser.add_argument("--seconds", type=float, help="how long [10]")
    parser.add_argument("--mix", help="kinds and their weights, as lookup=9,register=1 [lookup]")
    parser.add_argument("--rate", type=float, help="how many requests all sessions send in a second; 0 for as many as they can [0]")
    parser.add_argument("--window", type=int, help="how many requests are sent before their replies are read [1]")
    parser.add_argument("--rows", type=int, help="how many rows are registered first and looked up [1000]")
    parser.add_argument("--made", type=int, help="the first timestamp of the sessions' own rows, after 4,000,000,000 [0]")
    parser.add_argument("--seed", type=int, help="of the draws [1]")
    parser.add_argument("--series", type=Path, metavar="FILE", help="write figures over time to this file")
    parser.add_argument("--every", type=float, metavar="S", help="seconds of a line of the series [0.25]")
    parser.add_argument("--store", type=Path, metavar="FILE", help="the server's file, whose checkpoints go into the series")
    options = parser.parse_args(words)
    if options.store and not options.series:
        parser.error("--store needs --series")
    host, _, port = options.address.rpartition(":")
    words = [host.strip("[]"), port]
    for name in PASSED_ON:
        value = getattr(options, name)
        if value is not None:
            words += [f"--{name}", str(value)]
    with tempfile.TemporaryDirectory() as folder:
        load = subprocess.Popen([compiled(Path(folder)), *words])
        found = checkpoints_beside(load, options.store) if options.store else []
        status = load.wait()
    if options.store and status in (0, 1):
        add_checkpoints(options.series, found)
    return status
