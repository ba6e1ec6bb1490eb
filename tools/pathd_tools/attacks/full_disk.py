"""Serves a store on a file system that runs out of room, and opens it again once there is room.

    tools/pathd-tools full-disk [--program PROGRAM] [--rounds N]

The store's file has no pages yet where its journals are, as `format` leaves them, so that a write
fails with the system's own ENOSPC at another moment in each round. From that fault on commands have
to be answered by 0x62 and 0x54 and lookups as before, and the server has to say that the store has
stopped. Then there is room, and `show` has to print what was acknowledged, with at most the
commands whose reply was 0x62 beyond it.

It needs Python 3, the loopback, and to be run as root, since it mounts a file system in memory. It
ends with the status 1 where something else comes.
"""
from __future__ import annotations

import os
from collections import Counter

from pathd_model import model
from pathd_tools import need, runs
from pathd_tools.attacks.refused_calls import STOPPED, Worlds, Wrong, called, hold_session
from pathd_tools.systems import must, until

SMALL = model.Layout(2, 516)
PAGE = 4096
COMMANDS = 90
# How long a server may take to say that its store has stopped.
SECONDS = 10


def hold_round(program: str, folder: str, pages: int) -> str:
    """Serves with room for this number of pages, and answers whether it was enough."""
    store = runs.Path(folder) / "store"
    filler = runs.Path(folder) / "filler"
    runs.format_store(program, store, SMALL)
    left = os.statvfs(folder).f_bavail
    with open(filler, "wb") as file:
        file.write(bytes(PAGE) * (left - pages))
    worlds = Worlds(model.open_image(store.read_bytes()))
    with runs.Server(program, store, notices=runs.Path(folder).parent / "notices") as server:
        hold_session(server, worlds, "ENOSPC", COMMANDS)
        has_stopped = says_stopped(server, worlds.has_stopped)
    filler.unlink()
    if worlds.has_stopped != has_stopped:
        raise Wrong(f"with {pages} pages: commands are refused: {worlds.has_stopped}; the server says so: {has_stopped}")
    status, out, err = called([program, "show", str(store)], {})
    if status != 0 or err or not worlds.has(out):
        raise Wrong(f"with {pages} pages `show` ends with the status {status}, {out[-20:]!r}, {err!r}")
    store.unlink()
    return "stopped" if has_stopped else "had room"


def says_stopped(server: runs.Server, is_expected: bool) -> bool:
    """Whether the server says that its store has stopped. A thread of its own prints that, so it may come after the replies."""
    return until(lambda: STOPPED in server.notices.read_text(), SECONDS if is_expected else 0)


def main(words: list[str]) -> int:
    """Serves round after round."""
    options, program = runs.begin(__doc__, words, rounds=24)
    need.require("root")
    counts: Counter = Counter()
    faults = []
    with runs.scratch() as top:
        folder = str(top / "small")
        must("mount", "--mkdir", "-t", "tmpfs", "-o", "size=1m", "tmpfs", folder)
        try:
            for number in range(options.rounds):
                try:
                    counts[hold_round(program, folder, number)] += 1
                except (Wrong, RuntimeError) as fault:
                    faults.append(str(fault))
                    break
        finally:
            must("umount", folder)
    return runs.end(options, f"{sum(counts.values())} rounds: {counts['stopped']} stopped, {counts['had room']} had room, {len(faults)} went wrong", faults)
