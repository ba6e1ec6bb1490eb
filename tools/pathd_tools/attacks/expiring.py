"""Asks a server for lookups and pages while rows expire, and compares each reply with the model's.

    tools/pathd-tools expiring [--program PROGRAM] [--seed N] [--rows N] [--seconds N] [--wait N] [--sessions N]

A server that purges by itself each second gets the rows, most of which expire within some seconds
from --wait seconds on. From then on the sessions, a process each, look up and list, one request at
a time. Each reply is that of the model at a half second between the request and the reply, of all
rows that were registered. So a row is shown until it expires and not after that, whether it has
been purged or not, and a page says that more follow only where valid rows do. At the end the server
is killed (-9): `show` has to print each row that has not expired, and none that had five seconds
before.

It needs Python 3, and the loopback. It ends with the status 1 where an answer is another one, and
prints the first ones.
"""
from __future__ import annotations

import argparse
import multiprocessing
import random
import time
from pathlib import Path

from pathd_model import model
from pathd_tools import messages, runs

LAYOUT = model.Layout(4096, 2048)
WORDS = ["--purge", "1", "--lookups", "127.0.0.1:0"]
# How many rows a registration has; the share of the rows that expire; by when expired ones are
# purged, in seconds.
EACH, SHARE, PURGED_AFTER = 8, 0.7, 5
# How many faults end a session.
ENOUGH = 3


def half_second() -> int:
    """Now, in half seconds since 1970."""
    return int(2 * time.time())


def register(server: runs.Server, options: argparse.Namespace, chance: random.Random) -> dict:
    """Registers the rows, and answers them as a database."""
    begun, db = int(time.time()) + options.wait, {}
    rows = runs.make_rows(options.rows)
    with server.connect() as connection:
        replies = runs.Replies(connection)
        for at in range(0, len(rows), EACH):
            made = []
            for kind, hops in sorted(rows[at : at + EACH], key=lambda row: row[0]):
                expires = begun + (chance.randrange(options.seconds) if chance.random() < SHARE else 20_000)
                made.append((kind, messages.make_segment(hops, expires - 337, 0)))
            connection.sendall(messages.registration(made))
            if replies.next()[0] != 0x81:
                raise SystemExit("the rows were not registered in time: a larger --wait is needed")
            model.apply(db, ("register", tuple(made)))
    if time.time() > begun:
        raise SystemExit("the rows were not registered in time: a larger --wait is needed")
    time.sleep(begun - time.time())
    return db


def next_asked(db: dict, ids: list[tuple[int, bytes]], chance: random.Random) -> tuple:
    """A lookup or a page."""
    if chance.random() < 0.4:
        return chance.choice(runs.QUERIES)
    start, end = (chance.choice((0, 0, 1 << 48, runs.CORE_A)), chance.choice((0, 0, 1 << 48, runs.LEAVES[0])))
    kind, after = chance.choice(ids)
    return kind, start, end, chance.choice((b"", after, chance.randbytes(32)))


def hold_session(port: int, db: dict, seed: str, until: float, results: multiprocessing.Queue) -> None:
    """Asks until a moment, and puts the number of replies and the faults."""
    chance, ids = random.Random(seed), sorted(db)
    count, faults = 0, []
    with runs.connected(port) as connection:
        replies = runs.Replies(connection)
        while time.time() < until and len(faults) < ENOUGH:
            asked = next_asked(db, ids, chance)
            sent = half_second()
            connection.sendall(runs.asking_frame(asked))
            content = replies.next()
            count += 1
            if all(content != runs.answer_to(asked, db, now) for now in range(sent, half_second() + 1)):
                faults.append(f"{asked} at {sent} is answered by {content[:60].hex()}")
    results.put((count, faults))


def left_over(program: str, store: Path, db: dict, killed: int) -> list[str]:
    """What is wrong with the rows that `show` prints after the kill at a moment."""
    status, out, errors = runs.shown(program, store)
    shown = {tuple(line.split()[:2]) for line in out.decode().splitlines()[:-1]}
    expiries = {(model.TYPE_NAMES[kind], id.hex()): row.expiry for (kind, id), row in db.items()}
    if status != 0 or not shown <= expiries.keys():
        return [f"`show` ends with {status}, {errors!r}, or prints other rows"]
    missing = sum(expires > killed for row, expires in expiries.items() if row not in shown)
    expired = sum(expiries[row] <= killed - 2 * PURGED_AFTER for row in shown)
    return [f"{missing} valid rows are missing, and {expired} expired ones are there"] if missing or expired else []


def main(words: list[str]) -> int:
    """Registers, asks, and prints what was found."""
    options, program = runs.begin(__doc__, words, seed=1, rows=600, seconds=60, wait=20, sessions=2)
    count, faults = 0, []
    with runs.scratch() as folder:
        store = folder / "store"
        runs.format_store(program, store, LAYOUT)
        with runs.Server(program, store, WORDS) as server:
            db = register(server, options, random.Random(options.seed))
            until, results = time.time() + options.seconds + PURGED_AFTER + 2, multiprocessing.Queue()
            ports = [(server.port, server.lookups_port())[it % 2] for it in range(options.sessions)]
            given = [(port, db, f"{options.seed}/{number}", until, results) for number, port in enumerate(ports)]
            processes = [multiprocessing.Process(target=hold_session, args=it) for it in given]
            for process in processes:
                process.start()
            for _ in processes:
                asked, found = results.get()
                count, faults = count + asked, faults + found
            for process in processes:
                process.join()
            server.kill()
            killed = half_second()
        faults += left_over(program, store, db, killed)
    return runs.end(options, f"{count} replies, {len(db)} rows, {len(faults)} faults", faults)
