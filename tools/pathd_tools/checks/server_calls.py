"""Counts the reads and writes of a session of `pathd run`, and judges the order of its writes and
syncs of the store.

    tools/pathd-tools server-calls [PROGRAM]

Three sessions with a server on the loopback send a registration, 100 lookups in one piece and 100
purges in one piece. The batch of lookups is one read and two writes of the replies' 10,100 bytes,
by a buffer of 8,192, and the batch of purges one read and one write.

Then 40 sessions at one time register a segment each, ten times. A group has at most 32 commands, so
others wait as its gate is written, and the next group follows. The order has to be that of
docs/STORE.md: a gate is opened once its group is synced and so is the gate before it, and a group is
written once the gate of the group before it is open. Whether a gate that no group follows is synced
before its commands are acknowledged is what `power-cuts` asks.

PROGRAM is crates/pathd/out/pathd if left out, which `rt run` builds. It needs Python 3 and strace,
uses the loopback alone, and is no part of the gate.
"""
from __future__ import annotations

import re
from concurrent.futures import ThreadPoolExecutor
from pathlib import Path

from pathd_model import model
from pathd_tools import messages, need, runs

CALLS = "accept,accept4,read,write,recvfrom,sendto"
SECONDS = 30
LAYOUT = model.Layout(64, 516)
# How many sessions register at one time, and how often each.
CROWD, TIMES = 40, 10
HOPS = [messages.Hop(runs.CORE_A, 0, 1, bytes.fromhex("010203040506")), messages.Hop(runs.LEAVES[0], 2, 0, bytes.fromhex("0a0b0c0d0e0f"))]
REGISTER = messages.registration([(messages.DOWN, messages.make_segment(HOPS, runs.MADE))])
LOOKUP = messages.lookup_frame(runs.CORE_A, runs.LEAVES[0])
PURGE = messages.command_frame(("purge", 0))
# Of each session the requests, which are sent whole, the bytes of their replies, and the reads and
# writes that the server has to make.
SESSIONS = [(REGISTER, 29, (1, 1)), (100 * LOOKUP, 100 * 101, (1, 2)), (100 * PURGE, 100 * 29, (1, 1))]


def hold_session(server: runs.Server, requests: bytes, length: int) -> None:
    """Sends all requests at once, and reads as many bytes as their replies have."""
    with server.connect(SECONDS) as connection:
        connection.sendall(requests)
        while length > 0:
            length -= len(connection.recv(65_536))


def calls_in(trace: Path) -> list[tuple[int, int]]:
    """The reads and the writes of each session, by a trace of strace."""
    sessions: list[list[int]] = []
    descriptor: dict[str, int] = {}
    for line in trace.read_text(encoding="utf-8", errors="replace").splitlines():
        thread = line.split()[0]
        started = re.search(r" (\w+)\((\d+),", line)
        if started:
            descriptor[thread] = int(started.group(2))
        ended = re.search(r"(\w+)(?:\(| resumed>).* = (-?\d+)", line)
        if not ended:
            continue
        call, answer = ended.group(1), int(ended.group(2))
        if call.startswith("accept") and answer >= 0:
            sessions.append([answer, 0, 0])
        for session in reversed(sessions):
            if session[0] == descriptor.get(thread) and answer > 0:
                session[1] += call in ("read", "recvfrom")
                session[2] += call in ("write", "sendto")
                break
    return [(reads, writes) for _, reads, writes in sessions]


def register_often(server: runs.Server) -> None:
    """Registers a segment some times in a row."""
    with server.connect(SECONDS) as connection:
        replies = runs.Replies(connection)
        for _ in range(TIMES):
            connection.sendall(REGISTER)
            replies.next()


def journal_calls(trace: Path) -> list[tuple[str, int]]:
    """The writes of both journals and the syncs, by a trace of strace: what a call does, and a write's sector."""
    calls = []
    for line in trace.read_text(encoding="utf-8", errors="replace").splitlines():
        written = re.search(r'pwrite64\(\d+<[^>]*>, "\\x(..)"\.*, (\d+), (\d+)', line)
        if written:
            length, sector = int(written.group(2)) // model.SECTOR, int(written.group(3)) // model.SECTOR
            within = (sector - 1) % (LAYOUT.checkpoint + 1 + LAYOUT.journal) if sector else 0
            if within > LAYOUT.checkpoint:
                calls.append(("gate" if length == 1 and written.group(1) == "a7" else "group", sector))
        elif re.search(r" (fdatasync|fsync)\(\d+<", line):
            calls.append(("sync", 0))
    return calls


def judged(calls: list[tuple[str, int]]) -> tuple[list[str], int, int]:
    """What is wrong in the order of these calls, how many groups there are, and how many of them follow another one."""
    faults, groups, followers = [], 0, 0
    # The sector of the group that waits for its gate, whether it is synced, and the sector of the gate that is not synced.
    group, is_synced, gate = None, False, None
    for what, sector in calls:
        if what == "sync":
            is_synced, gate = True, None
        elif what == "gate":
            if group != sector + 1 or not is_synced:
                faults.append(f"the gate in sector {sector} is opened, and the group after it is not synced")
            if gate is not None:
                faults.append(f"the gate in sector {sector} is opened, and that in sector {gate} is not synced")
            group, gate = None, sector
            groups += 1
        else:
            if group is not None:
                faults.append(f"the group in sector {sector} is written, and the gate of that in sector {group} is not")
            followers += gate is not None
            group, is_synced = sector, False
    return faults, groups, followers


def judge_order(program: str, folder: Path) -> bool:
    """Has many sessions register at one time, and judges the calls on the store."""
    runs.format_store(program, folder / "row", LAYOUT)
    tracing = ["strace", "-f", "-qq", "-y", "-xx", "-s", "1", "-e", "trace=pwrite64,fdatasync,fsync", "-o", str(folder / "order")]
    with runs.Server(program, folder / "row", ["--sessions", str(CROWD)], under=tracing) as server:
        with ThreadPoolExecutor(CROWD) as crowd:
            for done in [crowd.submit(register_often, server) for _ in range(CROWD)]:
                done.result()
        server.process.wait()
    faults, groups, followers = judged(journal_calls(folder / "order"))
    print(f"{groups} groups, {followers} of which follow another one, {len(faults)} calls out of order", *faults[:5], sep="\n  ")
    return not faults and followers > 0


def main(words: list[str]) -> int:
    """Holds the sessions, and compares the calls."""
    need.require("strace", "python3")
    _, program = runs.begin(__doc__, words, is_last=True)
    with runs.scratch() as folder:
        runs.format_store(program, folder / "store", LAYOUT)
        tracing = ["strace", "-f", "-qq", "-e", f"trace={CALLS}", "-o", str(folder / "calls")]
        with runs.Server(program, folder / "store", ["--sessions", str(len(SESSIONS))], under=tracing) as server:
            for requests, length, _ in SESSIONS:
                hold_session(server, requests, length)
            server.process.wait()
        counts = calls_in(folder / "calls")
        print("reads and writes of each session:", counts)
        is_in_order = judge_order(program, folder)
    return 0 if is_in_order and counts == [wanted for _, _, wanted in SESSIONS] else 1
