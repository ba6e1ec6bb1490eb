"""Runs the built server under what an operator's machine does to it, and looks that it goes on.

    tools/pathd-tools going-on [PROGRAM]

A server that is stopped and continued (SIGSTOP, SIGCONT) keeps an idle session and answers it. One
whose standard error is a full pipe that nobody reads turns peers away, and serves the next peer once
others have left. One that is given no more threads (RLIMIT_NPROC, as the user nobody) turns peers
away as it does where all places are taken, and reports it. A peer that drips a frame loses its
session. A request of the numbers that comes late is answered. Where the process may not write a
file as long as the store (RLIMIT_FSIZE), `run`, `format` and `copy` say so, and end with the status
1. While the device hangs (tools/native/hanging_calls.c), peers that have sent far more than a session
takes ahead, and have closed, give their seats back. A server that nobody asks wakes seldom. It needs Python 3, gcc and the loopback, and
root for the part without threads, which is left out else. It ends with the status 1 where something
else comes.
"""
from __future__ import annotations

import fcntl
import os
import re
import resource
import shutil
import signal
import socket
import subprocess
import time
from pathlib import Path

from pathd_model import model
from pathd_tools import messages, runs
from pathd_tools.attacks.hanging import KINDS, Device
from pathd_tools.systems import until

SMALL = model.Layout(2, 516)
# A lookup with an empty message, and its refusal; and the refusal of a peer without a place.
PROBE = bytes.fromhex("0000000102")
PROBED = bytes.fromhex("00000002ff41")
# A purge of what expires at moment 0.
PURGE = bytes.fromhex("00000009030000000000000000")
NO_PLACE = bytes.fromhex("00000002ff61")
# The beginning of an answer with the numbers.
ANSWERED = b"HTTP/1.1 200 "
# How long anything may take, in seconds.
PATIENCE = 20
# Linux's number of the call that sets the size of a pipe, and the size in bytes.
SET_PIPE_SIZE, PIPE_SIZE = 1031, 4096
# How late a request of the numbers comes, in seconds, which is answered.
LATE = 1.5
# How many peers send how many registrations, of 101 bytes each, and close.
FAR_PEERS, FAR_AHEAD = 8, 5_000
# The most times that the threads of a server wake in a second in which nobody asks it, and for how
# many seconds these are counted.
MOST_WAKES, IDLE_SECONDS = 30, 4
# The user nobody, and how many processes and threads it may have.
NOBODY, FEW_THREADS = 65534, 16


class Wrong(Exception):
    """Something else came."""


def started(program: str, store: Path, words: list[str], **more) -> tuple[subprocess.Popen, int]:
    """A server that is ready, and its port."""
    with socket.socket() as free:
        free.bind(("127.0.0.1", 0))
        port = free.getsockname()[1]
    command = [program, "run", str(store), "--listen", f"127.0.0.1:{port}", *runs.RUN_WORDS, *words]
    process = subprocess.Popen(command, stdin=subprocess.DEVNULL, stdout=subprocess.PIPE, **more)
    if process.stdout is None or process.stdout.readline() != b"ready\n":
        raise Wrong("the server is not ready")
    return process, port


def connected(port: int) -> socket.socket:
    """A connection to a server."""
    return socket.create_connection(("127.0.0.1", port), PATIENCE)


def answer(peer: socket.socket) -> bytes:
    """The next six bytes that a peer gets, or fewer at the end."""
    found = b""
    while len(found) < len(PROBED):
        piece = peer.recv(len(PROBED) - len(found))
        if not piece:
            break
        found += piece
    return found


def probe(peer: socket.socket) -> None:
    """Asks for what is refused, and looks that it is."""
    peer.sendall(PROBE)
    found = answer(peer)
    if found != PROBED:
        raise Wrong(f"a probe is answered by {found!r}")


def stop_and_continue(program: str, store: Path) -> None:
    """A server that was stopped answers its idle session."""
    process, port = started(program, store, ["--idle", "5", "--quiet"])
    try:
        with connected(port) as peer:
            probe(peer)
            for _ in range(3):
                process.send_signal(signal.SIGSTOP)
                time.sleep(0.3)
                process.send_signal(signal.SIGCONT)
                time.sleep(0.3)
                probe(peer)
    finally:
        process.kill()
        process.wait()


def fill(pipe: int) -> None:
    """Fills a pipe, so that each further write waits."""
    end = os.open(f"/proc/self/fd/{pipe}", os.O_WRONLY | os.O_NONBLOCK)
    try:
        while True:
            os.write(end, b".")
    except BlockingIOError:
        os.close(end)


def full_pipe(program: str, store: Path) -> None:
    """A server whose lines nobody reads serves peers after it has turned others away."""
    reading, writing = os.pipe()
    fcntl.fcntl(writing, SET_PIPE_SIZE, PIPE_SIZE)
    process, port = started(program, store, ["--peer-sessions", "1"], stderr=writing)
    try:
        fill(writing)
        for _ in range(2):
            with connected(port) as first:
                probe(first)
                for _ in range(100):
                    with connected(port) as peer:
                        found = answer(peer)
                        if found != NO_PLACE:
                            raise Wrong(f"a second peer is answered by {found!r}")
            # The next peer that is turned away is reported by a line of its own.
            time.sleep(1.1)
        deadline = time.monotonic() + PATIENCE
        while True:
            with connected(port) as peer:
                peer.sendall(PROBE)
                if answer(peer) == PROBED:
                    return
            if time.monotonic() > deadline:
                raise Wrong("no peer is served any more")
            time.sleep(0.05)
    finally:
        process.kill()
        process.wait()
        os.close(reading)
        os.close(writing)


def refused_thread(program: str, store: Path) -> None:
    """A server that is given no more threads turns peers away, and says so."""

    def bound() -> None:
        resource.setrlimit(resource.RLIMIT_NPROC, (FEW_THREADS, FEW_THREADS))
        os.setgroups([])
        os.setgid(NOBODY)
        os.setuid(NOBODY)

    # The other user may have no access to the program's own folder.
    program = shutil.copy(program, store.with_suffix(".program"))
    os.chown(store, NOBODY, NOBODY)
    os.chmod(store.parent, 0o755)
    lines = store.with_suffix(".lines")
    with open(lines, "wb") as errors:
        process, port = started(program, store, [], stderr=errors, preexec_fn=bound)
    peers = []
    try:
        found = set()
        for _ in range(2 * FEW_THREADS):
            peer = connected(port)
            peers.append(peer)
            peer.sendall(PROBE)
            found.add(answer(peer))
        if found != {PROBED, NO_PLACE}:
            raise Wrong(f"peers are answered by {found}")
        if b"thread" not in lines.read_bytes():
            raise Wrong(f"the server says {lines.read_bytes()!r}")
    finally:
        for peer in peers:
            peer.close()
        process.kill()
        process.wait()


def drip(program: str, store: Path) -> None:
    """A peer whose frame is not whole within the idle time loses its session, though each byte comes in time."""
    process, port = started(program, store, ["--idle", "2", "--quiet"])
    try:
        with connected(port) as peer:
            begun = time.monotonic()
            try:
                for byte in b"\0\0\0\5\2\0\0\0\0":
                    peer.sendall(bytes([byte]))
                    time.sleep(0.8)
                ended = peer.recv(1) == b""
            except ConnectionError:
                ended = True
            if not ended or time.monotonic() - begun > PATIENCE:
                raise Wrong("a peer that drips keeps its session")
    finally:
        process.kill()
        process.wait()


def late_request(program: str, store: Path) -> None:
    """A request of the numbers that comes late is answered."""
    with socket.socket() as free:
        free.bind(("127.0.0.1", 0))
        at = free.getsockname()[1]
    process, _ = started(program, store, ["--status", f"127.0.0.1:{at}", "--quiet"])
    try:
        with connected(at) as peer:
            time.sleep(LATE)
            peer.sendall(b"GET /livez HTTP/1.1\r\nHost: localhost\r\n\r\n")
            found = peer.recv(len(ANSWERED))
            if found != ANSWERED:
                raise Wrong(f"a late request is answered by {found!r}")
    finally:
        process.kill()
        process.wait()


def short_files(program: str, store: Path) -> None:
    """Commands whose files are longer than the process may write say so, and change nothing."""
    longest = store.stat().st_size - 1
    before = store.read_bytes()
    new = store.with_suffix(".new")
    for words in (
        ["run", str(store), "--listen", "127.0.0.1:0"],
        ["format", str(new), "--checkpoint", "2", "--journal", "516"],
        ["copy", str(store), str(new)],
    ):
        done = subprocess.run(
            [program, *words],
            stdin=subprocess.DEVNULL,
            capture_output=True,
            timeout=PATIENCE,
            check=False,
            preexec_fn=lambda: resource.setrlimit(resource.RLIMIT_FSIZE, (longest, longest)),
        )
        if done.returncode != 1 or b"ulimit -f" not in done.stderr or not done.stderr.endswith(b"error: device 1\n"):
            raise Wrong(f"{words[0]} ends with {done.returncode}: {done.stderr!r}")
    if store.read_bytes() != before or new.stat().st_size:
        raise Wrong("a file was changed")


def far_ahead(program: str, store: Path) -> None:
    """While the device hangs, peers that have sent far ahead and have closed give their seats back."""
    hops = [messages.Hop(runs.CORE_A, 0, 1), messages.Hop(runs.LEAVES[0], 1, 0)]
    data = FAR_AHEAD * messages.registration([(model.DOWN, messages.make_segment(hops, runs.MADE))])
    hanging = store.with_suffix(".hanging")
    device = Device(hanging)
    env = {**os.environ, "LD_PRELOAD": runs.compiled("hanging_calls.c", store.parent), "HANGING": str(hanging), "STORE": str(store)}
    with socket.socket() as free:
        free.bind(("127.0.0.1", 0))
        at = free.getsockname()[1]
    process, port = started(program, store, ["--leave", "1", "--status", f"127.0.0.1:{at}", "--quiet"], env=env)
    try:
        device.hang(KINDS["syncs"])
        for _ in range(FAR_PEERS):
            with connected(port) as peer:
                peer.sendall(data)
        if not until(lambda: number_at(at, "pathd_sessions") == 0, PATIENCE):
            raise Wrong("seats are taken by peers that have closed")
    finally:
        process.kill()
        process.wait()


def idle(program: str, store: Path) -> None:
    """The threads of a server that nobody asks wake seldom, after a command too."""
    process, port = started(program, store, ["--quiet"])
    try:
        for _ in range(2):
            time.sleep(1)
            before = waits(process.pid)
            time.sleep(IDLE_SECONDS)
            wakes = (waits(process.pid) - before) / IDLE_SECONDS
            if wakes > MOST_WAKES:
                raise Wrong(f"an idle server wakes {wakes:.0f} times a second")
            with connected(port) as peer:
                peer.sendall(PURGE)
                if len(answer(peer)) < len(PROBED):
                    raise Wrong("a purge has no reply")
    finally:
        process.kill()
        process.wait()


def waits(process: int) -> int:
    """How often the threads of a process have waited for something."""
    texts = [it.read_text() for it in Path(f"/proc/{process}/task").glob("*/status")]
    return sum(int(found[1]) for it in texts if (found := re.search(r"^voluntary_ctxt_switches:\s*(\d+)", it, re.M)))


def number_at(port: int, name: str) -> int:
    """A number of the page at a port."""
    with connected(port) as peer:
        peer.sendall(b"GET /metrics HTTP/1.1\r\nHost: localhost\r\n\r\n")
        page = b""
        while piece := peer.recv(1 << 16):
            page += piece
    found = re.search(rf"^{name} (\d+)$", page.decode(), re.M)
    if found is None:
        raise Wrong(f"the page has no {name}")
    return int(found[1])


def main(words: list[str]) -> int:
    """Runs each part."""
    _, program = runs.begin(__doc__, words, is_last=True)
    parts = [stop_and_continue, full_pipe, drip, late_request, short_files, far_ahead, idle]
    if os.geteuid() == 0:
        parts.append(refused_thread)
    faults = 0
    with runs.scratch() as folder:
        for part in parts:
            store = folder / part.__name__
            runs.format_store(program, store, SMALL)
            try:
                part(program, store)
            except (Wrong, OSError, subprocess.TimeoutExpired) as fault:
                faults += 1
                print(f"  {part.__name__}: {fault}", flush=True)
    print(f"{len(parts)} parts, {faults} went wrong")
    return 1 if faults else 0
