"""Holds the sessions that a server has to bear, beside one that has to be served all the time, and
measures the server's memory.

    tools/pathd-tools peers [--program PROGRAM] [--connections N] [--seconds N]

Peers are held for --seconds seconds:

- half frames: peers that send a part of a frame and wait;
- slow peers: each sends one byte a second, and gets its reply;
- connections: N at one time, 10,000 if nothing else is said. Each is a session or is answered
  `00000002ff61` and closed;
- resets: peers that end the connection by a reset in the middle of replies;
- deaf peers: 63 that ask for the greatest replies and never read;
- greatest frames: 63 sessions that send registrations of the greatest size at one time, held back
  before their last byte;
- watchers: at the second listener, peers that are silent, send a part of a request or bytes that
  are none, or reset the connection; the page has to come after them;
- descriptors: a server that may open 40 files gets 60 connections: those that wait are served once
  others have ended.

Meanwhile a session registers, looks up and measures how long replies take. It ends with the status
1 where that session is answered wrongly or later than after 10 seconds, where a peer isn't answered
as said, where seats stay taken, or where the server's memory (VmHWM) is above the bound that
docs/RELIABILITY.md names. It needs Python 3, 10,100 descriptors, and the loopback.
"""
from __future__ import annotations

import http.client
import resource
import select
import socket
import struct
import sys
import threading
import time
from pathlib import Path

from pathd_model import model
from pathd_tools import messages, runs

LAYOUT = model.Layout(65_536, 4_096)
MOST_SESSIONS = 64
TURNED_AWAY = bytes.fromhex("00000002ff61")
LATEST = 10.0
# What docs/RELIABILITY.md names, in KiB: for the program, for a journal, for the rows that are
# registered here, and for each of 64 sessions.
OF_PROGRAM, OF_JOURNAL, OF_SESSION = 16 * 1024, LAYOUT.journal // 2, 4 * 1024
OF_ROWS = 4 * ((MOST_SESSIONS - 1) * 16 * 8_185 + 64 * 16_375) // 1024
BOUND = OF_PROGRAM + OF_JOURNAL + OF_ROWS + MOST_SESSIONS * OF_SESSION
# A lookup that finds nothing, as neither side is core, and its reply.
NOTHING = messages.lookup_frame(runs.LEAVES[0], runs.LEAVES[1])
FOUND_NOTHING = bytes.fromhex("00000002ff43")
LOOKUP = messages.lookup_frame(runs.CORE_A, runs.LEAVES[0])
LARGE_LOOKUP = messages.lookup_frame(runs.CORE_A, runs.LEAVES[2])


def registration(leaf: int, first: int, count: int, size: int) -> bytes:
    """The frame that registers this number of large segments to an AS."""
    paths = [[messages.Hop(runs.CORE_A, 0, 1 + number), messages.Hop(leaf, 1, 0)] for number in range(first, first + count)]
    segments = [messages.segment_of_most(hops, runs.MADE + hops[0].egress - 1, size) for hops in paths]
    return messages.registration((model.DOWN, segment) for segment in segments)


class Asking(threading.Thread):
    """A client that has to be served, and asks all the time until a reply is missing. It notes the latest reply."""

    def __init__(self, name: str) -> None:
        super().__init__(daemon=True)
        self.called = name
        self.latest = 0.0
        self.replies = 0
        self.faults: list[str] = []
        self.ended = threading.Event()

    def ask(self) -> str:
        """Asks once, and answers what is wrong with the reply, or nothing."""
        raise NotImplementedError

    def run(self) -> None:
        while not self.ended.is_set():
            begun = time.monotonic()
            try:
                fault = self.ask()
            except (OSError, ValueError, EOFError, http.client.HTTPException) as error:
                self.faults.append(f"{self.called}: {error!r} after {time.monotonic() - begun:.1f} seconds")
                return
            took = time.monotonic() - begun
            self.latest = max(self.latest, took)
            self.replies += 1
            if fault or took > LATEST:
                self.faults.append(f"{self.called}: {fault or 'a reply'} after {took:.1f} seconds")
            time.sleep(0.005)

    def take(self) -> tuple[int, float]:
        """How many replies came since the last call, and after how long the latest."""
        taken = self.replies, self.latest
        self.replies, self.latest = 0, 0.0
        return taken


class Witness(Asking):
    """A session that asks all the time."""

    def __init__(self, server: runs.Server) -> None:
        super().__init__("the session that has to be served")
        self.server = server
        self.connection = server.connect(60)
        self.contents = runs.Replies(self.connection)
        self.commands = runs.Commands("witness", 12)

    def ask(self) -> str:
        """Looks up or registers."""
        is_lookup = self.commands.random.random() < 0.5
        request = messages.lookup_frame(runs.LEAVES[1], runs.CORE_A) if is_lookup else messages.command_frame(self.commands.next(0, 0))
        self.connection.sendall(request)
        content = self.contents.next()
        return "" if content[0] == (0x82 if is_lookup else 0x81) else content[:2].hex()


def read_all(connection: socket.socket, length: int) -> bytes:
    """This number of bytes, or fewer where the peer ends."""
    data = b""
    while len(data) < length:
        try:
            piece = connection.recv(length - len(data))
        except ConnectionResetError:
            break
        if not piece:
            break
        data += piece
    return data


def watcher(server: runs.Server, request: bytes) -> socket.socket:
    """A connection to the second listener of a server, over which this was sent."""
    connection = socket.create_connection(("127.0.0.1", server.status_port()), 30)
    connection.sendall(request)
    return connection


def page(server: runs.Server) -> str:
    """A server's numbers, or what is sent in their place."""
    with watcher(server, b"GET /metrics HTTP/1.1\r\nHost: here\r\n\r\n") as connection:
        return read_all(connection, 1 << 20).decode()


class Attack:
    """What is tried, one after the other."""

    def __init__(self, server: runs.Server, witness: Witness, connections: int, seconds: int) -> None:
        self.server, self.witness = server, witness
        self.connections, self.seconds = connections, seconds
        self.faults: list[str] = []

    def seated(self, count: int = MOST_SESSIONS - 1, port: int = 0) -> list[socket.socket]:
        """Connections with a session each, of which some may have to wait for the end of earlier ones; at the first listener if no port is named."""
        held: list[socket.socket] = []
        until = time.monotonic() + 30
        while len(held) < count and time.monotonic() < until:
            connection = self.server.connect(60, port)
            try:
                connection.sendall(NOTHING)
                if connection.recv(6) == FOUND_NOTHING:
                    held.append(connection)
                    continue
            except OSError:
                pass
            connection.close()
            time.sleep(0.01)
        if len(held) < count:
            self.faults.append(f"of {count} seats {len(held)} are free after 30 seconds")
        return held

    def check_seats(self) -> None:
        """Sees that 63 sessions can be had beside the witness."""
        for connection in self.seated():
            connection.close()

    def half_frames(self) -> None:
        """Parts of frames, held."""
        held = self.seated()
        for number, connection in enumerate(held):
            connection.sendall(LOOKUP[: 1 + number % (len(LOOKUP) - 1)])
        time.sleep(self.seconds)
        for connection in held:
            connection.close()

    def slow_peers(self) -> None:
        """One byte a second."""
        held = self.seated()
        # Each peer has sent its frame but for these bytes already.
        left = min(len(LOOKUP), self.seconds)
        for connection in held:
            connection.sendall(LOOKUP[: len(LOOKUP) - left])
        for byte in LOOKUP[len(LOOKUP) - left :]:
            for connection in held:
                connection.sendall(bytes([byte]))
            time.sleep(1)
        for connection in held:
            if read_all(connection, 5)[4:] != b"\x82":
                self.faults.append("a slow peer got no reply")
            connection.close()

    def many_connections(self) -> None:
        """Many connections at one time."""
        poll = select.epoll()
        held, turned, lost, served = {}, 0, 0, set()
        for _ in range(self.connections):
            connection = socket.socket()
            connection.setblocking(False)
            connection.connect_ex(("127.0.0.1", self.server.port))
            held[connection.fileno()] = connection
            poll.register(connection.fileno(), select.EPOLLOUT)
        until = time.monotonic() + 120
        while turned + lost + len(served) < self.connections and time.monotonic() < until:
            for descriptor, event in poll.poll(0.5):
                connection = held[descriptor]
                data = b""
                try:
                    if event & select.EPOLLOUT and not event & select.EPOLLIN:
                        # A request, so that the system finds out where it has dropped the
                        # connection.
                        connection.send(NOTHING)
                        poll.modify(descriptor, select.EPOLLIN)
                        continue
                    data = connection.recv(64)
                except OSError:
                    pass
                if data == FOUND_NOTHING:
                    served.add(descriptor)
                    poll.unregister(descriptor)
                    continue
                turned += data == TURNED_AWAY
                lost += data != TURNED_AWAY
                poll.unregister(descriptor)
                held.pop(descriptor).close()
        print(f"    {self.connections} connections: {turned} turned away, {len(served)} sessions, {lost} reset before a reply")
        unanswered = self.connections - turned - lost - len(served)
        if unanswered or len(served) > MOST_SESSIONS - 1:
            self.faults.append(f"of {self.connections} connections {unanswered} had no answer, and {len(served)} a session")
        for connection in held.values():
            connection.close()
        poll.close()

    def resets(self) -> None:
        """Resets in the middle of replies, and of requests."""
        count, until = 0, time.monotonic() + self.seconds
        while time.monotonic() < until:
            connection = self.server.connect()
            connection.setsockopt(socket.SOL_SOCKET, socket.SO_LINGER, struct.pack("ii", 1, 0))
            try:
                connection.sendall(LOOKUP * (1 + count % 50) + LOOKUP[: count % 20])
                if count % 3:
                    connection.recv(1 + count % 7000)
            except OSError:
                pass
            connection.close()
            count += 1
        print(f"    {count} resets")

    def deaf_peers(self) -> None:
        """Peers that never read the greatest replies."""
        with self.seated(1)[0] as connection:
            for first in range(0, 64, 8):
                connection.sendall(registration(runs.LEAVES[2], first, 8, 16_370))
                reply = read_all(connection, 5)
                if reply[4:] != b"\x81" or len(read_all(connection, 24)) != 24:
                    self.faults.append(f"a large registration is answered by {reply.hex()}")
            connection.sendall(LARGE_LOOKUP)
            size = int.from_bytes(read_all(connection, 4), "big")
            print(f"    replies of {size + 4} bytes")
            if len(read_all(connection, size)) != size:
                self.faults.append("a large reply is cut short")
        held = self.seated()
        for connection in held:
            connection.setsockopt(socket.SOL_SOCKET, socket.SO_RCVBUF, 4096)
            connection.sendall(LARGE_LOOKUP * 100)
        time.sleep(self.seconds)
        for connection in held:
            connection.close()

    def greatest_frames(self) -> None:
        """Frames of the greatest size, held back before their last byte, and sent all at one time."""
        held = []
        for number, connection in enumerate(self.seated()):
            frame = registration(runs.LEAVES[0], 1000 + 16 * number, 16, 8_180)
            connection.sendall(frame[:-1])
            held.append((connection, frame))
        print(f"    frames of {len(held[0][1])} bytes")
        time.sleep(1)
        for connection, frame in held:
            connection.sendall(frame[-1:])
        codes = [read_all(connection, 6)[4:] for connection, _ in held]
        # A frame whose length is the greatest, and whose content is none.
        for connection, _ in held:
            connection.close()
        if any(code[:1] != b"\x81" for code in codes):
            self.faults.append(f"the greatest frames were answered by {sorted({code.hex() for code in codes})}")
        garbage = struct.pack(">IB", 131_073, 1) + bytes([0x0A]) * 131_072
        held = [(connection, garbage) for connection in self.seated()]
        for connection, frame in held:
            connection.sendall(frame)
        for connection, _ in held:
            if read_all(connection, 5)[4:] != b"\xff":
                self.faults.append("a frame of the greatest size without a message isn't refused")
            connection.close()

    def watchers(self) -> None:
        """Peers of the second listener."""
        before = page(self.server)
        held = [watcher(self.server, request) for request in (b"", b"GET /met", b"GET /metrics HTTP/1.1\r\nHost:")]
        for count in range(200):
            connection = watcher(self.server, b"GET /metrics HTTP/1.1\r\n\r\n"[: count % 27])
            connection.setsockopt(socket.SOL_SOCKET, socket.SO_LINGER, struct.pack("ii", 1, 0))
            connection.close()
        refused = [watcher(self.server, request) for request in (bytes(100), b"a" * 10_000, b"GET " + b"/" * 5_000)]
        begun = time.monotonic()
        after = page(self.server)
        print(f"    a page after {time.monotonic() - begun:.1f} seconds, beside {len(held)} peers that end no request")
        for connection in held:
            if read_all(connection, 1):
                self.faults.append("a peer that ended no request is answered")
            connection.close()
        for connection in refused:
            if not read_all(connection, 32).startswith(b"HTTP/1.1 400 "):
                self.faults.append("what is no request isn't answered by 400")
            connection.close()
        for text in (before, after):
            if not text.startswith("HTTP/1.1 200 OK\r\n") or "\npathd_stopped 0\n" not in text:
                self.faults.append(f"the page is {text[:200]!r}")
        if before.partition("\npathd_replies_total")[2] == after.partition("\npathd_replies_total")[2]:
            self.faults.append("the page doesn't count the replies of the session beside it")


def short_of_descriptors(program: str, folder: Path) -> list[str]:
    """A server that may open 40 files."""
    faults = []
    runs.format_store(program, folder / "few", model.Layout(64, 516))
    with runs.Server(program, folder / "few", limits="ulimit -n 40") as server:
        held = [server.connect(3) for _ in range(60)]
        for connection in held:
            connection.sendall(LOOKUP)
        served = [connection for connection in held if select.select([connection], [], [], 0.5)[0]]
        waiting = [connection for connection in held if connection not in served]
        print(f"  of 60 connections {len(served)} are served where 40 files may be open", flush=True)
        if not 20 <= len(served) < 40:
            faults.append(f"{len(served)} of 60 connections are served with 40 descriptors")
        for connection in served:
            connection.close()
        for connection in waiting:
            connection.settimeout(10)
            try:
                if connection.recv(5)[4:5] != b"\x82":
                    faults.append("a connection that waited for a descriptor isn't served")
            except OSError as fault:
                faults.append(f"a connection that waited for a descriptor isn't served: {fault}")
            connection.close()
        if server.process.poll() is not None:
            faults.append("the server ended")
    return faults


def allow_descriptors(needed: int) -> None:
    """Lets this process, and those that it starts, have so many descriptors; ends the tool where it may not."""
    soft, hard = resource.getrlimit(resource.RLIMIT_NOFILE)
    if hard != resource.RLIM_INFINITY and hard < needed:
        raise SystemExit(f"{needed} descriptors are needed, and {hard} may be had: raise `ulimit -Hn`, or take fewer --connections")
    resource.setrlimit(resource.RLIMIT_NOFILE, (max(soft, needed), hard))


def main(words: list[str]) -> int:
    """Attacks, and prints what was measured."""
    options, program = runs.begin(__doc__, words, connections=10_000, seconds=21)
    allow_descriptors(options.connections + 100)
    faults: list[str] = []
    with runs.scratch() as folder:
        runs.format_store(program, folder / "store", LAYOUT)
        with runs.Server(program, folder / "store", ["--idle", "60", "--status", "127.0.0.1:0"]) as server:
            witness = Witness(server)
            witness.start()
            attack = Attack(server, witness, options.connections, options.seconds)
            print(f"  at first: VmRSS {server.status('VmRSS')} KiB", flush=True)
            for name in ("half_frames", "slow_peers", "many_connections", "resets", "watchers", "greatest_frames", "deaf_peers"):
                witness.take()
                getattr(attack, name)()
                sys.stdout.flush()
                replies, latest = witness.take()
                peak, resident = server.status("VmHWM"), server.status("VmRSS")
                words = f"the session beside it had {replies} replies, the latest after {latest * 1000:.0f} ms; VmHWM {peak} KiB, VmRSS {resident} KiB"
                print(f"  {name.replace('_', ' ')}: {words}", flush=True)
                if peak > BOUND:
                    faults.append(f"{name}: the server's memory is above {BOUND} KiB")
                attack.check_seats()
            witness.ended.set()
            witness.join()
            faults += attack.faults + witness.faults
            if server.process.poll() is not None:
                faults.append("the server ended")
        faults += short_of_descriptors(program, folder)
    return runs.end(options, f"{len(faults)} faults, the bound is {BOUND} KiB", faults)
