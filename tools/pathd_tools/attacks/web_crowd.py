"""Many connections of hostile peers at one time, each of which sends its bytes and keeps what comes."""
from __future__ import annotations

import select
import socket
import struct
import time
from collections.abc import Callable, Iterable, Iterator
from contextlib import suppress

from pathd_tools.attacks import web_frames as web

# Peers have another address than the clients that have to be served.
HOSTILE, SERVED = "127.0.0.2", "127.0.0.1"
# After how many seconds without a byte a peer ends its output, and how many more a connection has then
# to be closed, which are more than any limit of docs/GATEWAY.md ('Bounds').
QUIET, LONGEST = 0.2, 90.0
# The bytes of an answer that are kept, and the system's IP_BIND_ADDRESS_NO_PORT.
MOST_KEPT, NO_PORT = 1 << 20, 24


class Peer:
    """A connection, of whose content some bytes are offered at first: what came, and how it was closed."""

    def __init__(self, port: int, content: bytes = b"", name: str = "", offered: int | None = None, room: int = 0) -> None:
        self.name, self.content = name, content
        self.offered = len(content) if offered is None else offered
        self.sent, self.came, self.closed, self.has_ended = 0, b"", "", False
        self.moved = time.monotonic()
        self.socket = socket.socket()
        self.socket.setblocking(False)
        self.socket.setsockopt(socket.IPPROTO_TCP, socket.TCP_NODELAY, 1)
        self.socket.setsockopt(socket.IPPROTO_IP, NO_PORT, 1)
        if room:
            self.socket.setsockopt(socket.SOL_SOCKET, socket.SO_RCVBUF, room)
        self.socket.bind((HOSTILE, 0))
        self.socket.connect_ex((SERVED, port))

    def write(self) -> None:
        """Sends as much as there is room for."""
        try:
            self.sent += self.socket.send(memoryview(self.content)[self.sent : min(self.offered, self.sent + (1 << 18))])
            self.moved = time.monotonic()
        except BlockingIOError:
            pass
        except OSError:
            # The reason may be among the bytes that came.
            self.offered = self.sent

    def read(self) -> None:
        """Receives what there is."""
        try:
            piece = self.socket.recv(1 << 17)
            self.closed = "" if piece else "closed"
            self.came += piece[: MOST_KEPT - len(self.came)]
            self.moved = time.monotonic()
        except BlockingIOError:
            pass
        except OSError:
            self.closed = "reset"

    def end_output(self) -> None:
        """Says that nothing more comes."""
        self.has_ended, self.offered = True, self.sent
        with suppress(OSError):
            self.socket.shutdown(socket.SHUT_WR)

    def outcome(self, may_be_cut: bool) -> str:
        """How the connection was answered, or that it was closed without an answer; ValueError says what isn't well-formed."""
        if not self.closed:
            raise ValueError("neither answered nor closed")
        if not self.came:
            return "closed"
        if not self.came.startswith(b"HTTP/"):
            return web.last_of(self.came)
        try:
            return f"{web.statuses_of(self.came, self.content.startswith(b'HEAD '))[-1] // 100}xx"
        except EOFError as fault:
            if not may_be_cut and self.closed != "reset" and len(self.came) < MOST_KEPT:
                raise ValueError(str(fault)) from fault
            return "cut"


class Crowd:
    """Peers that are open at one time."""

    def __init__(self, is_reading: bool = True) -> None:
        self.poll = select.epoll()
        self.open: dict[int, Peer] = {}
        self.is_reading = is_reading

    def add(self, peer: Peer) -> None:
        """Adds a peer, which sends at once what it can, as some are soon closed that are silent."""
        self.open[peer.socket.fileno()] = peer
        self.poll.register(peer.socket.fileno(), select.EPOLLIN | select.EPOLLOUT)
        if peer.offered:
            peer.write()

    def remove(self, peer: Peer, is_reset: bool = False) -> Peer:
        """Takes a peer out, and closes its connection, by a reset where that is said."""
        self.poll.unregister(peer.socket.fileno())
        del self.open[peer.socket.fileno()]
        if is_reset:
            peer.socket.setsockopt(socket.SOL_SOCKET, socket.SO_LINGER, struct.pack("ii", 1, 0))
        peer.socket.close()
        return peer

    def watch(self, peer: Peer) -> None:
        """Has the next step look for what a peer waits for."""
        awaited = (select.EPOLLIN if self.is_reading else 0) | (select.EPOLLOUT if peer.sent < peer.offered else 0)
        self.poll.modify(peer.socket.fileno(), awaited)

    def step(self) -> Iterator[Peer]:
        """Lets those send and receive that can, and answers those that were closed."""
        for descriptor, event in self.poll.poll(0.02):
            peer = self.open[descriptor]
            if event & select.EPOLLOUT:
                peer.write()
            if event & (select.EPOLLIN | select.EPOLLHUP | select.EPOLLERR):
                peer.read()
            if peer.closed:
                yield self.remove(peer)
            else:
                self.watch(peer)

    def hold(self, seconds: float, each: Callable[[Peer], None] = lambda _: None) -> list[Peer]:
        """Goes on for so long, or until all are closed, and answers those that were. `each` gets each peer once a second."""
        closed: list[Peer] = []
        until = time.monotonic() + seconds
        later = until - seconds + 1
        while self.open and time.monotonic() < until:
            closed += self.step()
            if time.monotonic() >= later:
                later += 1
                for peer in self.open.values():
                    each(peer)
                    self.watch(peer)
        return closed

    def through(self, peers: Iterable[Peer] = (), width: int = 1) -> Iterator[Peer]:
        """Has these peers come, with this many open at one time, and answers each of all once it is closed, or later than it has to
        be. Peers read what comes, and end their output once nothing does."""
        coming, self.is_reading = iter(peers), True
        for peer in self.open.values():
            self.watch(peer)
            peer.moved = time.monotonic()
        is_more = True
        while is_more or self.open:
            while is_more and len(self.open) < width:
                peer = next(coming, None)
                is_more = peer is not None
                if peer is not None:
                    self.add(peer)
            yield from self.step()
            now = time.monotonic()
            for peer in list(self.open.values()):
                if peer.has_ended and now > peer.moved + LONGEST:
                    yield self.remove(peer)
                elif not peer.has_ended and now > peer.moved + QUIET:
                    peer.end_output()
