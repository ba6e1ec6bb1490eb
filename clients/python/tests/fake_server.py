"""A server in a thread, which does with each connection what a test says."""
from __future__ import annotations

import socket
import struct
import threading
import time
from collections.abc import Callable
from types import TracebackType

LENGTH = struct.Struct(">I")

# How long a test waits at most for what has to come, in seconds, and the bound of a call that ends by
# its bound. A machine that does other work may take most of the second for a connection and a reply.
PATIENCE = 60.0
BOUND = 4.0


def framed(content: bytes) -> bytes:
    """The frame of a content."""
    return LENGTH.pack(len(content)) + content


def ack(place: int, kind: int = 0x81, inserted: int = 0) -> bytes:
    """The content of an acknowledgement."""
    return struct.pack(">BQIIII", kind, place, inserted, 0, 0, 0)


def refusal(code: int) -> bytes:
    """The content of a refusal."""
    return bytes([0xFF, code])


class Peer:
    """The server's side of a connection."""

    def __init__(self, connection: socket.socket) -> None:
        self._connection = connection
        self._stream = connection.makefile("rb")
        self.requests: list[bytes] = []

    def read(self) -> bytes:
        """The content of the next request; no bytes at the end."""
        head = self._stream.read(LENGTH.size)
        if len(head) < LENGTH.size:
            return b""
        content = self._stream.read(*LENGTH.unpack(head))
        self.requests.append(content)
        return content

    def read_all(self, pause: float) -> None:
        """Reads requests until none has come for this number of seconds."""
        self._connection.settimeout(pause)
        received = bytearray()
        try:
            while piece := self._connection.recv(1 << 16):
                received += piece
        except TimeoutError:
            pass
        self._connection.settimeout(PATIENCE)
        while received:
            (length,) = LENGTH.unpack_from(received)
            self.requests.append(bytes(received[LENGTH.size : LENGTH.size + length]))
            del received[: LENGTH.size + length]

    def send(self, *contents: bytes) -> None:
        """Sends the frames of these contents."""
        self._connection.sendall(b"".join(map(framed, contents)))

    def send_bytes(self, data: bytes) -> None:
        """Sends bytes that need not be a frame."""
        self._connection.sendall(data)

    def wait_for_end(self) -> None:
        """Waits until the client has closed the connection."""
        while self.read():
            pass

    def reset(self) -> None:
        """Has the close that follows reset the connection."""
        linger = struct.pack("ii", 1, 0)
        self._connection.setsockopt(socket.SOL_SOCKET, socket.SO_LINGER, linger)

    def close(self) -> None:
        """Closes the connection."""
        self._stream.close()
        self._connection.close()


Script = Callable[[Peer], None]


def answers(*contents: bytes) -> Script:
    """Reads a request and sends a reply, once for each of these contents, and closes."""

    def script(peer: Peer) -> None:
        for content in contents:
            peer.read()
            peer.send(content)

    return script


def turns_away(peer: Peer) -> None:
    """Does as a server does that has 64 sessions."""
    peer.send(refusal(0x61))


def closes(peer: Peer) -> None:
    """Reads one request and closes."""
    peer.read()


def resets(peer: Peer) -> None:
    """Reads one request and resets the connection."""
    peer.read()
    peer.reset()


class FakeServer:
    """Accepts one connection for each script, one after the other, and lets the script have it.

    `buffer` is the size of the system's buffers, in bytes. The server listens `late` seconds after
    it was started; before that connections are refused.
    """

    def __init__(self, *scripts: Script, buffer: int | None = None, late: float = 0.0) -> None:
        self._scripts = scripts
        self._listener = socket.socket()
        if buffer is not None:
            self._listener.setsockopt(socket.SOL_SOCKET, socket.SO_RCVBUF, buffer)
            self._listener.setsockopt(socket.SOL_SOCKET, socket.SO_SNDBUF, buffer)
        self._listener.bind(("127.0.0.1", 0))
        self._listener.settimeout(PATIENCE)
        self._late = late
        if not late:
            self._listener.listen()
        self._thread = threading.Thread(target=self._serve, daemon=True)
        self._fault: Exception | None = None
        self._closed = threading.Semaphore(0)
        # The requests of each connection, as the contents of their frames.
        self.requests: list[list[bytes]] = []

    @property
    def address(self) -> tuple[str, int]:
        """Host and port."""
        host, port = self._listener.getsockname()
        return host, port

    def __enter__(self) -> FakeServer:
        self._thread.start()
        return self

    def __exit__(
        self, kind: type[BaseException] | None, _fault: BaseException | None,
        _trace: TracebackType | None,
    ) -> None:
        self._thread.join(PATIENCE)
        self._listener.close()
        if kind is None and self._fault is not None:
            raise self._fault
        if kind is None and self._thread.is_alive():
            raise TimeoutError("the server's scripts are not done")

    def wait_for_close(self) -> None:
        """Waits until the server has closed one more connection."""
        if not self._closed.acquire(timeout=PATIENCE):
            raise TimeoutError("the server has closed no connection")

    def _serve(self) -> None:
        try:
            if self._late:
                time.sleep(self._late)
                self._listener.listen()
            for script in self._scripts:
                connection, _ = self._listener.accept()
                connection.settimeout(PATIENCE)
                peer = Peer(connection)
                self.requests.append(peer.requests)
                try:
                    script(peer)
                finally:
                    peer.close()
                    self._closed.release()
        except Exception as fault:
            self._fault = fault
