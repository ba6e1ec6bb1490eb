"""A server that answers any number of sessions, and is stopped and started again at its port."""
from __future__ import annotations

import contextlib
import socket
import threading
from collections.abc import Callable, Sequence

from pathd_client import Address, Register, Row, segment_id

from .fake_server import PATIENCE, Peer, ack, refusal

LOOKUP = 2
LIST = 5

Answer = Callable[[bytes], bytes | None]


def acknowledges(content: bytes, place: int = 0) -> bytes:
    """Finds nothing, and acknowledges each command with this place."""
    if content[0] == LIST:
        return b"\x85\x00"
    return b"\x82" if content[0] == LOOKUP else ack(place, 0x80 | content[0])


def is_silent(_content: bytes) -> None:
    """Answers nothing."""


def refuses(code: int) -> Answer:
    """Refuses each request by a code."""
    return lambda _content: refusal(code)


def lists(rows: Sequence[Row], size: int) -> Answer:
    """Answers each list with pages of so many of these rows, which are in the order of their
    keys."""

    def answer(content: bytes) -> bytes:
        after = content[18:]
        of_type = [row for row in rows if row[0] == content[1]]
        left = [row for row in of_type if segment_id(row[1]) > after]
        return bytes([0x80 | LIST, len(left) > size]) + Register(left[:size]).body()

    return answer


def counts(place: int) -> Answer:
    """Finds nothing, and acknowledges each command with this place."""
    return lambda content: acknowledges(content, place)


class FakeStore:
    """Answers each request by a function of its content, or not at all where that answers None.

    It is a context, which starts it where `is_up` says so, and stops it.
    """

    def __init__(self, answer: Answer = acknowledges, *, is_up: bool = True) -> None:
        self.answer = answer
        self._is_up = is_up
        self._changed = threading.Condition()
        self._connections: list[socket.socket] = []
        # The contents of the commands that came, in order, and how many lookups and lists came.
        self.commands: list[bytes] = []
        self.lookups = 0
        self._listener = self._bound(0)
        self.address = Address(*self._listener.getsockname())

    def __enter__(self) -> FakeStore:
        if self._is_up:
            self.start()
        return self

    def __exit__(self, *_ended: object) -> None:
        self.stop()

    def start(self) -> None:
        """Listens, at the port that it had before."""
        if self._listener.fileno() < 0:
            self._listener = self._bound(self.address.port)
        self._listener.listen()
        threading.Thread(target=self._accept, args=(self._listener,), daemon=True).start()

    def stop(self) -> None:
        """Refuses connections, and ends those that are open."""
        with contextlib.suppress(OSError):
            self._listener.shutdown(socket.SHUT_RDWR)
        self._listener.close()
        with self._changed:
            for connection in self._connections:
                with contextlib.suppress(OSError):
                    connection.shutdown(socket.SHUT_RDWR)
            self._connections.clear()

    def wait_for(self, count: int) -> None:
        """Waits until this number of commands has come in all."""
        with self._changed:
            if not self._changed.wait_for(lambda: len(self.commands) >= count, PATIENCE):
                raise TimeoutError(f"{len(self.commands)} of {count} commands have come")

    @staticmethod
    def _bound(port: int) -> socket.socket:
        listener = socket.socket()
        listener.setsockopt(socket.SOL_SOCKET, socket.SO_REUSEADDR, 1)
        listener.bind(("127.0.0.1", port))
        return listener

    def _accept(self, listener: socket.socket) -> None:
        with contextlib.suppress(OSError):
            while True:
                connection, _ = listener.accept()
                connection.settimeout(PATIENCE)
                with self._changed:
                    self._connections.append(connection)
                threading.Thread(target=self._serve, args=(connection,), daemon=True).start()

    def _serve(self, connection: socket.socket) -> None:
        peer = Peer(connection)
        with contextlib.suppress(OSError):
            while content := peer.read():
                self._note(content)
                reply = self.answer(content)
                if reply is not None:
                    peer.send(reply)
        peer.close()

    def _note(self, content: bytes) -> None:
        with self._changed:
            if content[0] in (LOOKUP, LIST):
                self.lookups += 1
            else:
                self.commands.append(content)
            self._changed.notify_all()
