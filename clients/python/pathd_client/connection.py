"""A connection to a server."""
from __future__ import annotations

import contextlib
import selectors
import socket
from collections.abc import Iterator
from selectors import EVENT_READ, EVENT_WRITE

from .codes import Code
from .errors import ConnectionEnded, TurnedAway
from .frames import REFUSED, FrameBuffer

# The most bytes of one call of the system.
PIECE = 1 << 18

# The frame that a server without a seat sends before it closes a connection.
NO_SEAT = bytes([REFUSED, Code.NO_SEAT])


class Connection:
    """A connection to a server, whose bytes go both ways at the same time.

    Replies are read while requests are still being sent. So neither side waits for ever for the
    other to read, however many bytes are under way.
    """

    def __init__(self, connected: socket.socket) -> None:
        self._socket = connected
        self._socket.setsockopt(socket.IPPROTO_TCP, socket.TCP_NODELAY, 1)
        self._socket.setblocking(False)
        self._selector = selectors.DefaultSelector()
        self._selector.register(self._socket, EVENT_READ)
        self._unsent = bytearray()
        self._sent = 0
        self._received = FrameBuffer()
        self._is_new = True

    @classmethod
    def open(cls, host: str, port: int, timeout: float) -> Connection:
        """The connection with a server, which may take a number of seconds to be made."""
        return cls(socket.create_connection((host, port), timeout))

    def close(self) -> None:
        """Closes the connection. Bytes that were not sent are dropped."""
        self._selector.close()
        self._socket.close()

    def interrupt(self) -> None:
        """Ends the connection, from any thread: the thread that waits for it finds its end."""
        with contextlib.suppress(OSError):
            self._socket.shutdown(socket.SHUT_RDWR)

    @property
    def sent(self) -> int:
        """How many bytes were passed to the system."""
        return self._sent

    def queue(self, data: bytes) -> int:
        """Has bytes sent by the next transfers. Answers the value of `sent` once they are."""
        self._unsent += data
        return self._sent + len(self._unsent)

    def has_ended(self) -> bool:
        """Whether the server has closed the connection, and all that it sent was received."""
        try:
            return not self._socket.recv(1, socket.MSG_PEEK)
        except BlockingIOError:
            return False
        except OSError:
            return True

    def transfer(self, timeout: float) -> None:
        """Waits until bytes can be sent or received, and sends and receives once.

        TimeoutError where neither can be done in this number of seconds, and ConnectionEnded at the
        connection's end.
        """
        self._selector.modify(self._socket, self._events())
        ready = self._selector.select(max(timeout, 0.0))
        if not ready:
            raise TimeoutError
        ((_, mask),) = ready
        self._act(mask)

    def contents(self) -> Iterator[bytes]:
        """The contents of the whole frames that were received, each once.

        TurnedAway where the first frame of the connection says that the server has no seat.
        """
        while (content := self._received.take()) is not None:
            if self._is_new and content == NO_SEAT:
                raise TurnedAway(Code.NO_SEAT.meaning)
            self._is_new = False
            yield content

    def _events(self) -> int:
        """What a transfer waits for."""
        return EVENT_READ | EVENT_WRITE if self._unsent else EVENT_READ

    def _act(self, ready: int) -> None:
        """Sends and receives once, as far as the socket is ready."""
        if ready & EVENT_WRITE:
            self._send()
        if ready & EVENT_READ:
            self._receive()

    def _send(self) -> None:
        try:
            count = self._socket.send(self._unsent[:PIECE])
        except BlockingIOError:
            return
        except OSError:
            # The server has ended the connection. What it sent before can still be received; the
            # end is found after that.
            self._unsent.clear()
            return
        del self._unsent[:count]
        self._sent += count

    def _receive(self) -> None:
        try:
            data = self._socket.recv(PIECE)
        except BlockingIOError:
            return
        except OSError as fault:
            raise ConnectionEnded(f"the connection broke: {fault}") from fault
        if not data:
            raise self._received.end()
        self._received.feed(data)
