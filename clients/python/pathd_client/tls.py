"""A connection over TLS, with a proxy that ends TLS before a server."""
from __future__ import annotations

import socket
import ssl
from selectors import EVENT_READ, EVENT_WRITE

from .connection import PIECE, Connection
from .errors import ConnectionEnded


class TlsConnection(Connection):
    """A connection whose bytes are those of TLS."""

    _socket: ssl.SSLSocket

    def __init__(
        self, host: str, port: int, timeout: float, context: ssl.SSLContext, name: str
    ) -> None:
        connected = socket.create_connection((host, port), timeout)
        try:
            secured = context.wrap_socket(connected, server_hostname=name)
        except BaseException:
            connected.close()
            raise
        super().__init__(secured)
        # What the last call on the socket waits for, where that is not what it is about.
        self._waits_for = 0

    def has_ended(self) -> bool:
        """Whether the server has closed the connection, and all that it sent was received."""
        try:
            self._receive()
        except ConnectionEnded:
            return True
        return False

    def _events(self) -> int:
        return self._waits_for or super()._events()

    def _act(self, ready: int) -> None:
        """Sends and receives, whichever of the two the socket is ready for: either may need the
        other."""
        self._waits_for = 0
        if self._unsent:
            self._send()
        self._receive()

    def _send(self) -> None:
        try:
            count = self._socket.send(self._unsent[:PIECE])
        except ssl.SSLWantReadError:
            self._waits_for = EVENT_READ
            return
        except ssl.SSLWantWriteError:
            return
        except OSError:
            self._unsent.clear()
            return
        del self._unsent[:count]
        self._sent += count

    def _receive(self) -> None:
        try:
            # A call answers what one record has, at most.
            while data := self._socket.recv(PIECE):
                self._received.feed(data)
        except ssl.SSLWantReadError:
            return
        except ssl.SSLWantWriteError:
            self._waits_for = EVENT_WRITE
            return
        except OSError as fault:
            raise ConnectionEnded(f"the connection broke: {fault}") from fault
        raise self._received.end()
