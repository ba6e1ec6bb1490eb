"""A session with a server over TCP, and one with a child process."""
from __future__ import annotations

import io
import ssl
import subprocess
import time
from collections.abc import Iterable, Sequence
from dataclasses import dataclass
from typing import ClassVar

from .addresses import Address
from .calls import Calls
from .connection import Connection
from .deadlines import Deadline
from .errors import (
    ConnectionEnded, FrameError, OutcomeUnknown, ReplyTimeout, SessionError, TurnedAway, Unanswered,
)
from .frames import frame, read_frames
from .replies import Refused, Reply, read_reply
from .requests import List, Request
from .retries import DEFAULT_RETRY, Retry
from .tls import TlsConnection

# How long a connection may take at least, in seconds.
LEAST_TIMEOUT = 0.001


@dataclass
class Asked:
    """A request of a call, its frame, and its reply once there is one."""

    request: Request
    frame: bytes
    reply: Reply | None = None
    # What `Connection.sent` is once the frame was passed to the system.
    end: int = 0

    @property
    def is_refused_for_now(self) -> bool:
        """Whether it was refused by a code after which it may be asked again."""
        return isinstance(self.reply, Refused) and self.reply.is_passing


class Queue:
    """Requests in their order, which are answered in this order.

    Those before `answered` have replies, those from there to `queued` are under way, and the others
    are still to be sent. What is under way is bounded by a number of requests and by a number of
    bytes; one request alone may have more bytes.
    """

    def __init__(self, asked: Sequence[Asked], most: int, most_bytes: int) -> None:
        self._asked = asked
        self._most = most
        self._most_bytes = most_bytes
        self._queued = 0
        self._bytes = 0
        self.answered = 0

    def is_done(self) -> bool:
        """Whether each request has its reply."""
        return self.answered == len(self._asked)

    def under_way(self) -> Sequence[Asked]:
        """The requests that were queued and have no reply."""
        return self._asked[self.answered : self._queued]

    def begin_again(self) -> None:
        """Has the requests without a reply sent again, on a new connection."""
        self._queued = self.answered
        self._bytes = 0

    def fill(self, connection: Connection) -> None:
        """Queues the next requests on a connection, as many as the bounds allow."""
        while self._queued < len(self._asked) and self._has_room():
            asked = self._asked[self._queued]
            asked.end = connection.queue(asked.frame)
            self._queued += 1
            self._bytes += len(asked.frame)

    def answer(self, content: bytes) -> None:
        """Gives the first request under way the reply that is the content of a frame."""
        if self.answered == self._queued:
            raise FrameError("a reply to no request")
        asked = self._asked[self.answered]
        asked.reply = read_reply(asked.request, content)
        self._bytes -= len(asked.frame)
        self.answered += 1

    def _has_room(self) -> bool:
        count = self._queued - self.answered
        after = self._bytes + len(self._asked[self._queued].frame)
        return count == 0 or (count < self._most and after <= self._most_bytes)


class Session(Calls):
    """A session with a server over TCP, as a context: the connection is closed at its end.

    `tls` has it over TLS, with a proxy that ends TLS before a server. Its certificate has to be one
    of `server_name`, which is the host if left out.

    `connect_timeout` is how long a connection may take to be made, and `reply_timeout` how long the
    server may take for a reply after the one before it, both in seconds. `retry` bounds how often a
    request is tried, and has the pauses between; README.md says what is tried again.

    A session connects with its first request, and again where its connection has ended. It is for
    one thread at a time.
    """

    # How many requests and how many bytes of them `pipeline` has under way at most.
    WINDOW: ClassVar[int] = 64
    WINDOW_BYTES: ClassVar[int] = 1 << 20

    def __init__(
        self,
        host: str,
        port: int,
        *,
        connect_timeout: float = 5.0,
        reply_timeout: float = 30.0,
        retry: Retry = DEFAULT_RETRY,
        tls: ssl.SSLContext | None = None,
        server_name: str | None = None,
    ) -> None:
        self._address = Address(host, port)
        self._tls = tls
        self._server_name = host if server_name is None else server_name
        self._connect_timeout = connect_timeout
        self._reply_timeout = reply_timeout
        self._retry = retry
        self._connection: Connection | None = None
        # Of the call that is under way.
        self._deadline = Deadline()

    def __enter__(self) -> Session:
        return self

    def __exit__(self, *_ended: object) -> None:
        self.close()

    def close(self) -> None:
        """Closes the connection. A later request makes a new one."""
        if self._connection is not None:
            self._connection.close()
            self._connection = None

    def interrupt(self) -> None:
        """Ends the connection, from any thread: a call that waits for a reply is a
        ConnectionEnded."""
        connection = self._connection
        if connection is not None:
            connection.interrupt()

    def ask(self, request: Request, *, within: float | None = None) -> Reply:
        """Sends a request, and waits for its reply.

        SessionError where there is none. ValueError where the request has too many bytes; then
        nothing is sent. `within` bounds the whole call, in seconds.
        """
        return self.pipeline([request], within=within)[0]

    def pipeline(
        self, requests: Iterable[Request], *, within: float | None = None
    ) -> list[Reply]:
        """Sends requests without waiting for the replies between them, and answers the replies in
        the order of the requests.

        SessionError where a request has no reply; its `replies` are those that came. ValueError
        where a request has too many bytes; then nothing is sent. `within` bounds the whole call, in
        seconds: the connection, the replies and the pauses before other attempts.
        """
        self._deadline = Deadline.after(within)
        asked = [Asked(request, frame(request)) for request in requests]
        try:
            self._answer(asked)
            if len({type(entry.request) for entry in asked}) == 1:
                self._ask_refused_again(asked)
        except SessionError as fault:
            fault.replies = [entry.reply for entry in asked]
            raise
        return [entry.reply for entry in asked if entry.reply is not None]

    def _ask_refused_again(self, asked: Sequence[Asked]) -> None:
        """Asks those again that were refused by a passing code. This changes their order, which
        makes no difference where they are all of one kind."""
        for pause in self._retry.pauses():
            asked = [entry for entry in asked if entry.is_refused_for_now]
            if not asked or pause >= self._deadline.left():
                return
            time.sleep(pause)
            self._answer(asked)

    def _answer(self, asked: Sequence[Asked]) -> None:
        """Has each request answered, in their order. Where a connection ends, the requests without
        a reply are sent again on a new one. The attempts are counted from the last reply on."""
        queue = Queue(asked, self.WINDOW, self.WINDOW_BYTES)
        pauses = self._retry.pauses()
        while not queue.is_done():
            before = queue.answered
            try:
                self._exchange(queue)
            except ConnectionEnded:
                if queue.answered > before:
                    pauses = self._retry.pauses()
                pause = next(pauses, None)
                if pause is None or pause >= self._deadline.left():
                    raise
                queue.begin_again()
                time.sleep(pause)

    def _exchange(self, queue: Queue) -> None:
        """Has requests answered over one connection, which is closed where that fails: replies that
        are still to come must not be taken for those to later requests."""
        connection = self._connected()
        try:
            self._exchange_over(connection, queue)
        except TurnedAway:
            self.close()
            raise
        except ConnectionEnded as ended:
            self.close()
            check_repeatable(queue.under_way(), connection.sent, ended)
            raise
        except BaseException:
            self.close()
            raise

    def _connected(self) -> Connection:
        """The open connection, or a new one where there is none or the server has ended it."""
        if self._connection is not None and self._connection.has_ended():
            self.close()
        if self._connection is None:
            # A socket without any time to connect would not wait at all.
            timeout = max(min(self._connect_timeout, self._deadline.left()), LEAST_TIMEOUT)
            try:
                self._connection = self._opened(timeout)
            except (OSError, UnicodeError) as fault:
                raise ConnectionEnded(f"no connection with {self._address}: {fault}") from fault
        return self._connection

    def _opened(self, timeout: float) -> Connection:
        if self._tls is None:
            return Connection.open(*self._address, timeout)
        return TlsConnection(*self._address, timeout, self._tls, self._server_name)

    def _exchange_over(self, connection: Connection, queue: Queue) -> None:
        reply = Deadline.after(self._reply_timeout)
        while not queue.is_done():
            queue.fill(connection)
            try:
                connection.transfer(min(reply.left(), self._deadline.left()))
            except TimeoutError as fault:
                raise ReplyTimeout(f"{self._address}: no reply in time") from fault
            except ConnectionEnded as fault:
                self._answer_from(connection, queue)
                if queue.is_done():
                    return
                said = end_text(fault, queue.under_way()[0].request)
                raise type(fault)(f"{self._address}: {said}") from fault
            if self._answer_from(connection, queue):
                reply = Deadline.after(self._reply_timeout)

    def _answer_from(self, connection: Connection, queue: Queue) -> bool:
        """Gives requests the replies that have come. Answers whether there was one."""
        before = queue.answered
        try:
            for content in connection.contents():
                queue.answer(content)
        except TurnedAway as fault:
            raise TurnedAway(f"{self._address}: {fault}") from fault
        return queue.answered > before


def end_text(ended: SessionError, request: Request) -> str:
    """What is said of a request that has no reply. A server without lists ends the connection where
    the reply to one would begin."""
    is_first_page = isinstance(request, List) and request.after is None
    if is_first_page and isinstance(ended, Unanswered):
        return f"{ended}: the server does not list: run it with --lists"
    return str(ended)


def check_repeatable(under_way: Iterable[Asked], sent: int, ended: ConnectionEnded) -> None:
    """OutcomeUnknown where one of the requests under way may have been carried out, as its whole
    frame was sent, and may not be carried out twice."""
    for asked in under_way:
        if asked.end <= sent and not asked.request.is_repeatable:
            raise OutcomeUnknown(f"'{asked.request}' may have been carried out: {ended}") from ended


def run_session(words: Sequence[str], requests: Sequence[Request]) -> list[Reply]:
    """Starts `pathd once` by these words, writes all requests to it, and answers its replies, one
    for each. Nothing is tried again."""
    frames = b"".join(map(frame, requests))
    done = subprocess.run(words, input=frames, stdout=subprocess.PIPE, check=False)
    contents = list(read_frames(io.BytesIO(done.stdout)))
    if done.returncode != 0 or len(contents) != len(requests):
        count = f"{len(contents)} of {len(requests)} replies"
        raise SessionError(f"status {done.returncode} after {count}")
    return [
        read_reply(request, content) for request, content in zip(requests, contents, strict=True)
    ]
