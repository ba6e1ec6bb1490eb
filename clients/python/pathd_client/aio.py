"""A session for tasks of asyncio."""
from __future__ import annotations

import asyncio
import ssl
from collections import deque
from contextlib import suppress
from dataclasses import dataclass

from .addresses import Address
from .calls import AsyncCalls
from .connection import NO_SEAT, PIECE
from .errors import (
    ConnectionEnded, FrameError, OutcomeUnknown, ReplyTimeout, SessionError, TurnedAway,
)
from .frames import FrameBuffer, frame
from .replies import Refused, Reply, read_reply
from .requests import Request
from .retries import DEFAULT_RETRY, Retry
from .sessions import Session, end_text


# The seconds that the end of a context waits for the end of its connection at most.
CLOSING = 1.0


@dataclass
class Waiting:
    """A request that was sent, and the reply that its task waits for."""

    request: Request
    reply: asyncio.Future[Reply]


class Line:
    """A connection, over which requests are sent without waiting for the replies between them.

    A request keeps its place until its reply comes, also where its task no longer waits.
    """

    def __init__(
        self, reader: asyncio.StreamReader, writer: asyncio.StreamWriter, reply_timeout: float
    ) -> None:
        self.room = asyncio.Semaphore(Session.WINDOW)
        self.fault: SessionError | None = None
        self._reader = reader
        self._writer = writer
        self._reply_timeout = reply_timeout
        self._waiting: deque[Waiting] = deque()
        self._received = FrameBuffer()
        self._is_new = True
        self._timer: asyncio.TimerHandle | None = None
        self._task = asyncio.create_task(self._receive())

    def send(self, request: Request, data: bytes) -> asyncio.Future[Reply]:
        """Sends the frame of a request, which has a place of `room`. Answers its reply to come."""
        if self.fault is not None:
            raise type(self.fault)(str(self.fault))
        reply: asyncio.Future[Reply] = asyncio.get_running_loop().create_future()
        self._waiting.append(Waiting(request, reply))
        self._writer.write(data)
        if len(self._waiting) == 1:
            self._wait_on()
        return reply

    def end(self, fault: SessionError) -> None:
        """Ends the connection, and each request that has no reply."""
        if self.fault is not None:
            return
        self.fault = fault
        if self._timer is not None:
            self._timer.cancel()
        self._task.cancel()
        self._writer.close()
        while self._waiting:
            self._settle(self._fault_of(self._waiting[0].request, fault))

    async def wait_closed(self) -> None:
        """Waits until the connection, which was ended, is closed, but not for long."""
        with suppress(OSError, TimeoutError):
            async with asyncio.timeout(CLOSING):
                await self._writer.wait_closed()

    def _fault_of(self, request: Request, fault: SessionError) -> SessionError:
        """The fault of one request. What was sent may have been carried out."""
        is_lost = isinstance(fault, ConnectionEnded) and not isinstance(fault, TurnedAway)
        if is_lost and not request.is_repeatable:
            return OutcomeUnknown(f"'{request}' may have been carried out: {fault}")
        return type(fault)(end_text(fault, request))

    def _settle(self, outcome: Reply | SessionError) -> None:
        """Gives the first request its reply, or the reason why there is none."""
        reply = self._waiting.popleft().reply
        self.room.release()
        if reply.done():  # its task was cancelled
            return
        if isinstance(outcome, SessionError):
            reply.set_exception(outcome)
        else:
            reply.set_result(outcome)

    def _wait_on(self) -> None:
        """Bounds the time to the next reply, where one is to come."""
        if self._timer is not None:
            self._timer.cancel()
        self._timer = None
        if self._waiting:
            loop = asyncio.get_running_loop()
            stuck = ReplyTimeout("no reply in time")
            self._timer = loop.call_later(self._reply_timeout, self.end, stuck)

    async def _receive(self) -> None:
        try:
            while data := await self._reader.read(PIECE):
                self._received.feed(data)
                while (content := self._received.take()) is not None:
                    self._answer(content)
            self.end(self._received.end())
        except SessionError as fault:
            self.end(fault)
        except OSError as fault:
            self.end(ConnectionEnded(f"the connection broke: {fault}"))

    def _answer(self, content: bytes) -> None:
        if self._is_new and content == NO_SEAT:
            raise TurnedAway("the server has no room for the session")
        self._is_new = False
        if not self._waiting:
            raise FrameError("a reply to no request")
        self._settle(read_reply(self._waiting[0].request, content))
        self._wait_on()


class AsyncSession(AsyncCalls):
    """A session with a server for any number of tasks of an event loop, as an asynchronous context.

    Tasks send their requests without waiting for each other's replies; at most `Session.WINDOW` are
    under way. What is given is what `Session` is given. `reply_timeout` bounds the time from one
    reply to the next: then the connection ends, and each request that is under way is a
    ReplyTimeout.
    """

    def __init__(
        self,
        host: str,
        port: int,
        *,
        connect_timeout: float = 5.0,
        reply_timeout: float = 30.0,
        retry: Retry = DEFAULT_RETRY,
        tls: ssl.SSLContext | None = None,
        server_name: str | None = None,
    ) -> None:
        self._address = Address(host, port)
        self._connect_timeout = connect_timeout
        self._reply_timeout = reply_timeout
        self._retry = retry
        self._tls = tls
        self._server_name = server_name
        self._line: Line | None = None
        # Held by the task that makes a connection.
        self._opening = asyncio.Lock()

    async def __aenter__(self) -> AsyncSession:
        return self

    async def __aexit__(self, *_ended: object) -> None:
        self.close()
        if self._line is not None:
            await self._line.wait_closed()

    def close(self) -> None:
        """Ends the connection, and each call that is under way. A later call makes a new one."""
        if self._line is not None:
            self._line.end(ConnectionEnded("the session was closed"))

    async def ask(self, request: Request, *, within: float | None = None) -> Reply:
        """Sends a request, and waits for its reply.

        SessionError where there is none. ValueError where the request has too many bytes; then
        nothing is sent. `within` bounds the whole call, in seconds. It is tried again as `Session`
        tries again, and its task may be cancelled: the request may be carried out then.
        """
        data = frame(request)
        try:
            async with asyncio.timeout(within):
                return await self._ask(request, data)
        except SessionError as fault:
            raise type(fault)(f"{self._address}: {fault}") from fault
        except TimeoutError as fault:
            raise ReplyTimeout(f"{self._address}: no reply in time") from fault

    async def _ask(self, request: Request, data: bytes) -> Reply:
        pauses = self._retry.pauses()
        while True:
            try:
                reply = await self._ask_once(request, data)
                pause = next(pauses, None)
                if pause is None or not isinstance(reply, Refused) or not reply.is_passing:
                    return reply
            except ConnectionEnded:
                pause = next(pauses, None)
                if pause is None:
                    raise
            await asyncio.sleep(pause)

    async def _ask_once(self, request: Request, data: bytes) -> Reply:
        line = await self._connected()
        await line.room.acquire()
        try:
            reply = line.send(request, data)
        except BaseException:
            line.room.release()
            raise
        return await reply

    async def _connected(self) -> Line:
        """The open connection, or a new one where there is none or it has ended."""
        async with self._opening:
            if self._line is None or self._line.fault is not None:
                self._line = await self._opened()
            return self._line

    async def _opened(self) -> Line:
        name = None if self._tls is None else self._server_name or self._address.host
        try:
            async with asyncio.timeout(self._connect_timeout):
                reader, writer = await asyncio.open_connection(
                    *self._address, ssl=self._tls, server_hostname=name
                )
        except (OSError, UnicodeError) as fault:
            raise ConnectionEnded(f"no connection: {fault or 'it took too long'}") from fault
        return Line(reader, writer, self._reply_timeout)
