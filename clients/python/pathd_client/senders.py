"""Threads that send commands to the servers, one for each."""
from __future__ import annotations

import threading
from collections.abc import Sequence
from dataclasses import dataclass

from .codes import PASSING_CODES, UNSETTLED_CODES, Code
from .deliveries import Delivery
from .errors import SessionError
from .queues import Bounds, CommandQueue
from .replies import Refused, Reply
from .retries import Retry
from .sessions import Session

# After these refusals a command is sent again: later, or once the server was started again.
SENT_AGAIN = PASSING_CODES | UNSETTLED_CODES | {Code.STOPPED}

# How long a thread that ends is waited for before its connection is ended once more, in seconds.
LOOK_AGAIN = 0.05


@dataclass(frozen=True)
class State:
    """What a server's queue comes to: how many commands wait, the bytes of their frames, how many
    the server has refused for good, how many were dropped, and what went wrong with the last try.
    """

    waiting: int
    size: int
    refused: int
    dropped: int
    fault: str | None


class Sender:
    """Sends the commands of one server's queue in their order, again and again until each has its
    reply.

    All of it is guarded by the lock of `changed`, which is notified of each change.
    """

    def __init__(
        self, number: int, session: Session, bounds: Bounds, retry: Retry,
        changed: threading.Condition,
    ) -> None:
        self._number = number
        self._session = session
        self._retry = retry
        self._changed = changed
        self._queue = CommandQueue(bounds)
        self._refused = 0
        self._dropped = 0
        self._fault: str | None = None
        self._has_ended = False
        self._thread = threading.Thread(target=self._send_all, daemon=True)
        self._thread.start()

    @property
    def state(self) -> State:
        """What the queue comes to."""
        queue = self._queue
        return State(len(queue), queue.size, self._refused, self._dropped, self._fault)

    def has_room_for(self, delivery: Delivery) -> bool:
        """Whether a command can be put without another being dropped."""
        return self._queue.has_room_for(delivery)

    def put(self, delivery: Delivery) -> None:
        """Has a command sent, after those before it. Older ones are dropped where there is no
        room."""
        for dropped in self._queue.put(delivery):
            dropped.settle(self._number, None)
            self._dropped += 1
        self._changed.notify_all()

    def end(self) -> None:
        """Has the thread end, which sends no more."""
        self._has_ended = True
        self._changed.notify_all()

    def join(self) -> None:
        """Waits until the thread has ended, after `end`, without the lock. It waits for no reply;
        for a connection that is being made it does."""
        while self._thread.is_alive():
            self._session.interrupt()
            self._thread.join(LOOK_AGAIN)
        self._session.close()

    def _send_all(self) -> None:
        pauses = self._retry.pauses()
        while batch := self._next_batch():
            replies, fault = self._replies_to(batch)
            with self._changed:
                self._settle(batch, replies, fault)
                if self._fault is None:
                    pauses = self._retry.pauses()
                else:
                    pause = next(pauses, self._retry.longest_pause)
                    self._changed.wait_for(lambda: self._has_ended, pause)

    def _next_batch(self) -> list[Delivery]:
        """The commands that are sent next, once there are some; none at the end."""
        with self._changed:
            self._changed.wait_for(lambda: self._has_ended or len(self._queue))
            return [] if self._has_ended else self._queue.begin(Session.WINDOW)

    def _replies_to(self, batch: Sequence[Delivery]) -> tuple[Sequence[Reply | None], str | None]:
        """The replies to commands, and what went wrong."""
        try:
            return self._session.pipeline([delivery.command for delivery in batch]), None
        except SessionError as fault:
            return fault.replies, str(fault)

    def _settle(
        self, batch: Sequence[Delivery], replies: Sequence[Reply | None], fault: str | None
    ) -> None:
        """Notes the replies up to the first that is none, or none for good. The commands from there
        on are sent again, so that they are carried out in their order."""
        settled = 0
        for delivery, reply in zip(batch, replies, strict=True):
            if isinstance(reply, Refused) and reply.code in SENT_AGAIN:
                fault = str(reply)
                break
            if reply is None:
                break
            self._refused += isinstance(reply, Refused)
            delivery.settle(self._number, reply)
            settled += 1
        self._queue.end(settled)
        self._fault = fault
        self._changed.notify_all()
