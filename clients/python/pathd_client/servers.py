"""Several servers that get the same commands."""
from __future__ import annotations

import functools
import ssl
import threading
import time
from collections.abc import Sequence

from .addresses import Address
from .deadlines import Deadline
from .deliveries import Acknowledge, Delivery
from .errors import NotAcknowledged, QueueFull, SessionError
from .pools import Pool
from .queues import Bounds, WhenFull
from .replies import Refused, Reply
from .requests import Command, Query
from .retries import NO_RETRY, Retry
from .senders import Sender, State
from .sessions import Session

# Without an end, since a server may be away for long.
FOR_EVER = Retry(attempts=None)


class Servers:
    """Several servers that get the same commands, as a context. Any number of threads may use it.

    Each server has a queue, from which a thread sends it the commands in the order of the calls. A
    server that is away gets them once it is back. `acknowledge` says how many servers have to
    acknowledge a command before a call returns, and `within` how long a call may take, in seconds.
    `bounds` are those of each queue, and `when_full` says what is done where one has no room.
    `connect_timeout`, `reply_timeout` and `tls` are those of a session, and `retry` has the pauses
    between two tries. README.md says which commands leave the servers with the same rows.
    """

    def __init__(
        self,
        addresses: Sequence[tuple[str, int]],
        *,
        acknowledge: Acknowledge = Acknowledge.ALL,
        within: float = 10.0,
        bounds: Bounds = Bounds(),
        when_full: WhenFull = WhenFull.REFUSE,
        connect_timeout: float = 5.0,
        reply_timeout: float = 30.0,
        retry: Retry = FOR_EVER,
        tls: ssl.SSLContext | None = None,
    ) -> None:
        if not addresses:
            raise ValueError("no servers")
        self._addresses = [Address(*address) for address in addresses]
        self._acknowledge = acknowledge
        self._within = within
        self._when_full = when_full
        self._retry = retry
        self._changed = threading.Condition()
        self._has_ended = False
        # The server that has answered last: the first that the next lookup asks.
        self._first = 0
        opened = [
            functools.partial(
                Session, *address, retry=NO_RETRY,
                connect_timeout=connect_timeout, reply_timeout=reply_timeout, tls=tls,
            )
            for address in self._addresses
        ]
        self._pools = [Pool(open_session) for open_session in opened]
        self._senders = [
            Sender(number, open_session(), bounds, retry, self._changed)
            for number, open_session in enumerate(opened)
        ]

    def __enter__(self) -> Servers:
        return self

    def __exit__(self, *_ended: object) -> None:
        self.close()

    def command(self, command: Command) -> list[Reply | None]:
        """Sends a command to each server, and waits until as many as it needs have acknowledged it.

        Answers what each server has replied, in their order; None where it has not yet. The command
        is sent to these in any case. NotAcknowledged where it wasn't acknowledged in time, or can't
        be, since servers have refused it. QueueFull where a queue has no room and commands are not
        dropped; and ValueError where the command has too many bytes. Then nothing is sent.
        """
        delivery = Delivery(command, len(self._senders))
        with self._changed:
            self._put(delivery)
            self._changed.wait_for(lambda: self._is_decided(delivery), self._within)
            if not delivery.is_acknowledged(self._acknowledge):
                fault = NotAcknowledged(str(delivery))
                fault.replies = list(delivery.replies)
                raise fault
            return list(delivery.replies)

    def lookup(self, lookup: Query) -> Reply:
        """Asks one server a Lookup or a List, the one that has answered last, and where that fails
        the next one, until one answers. SessionError where none has in time."""
        deadline = Deadline.after(self._within)
        for pause in self._retry.pauses():
            try:
                return self._ask_each(lookup, deadline)
            except SessionError:
                if pause >= deadline.left():
                    raise
            time.sleep(pause)
        return self._ask_each(lookup, deadline)

    def drain(self, within: float) -> bool:
        """Waits until no queue has a command, at most this number of seconds. Answers whether none
        has."""
        with self._changed:
            return self._changed.wait_for(
                lambda: all(sender.state.waiting == 0 for sender in self._senders), within
            )

    @property
    def states(self) -> dict[Address, State]:
        """What the queue of each server comes to."""
        with self._changed:
            states = [sender.state for sender in self._senders]
        return dict(zip(self._addresses, states, strict=True))

    def close(self) -> None:
        """Ends the threads, and closes the sessions. Commands that wait are lost: `drain` waits for
        them before. A call that waits for acknowledgements is a NotAcknowledged, as later ones are.
        """
        with self._changed:
            self._has_ended = True
            for sender in self._senders:
                sender.end()
        for sender in self._senders:
            sender.join()
        for pool in self._pools:
            pool.close()

    def _put(self, delivery: Delivery) -> None:
        """Puts a command into each queue. The lock is held, so that all queues have one order."""
        if self._when_full is WhenFull.REFUSE:
            for address, sender in zip(self._addresses, self._senders, strict=True):
                if not sender.has_room_for(delivery):
                    raise QueueFull(f"the queue of {address} is full: {sender.state.fault}")
        for sender in self._senders:
            sender.put(delivery)

    def _is_decided(self, delivery: Delivery) -> bool:
        is_acknowledged = delivery.is_acknowledged(self._acknowledge)
        may_be = not self._has_ended and delivery.can_be_acknowledged(self._acknowledge)
        return is_acknowledged or not may_be

    def _ask_each(self, lookup: Query, deadline: Deadline) -> Reply:
        """Asks the servers one after the other, until one answers. Each has an equal part of the
        time that those before it have left."""
        count = len(self._pools)
        first = self._first
        faults = []
        for tried in range(count):
            number = (first + tried) % count
            try:
                with self._pools[number].session() as session:
                    reply = session.ask(lookup, within=deadline.left() / (count - tried))
            except SessionError as fault:
                faults.append(str(fault))
                continue
            if not isinstance(reply, Refused) or not reply.is_passing:
                self._first = number
                return reply
            faults.append(f"{self._addresses[number]}: {reply}")
        raise SessionError("; ".join(faults))
