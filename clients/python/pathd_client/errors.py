"""Why a request has no reply."""
from __future__ import annotations

from collections.abc import Sequence
from typing import TYPE_CHECKING

if TYPE_CHECKING:
    from .replies import Reply


class SessionError(Exception):
    """A request has no reply.

    `replies` has an item for each request of the call, in order: its reply, or None where there is
    none.
    """

    replies: Sequence[Reply | None] = ()


class FrameError(SessionError):
    """What came is no reply to the request."""


class ConnectionEnded(SessionError):
    """The connection ended before the reply came, or none could be made."""


class Unanswered(ConnectionEnded):
    """The server ended the connection where a reply would begin."""


class TurnedAway(ConnectionEnded):
    """The server has no room for the session, and ended the connection. It has read no request."""


class OutcomeUnknown(SessionError):
    """The connection ended after a request was sent that may not be carried out twice. Whether it
    was carried out is not known."""


class ReplyTimeout(SessionError, TimeoutError):
    """The reply did not come in time. Whether the request was carried out is not known."""


class NotAcknowledged(SessionError):
    """A command was not acknowledged by as many servers as it has to be, in time or ever.

    `replies` has an item for each server, in order. The command is still sent to the servers whose
    queues have it.
    """


class QueueFull(SessionError):
    """A server's queue has no room for a command, which was sent to no server."""
