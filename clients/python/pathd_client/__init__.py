"""A client of `pathd`: the messages, the frames around them, a session with a server over TCP or
TLS, one for tasks of asyncio, one with a child process, and several servers that get the same
commands.

Each byte is in docs/PROTOCOL.md. An ISD-AS is a number here, with the ISD in its upper 16 bits and
the AS in its lower 48. protoc generates `segments_pb2`, the messages, from docs/segments.proto.
`python -m pathd_client --help` lists the commands.
"""
from .addresses import Address, parse_address, parse_addresses
from .aio import AsyncSession
from .codes import PASSING_CODES, UNSETTLED_CODES, Code
from .deliveries import Acknowledge
from .errors import (
    ConnectionEnded, FrameError, NotAcknowledged, OutcomeUnknown, QueueFull, ReplyTimeout,
    SessionError, TurnedAway,
)
from .frames import MOST_REPLY, MOST_REQUEST, FrameBuffer, frame, read_frames
from .isd_as import isd_as_text, parse_isd_as
from .moments import half_seconds_of, moment_of
from .queues import Bounds, WhenFull
from .replies import Ack, Found, Page, Refused, Reply, read_reply
from .requests import (
    MOST_ROWS, Command, List, Lookup, Purge, Query, Register, Remove, Request,
)
from .retries import DEFAULT_RETRY, NO_RETRY, Retry
from .segments import (
    EXP_TIME, Hop, Row, SegmentType, expires_at, expiry, hops_of, made_at, make_segment, parse_path,
    path_text, segment_id, timestamp_of,
)
from .senders import State
from .servers import Servers
from .sessions import Session, run_session

__all__ = [
    "DEFAULT_RETRY", "EXP_TIME", "MOST_REPLY", "MOST_REQUEST", "MOST_ROWS", "NO_RETRY",
    "PASSING_CODES", "UNSETTLED_CODES", "Ack", "Acknowledge", "Address", "AsyncSession", "Bounds",
    "Code", "Command", "ConnectionEnded", "Found", "FrameBuffer", "FrameError", "Hop", "List",
    "Lookup", "NotAcknowledged", "OutcomeUnknown", "Page", "Purge", "Query", "QueueFull", "Refused",
    "Register", "Remove", "Reply", "ReplyTimeout", "Request", "Retry", "Row", "SegmentType",
    "Servers", "Session", "SessionError", "State", "TurnedAway", "WhenFull", "expires_at", "expiry",
    "frame",
    "half_seconds_of", "hops_of", "isd_as_text", "made_at", "make_segment", "moment_of",
    "parse_address", "parse_addresses", "parse_isd_as", "parse_path", "path_text", "read_frames",
    "read_reply", "run_session", "segment_id", "timestamp_of",
]
