"""The codes of refusals."""
from __future__ import annotations

from enum import IntEnum


class Code(IntEnum):
    """The code of a refusal, with its meaning in words, and when it helps to send the request again
    (nothing where it never does). docs/PROTOCOL.md says when each comes."""

    meaning: str
    again: str

    # Texts are given below. A call such as `Code(0x51)` finds the member, and makes none.
    def __new__(cls, number: int, meaning: str = "", again: str = "") -> Code:
        code = int.__new__(cls, number)
        code._value_ = number
        code.meaning = meaning
        code.again = again
        return code

    MEMORY = 0x01, "memory ran out", "after a pause"
    TRUNCATED = 0x11, "the message ends within a field"
    LONG_VARINT = 0x12, "a number has more than 64 bits"
    BAD_FIELD = 0x13, "a field's number is 0 or too large"
    GROUP_WIRE = 0x14, "a field is a group"
    BAD_WIRE = 0x15, "a field's wire type is unknown"
    KIND_OF_FIELD = 0x22, "a known field has another wire type than its own"
    REPEATED_MESSAGE = 0x23, "a message or a type occurs twice"
    MISSING_FIELD = 0x24, "a message that is needed is missing"
    RANGE = 0x25, "a number is out of its range"
    CHAIN = 0x26, "the entries of a segment are no chain"
    LOOP = 0x27, "an AS occurs twice in a segment"
    ENTRIES = 0x28, "a segment has no entries, or more than 64"
    BAD_TYPE = 0x29, "there is no such type of segment"
    TOO_LARGE = 0x2A, "a segment or the registration is too large"
    BAD_SIGNATURE = 0x31, "a signature is not good", "once the segment is signed by the key"
    EXPIRED = (
        0x32,
        "a segment has expired",
        "once the segment is made with a later expiry, or the clock is mended",
    )
    FUTURE = (
        0x33,
        "a time lies too far in the future",
        "once the time is nearer, or the clock is mended",
    )
    NULL_DESTINATION = 0x41, "both sides are 0-0"
    ISD_ONLY_WILDCARD = 0x42, "a side has an AS, and no ISD"
    NO_CORE = 0x43, "neither side is a core AS"
    BUSY = 0x51, "too many commands wait to be committed", "after a pause"
    FULL = 0x52, "the store has no room for the rows", "after a purge"
    COMMAND_TOO_LARGE = 0x53, "the command is too large"
    STOPPED = 0x54, "the store has stopped", "at another server, or after a restart"
    EXHAUSTED = 0x55, "no place is left", "at another store"
    OLD_STORE = (
        0x57,
        "the store is of a version that has no removals",
        "after the store's first checkpoint",
    )
    NO_SEAT = (
        0x61,
        "the server has no room for the session",
        "on a new connection, after a pause",
    )
    OUTCOME_UNKNOWN = (
        0x62,
        "the store stopped before the command was committed: it may be kept or lost",
        "at another server, or after a restart",
    )
    NOT_AWAITED = (
        0x63,
        "this side had ended, and the server waits no longer for the commit: it may come yet",
        "on a new connection, after a pause",
    )
    NO_COMMANDS = 0x64, "commands are not taken here, but lookups are", "at another listener"


# After these refusals a server has changed nothing, and the same request may succeed later.
PASSING_CODES = frozenset({Code.MEMORY, Code.BUSY, Code.NO_SEAT})

# After these refusals the command may be committed all the same.
UNSETTLED_CODES = frozenset({Code.OUTCOME_UNKNOWN, Code.NOT_AWAITED})
