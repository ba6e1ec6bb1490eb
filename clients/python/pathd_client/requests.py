"""Requests."""
from __future__ import annotations

import struct
from collections.abc import Sequence
from dataclasses import dataclass, field, replace
from datetime import datetime, timezone
from typing import ClassVar

from . import segments_pb2 as pb
from .isd_as import isd_as_text
from .moments import half_seconds_of
from .segments import Row, SegmentType, segment_id

# The most segments of one registration.
MOST_ROWS = 16

ID_BYTES = 32
MOST_NUMBER = 2**64 - 1


def check_id(number: bytes) -> None:
    """ValueError where an id has another number of bytes."""
    if len(number) != ID_BYTES:
        raise ValueError(f"an id has {ID_BYTES} bytes, and not {len(number)}")


def check_number(number: int, name: str) -> None:
    """ValueError where a number has more than 64 bits."""
    if not 0 <= number <= MOST_NUMBER:
        raise ValueError(f"{name} is no number of 64 bits: {number}")


@dataclass(frozen=True)
class Register:
    """Registers segments. Of one type and the same hops, the newest stays.

    A registration may be repeated: a segment that the server has is kept as it is.
    """

    rows: Sequence[Row]
    kind: ClassVar[int] = 1
    is_repeatable: ClassVar[bool] = True

    def body(self) -> bytes:
        """The bytes of a SegmentsRegistrationRequest."""
        request = pb.SegmentsRegistrationRequest()
        for kind, segment in self.rows:
            request.segments[kind].segments.append(segment)
        return request.SerializeToString(deterministic=True)

    def __str__(self) -> str:
        return f"register {len(self.rows)}"


@dataclass(frozen=True)
class Lookup:
    """Asks for the segments that lead from a source to a destination. A part of a side that is 0
    covers every number."""

    source: int
    destination: int
    kind: ClassVar[int] = 2
    is_repeatable: ClassVar[bool] = True

    def __post_init__(self) -> None:
        check_number(self.source, "the source")
        check_number(self.destination, "the destination")

    def body(self) -> bytes:
        """The bytes of a SegmentsRequest."""
        request = pb.SegmentsRequest(src_isd_as=self.source, dst_isd_as=self.destination)
        return request.SerializeToString()

    def __str__(self) -> str:
        return f"look up {isd_as_text(self.source)} to {isd_as_text(self.destination)}"


@dataclass(frozen=True)
class List:
    """Asks for a page of the segments of a type, whose first AS a start covers and whose last AS an
    end covers: those whose ids come after one, or all, in the order of their ids. A part of a side
    that is 0 covers every number."""

    type: SegmentType
    start: int = 0
    end: int = 0
    after: bytes | None = None
    kind: ClassVar[int] = 5
    is_repeatable: ClassVar[bool] = True

    def __post_init__(self) -> None:
        check_number(self.start, "the start")
        check_number(self.end, "the end")
        if self.after is not None:
            check_id(self.after)

    def following(self, last: pb.PathSegment) -> List:
        """The request for the page after the one with this last segment."""
        return replace(self, after=segment_id(last))

    def body(self) -> bytes:
        """The type in a byte, both sides in eight bytes each, and the id where there is one."""
        return struct.pack(">BQQ", self.type, self.start, self.end) + (self.after or b"")

    def __str__(self) -> str:
        sides = f"{isd_as_text(self.start)} to {isd_as_text(self.end)}"
        after = "" if self.after is None else f" after {self.after.hex()}"
        return f"list {self.type.name.lower()} {sides}{after}"


@dataclass(frozen=True)
class Purge:
    """Drops the segments that have expired by a moment: `Purge.now()`, `Purge.at(moment)`, or by a
    number of half seconds since 1970, which needs its name."""

    half_seconds: int = field(kw_only=True)
    kind: ClassVar[int] = 3
    is_repeatable: ClassVar[bool] = True

    def __post_init__(self) -> None:
        check_number(self.half_seconds, "the moment")

    @classmethod
    def at(cls, moment: datetime) -> Purge:
        """The purge by a moment, which has a time zone. ValueError where it has none, or is before
        1970."""
        return cls(half_seconds=half_seconds_of(moment))

    @classmethod
    def now(cls) -> Purge:
        """The purge of what has expired by this machine's clock."""
        return cls.at(datetime.now(timezone.utc))

    def body(self) -> bytes:
        """The moment, in eight bytes."""
        return struct.pack(">Q", self.half_seconds)

    def __str__(self) -> str:
        return f"purge at {self.half_seconds}"


@dataclass(frozen=True)
class Remove:
    """Drops the segment of a type with an id, which has 32 bytes.

    A removal is not repeatable: a second one would drop a segment that another client has
    registered since the first.
    """

    type: SegmentType
    id: bytes
    kind: ClassVar[int] = 4
    is_repeatable: ClassVar[bool] = False

    def __post_init__(self) -> None:
        check_id(self.id)

    def body(self) -> bytes:
        """The type in a byte, and the id."""
        return bytes([self.type]) + self.id

    def __str__(self) -> str:
        return f"remove {self.type.name.lower()} {self.id.hex()}"


# Each has the kind of its frame, whether it may be carried out twice, the bytes of its body, and a
# line that says what it asks for.
Command = Register | Purge | Remove
Query = Lookup | List
Request = Command | Query
