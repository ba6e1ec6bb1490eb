"""Replies, and how they are read."""
from __future__ import annotations

import struct
from collections.abc import Sequence
from dataclasses import dataclass

from google.protobuf.message import DecodeError

from . import segments_pb2 as pb
from .codes import PASSING_CODES, UNSETTLED_CODES, Code
from .errors import FrameError
from .frames import REFUSED, REPLY_BIT
from .requests import List, Lookup, Request
from .segments import Row, SegmentType, hops_of, path_text, segment_id

ACK = struct.Struct(">QIIII")


@dataclass(frozen=True)
class Ack:
    """A command was taken: its place among the commands, and how many segments it changed."""

    place: int
    inserted: int
    updated: int
    kept: int
    purged: int

    def __str__(self) -> str:
        return (
            f"place {self.place}: {self.inserted} inserted, {self.updated} updated, "
            f"{self.kept} kept, {self.purged} purged"
        )


@dataclass(frozen=True)
class Found:
    """The segments that a lookup found."""

    rows: Sequence[Row]

    def __str__(self) -> str:
        paths = [(kind, path_text(hops_of(segment))) for kind, segment in self.rows]
        return "\n".join(f"{kind.name.lower()} {path}" for kind, path in paths) or "nothing"


@dataclass(frozen=True)
class Page:
    """The segments of a page of a list, 64 at most, and whether further ones follow them. Where
    they do, the page has a last segment: `List.following` asks for what comes after it."""

    type: SegmentType
    segments: Sequence[pb.PathSegment]
    more: bool

    def __str__(self) -> str:
        paths = [path_text(segment) for segment in self.segments]
        lines = [f"{self.type.name.lower()} {path}" for path in paths]
        return "\n".join(lines + ["and more"] * self.more) or "nothing"


@dataclass(unsafe_hash=True)
class Refused(Exception):
    """A request was refused. It changed nothing, unless `is_unsettled`.

    The code is a `Code`, or a plain number where this client knows no name for it. It is the reply
    that `ask` answers, and the error that `register`, `look_up`, `list`, `list_page`, `purge` and
    `remove` raise.
    """

    code: Code | int

    @property
    def is_passing(self) -> bool:
        """Whether the same request may succeed later, while the server changed nothing."""
        return self.code in PASSING_CODES

    @property
    def is_unsettled(self) -> bool:
        """Whether the command may be committed in spite of the refusal."""
        return self.code in UNSETTLED_CODES

    def __str__(self) -> str:
        meaning = self.code.meaning if isinstance(self.code, Code) else f"code {self.code:#04x}"
        return f"refused: {meaning}"


Reply = Ack | Found | Page | Refused


def ack_of(reply: Reply) -> Ack:
    """The acknowledgement that a reply to a command is. Raises the refusal."""
    if isinstance(reply, Ack):
        return reply
    raise reply if isinstance(reply, Refused) else FrameError(f"no acknowledgement: {reply}")


def rows_of(reply: Reply) -> Sequence[Row]:
    """The segments that a reply to a lookup has. Raises the refusal."""
    if isinstance(reply, Found):
        return reply.rows
    raise reply if isinstance(reply, Refused) else FrameError(f"no segments: {reply}")


def page_of(reply: Reply) -> Page:
    """The page that a reply to a list is. Raises the refusal."""
    if isinstance(reply, Page):
        return reply
    raise reply if isinstance(reply, Refused) else FrameError(f"no page: {reply}")


def next_of(asked: Request, reply: Reply) -> List | None:
    """The list for the page that follows the reply to a list; None where no page does."""
    if isinstance(asked, List) and isinstance(reply, Page) and reply.more:
        return asked.following(reply.segments[-1])
    return None


def code_of(number: int) -> Code | int:
    """The code of a number, or the number where there is none."""
    try:
        return Code(number)
    except ValueError:
        return number


def read_reply(request: Request, content: bytes) -> Reply:
    """The reply to a request that is the content of a frame. FrameError where it is none."""
    kind, body = content[0], content[1:]
    if kind == REFUSED and len(body) == 1:
        return Refused(code_of(body[0]))
    if kind != REPLY_BIT | request.kind:
        raise FrameError(f"a reply of kind {kind:#04x} to '{request}'")
    if isinstance(request, Lookup):
        return Found(read_rows(body))
    if isinstance(request, List):
        return read_page(request, body)
    if len(body) != ACK.size:
        raise FrameError(f"an acknowledgement of {len(body)} bytes")
    return Ack(*ACK.unpack(body))


def read_rows(body: bytes) -> list[Row]:
    """The segments of the body of a lookup's reply."""
    try:
        groups = pb.SegmentsResponse.FromString(body).segments
        kinds = [SegmentType(key) for key in sorted(groups)]
    except (DecodeError, ValueError) as fault:
        raise FrameError(f"a reply with no segments: {fault}") from fault
    return [(kind, segment) for kind in kinds for segment in groups[kind].segments]


def read_page(request: List, body: bytes) -> Page:
    """The page that the body of the reply to a list has. A page that others follow has a last
    segment, whose id comes after that of the request: so the pages of a list come to an end."""
    if body[:1] not in (b"\0", b"\1"):
        raise FrameError(f"no page in {len(body)} bytes")
    rows = read_rows(body[1:])
    page = Page(request.type, [segment for _, segment in rows], body[0] == 1)
    if any(kind != request.type for kind, _ in rows):
        raise FrameError(f"segments of another type in the reply to '{request}'")
    if page.more and not goes_on(request, page.segments):
        raise FrameError(f"a page that leads to no other in the reply to '{request}'")
    return page


def goes_on(request: List, segments: Sequence[pb.PathSegment]) -> bool:
    """Whether a page of these segments has a last one, and its id comes after the request's."""
    try:
        return bool(segments) and segment_id(segments[-1]) > (request.after or b"")
    except DecodeError:
        return False
