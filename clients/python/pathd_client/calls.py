"""The calls of a session, typed: each raises the refusal of its request."""
from __future__ import annotations

from abc import ABC, abstractmethod
from collections.abc import AsyncIterator, Iterator, Sequence
from datetime import datetime

from . import segments_pb2 as pb
from .isd_as import isd_as_of
from .replies import Ack, Page, Reply, ack_of, next_of, page_of, rows_of
from .requests import List, Lookup, Purge, Register, Remove, Request
from .segments import Row, SegmentType
from .steps import Step


def purge_of(moment: datetime | None) -> Purge:
    """The purge by a moment, or by this machine's clock."""
    return Purge.now() if moment is None else Purge.at(moment)


def lookup_of(source: int | str, destination: int | str) -> Lookup:
    """The lookup between two ISD-ASes, which are numbers or texts."""
    return Lookup(isd_as_of(source), isd_as_of(destination))


def list_of(
    kind: SegmentType, start: int | str, end: int | str, after: bytes | None = None
) -> List:
    """The list between two ISD-ASes, which are numbers or texts."""
    return List(kind, isd_as_of(start), isd_as_of(end), after)


class Calls(ABC):
    """What a session asks for. Each call raises Refused where its request is refused, and a
    SessionError where it has no reply; `within` bounds it, in seconds."""

    @abstractmethod
    def ask(self, request: Request, *, within: float | None = None) -> Reply:
        """The reply to a request."""

    def register(self, rows: Sequence[Row], *, within: float | None = None) -> Ack:
        """Registers segments with their types, 16 at most: of one type and the same hops, the
        newest stays."""
        return ack_of(self.ask(Register(rows), within=within))

    def look_up(
        self, source: int | str, destination: int | str, *, within: float | None = None
    ) -> Sequence[Row]:
        """The segments from a source to a destination, 64 at most. Each side is a number, or a text
        such as `1-ff00:0:110`; a part that is 0 covers every number."""
        return rows_of(self.ask(lookup_of(source, destination), within=within))

    def list(
        self, kind: SegmentType, start: int | str = 0, end: int | str = 0, *,
        within: float | None = None,
    ) -> Iterator[pb.PathSegment]:
        """All segments of a type from a start to an end, in the order of their ids. Each side is a
        number or a text, as in `look_up`; it is not asked whether it is core.

        They come in pages, which are asked for as they are needed: `within` bounds each of them,
        and other calls may be made between. A segment that is registered or dropped meanwhile may
        be among them or not, and every other one comes once.
        """
        asked: List | None = list_of(kind, start, end)
        while asked is not None:
            page = page_of(self.ask(asked, within=within))
            yield from page.segments
            asked = next_of(asked, page)

    def list_page(
        self, kind: SegmentType, start: int | str = 0, end: int | str = 0, *,
        after: bytes | None = None, within: float | None = None,
    ) -> Page:
        """One page of the same, 64 at most: the first one, or that which begins after an id. The
        id need not be that of a segment."""
        return page_of(self.ask(list_of(kind, start, end, after), within=within))

    def purge(self, moment: datetime | None = None, *, within: float | None = None) -> Ack:
        """Drops the segments that have expired by a moment, or by this machine's clock, by one
        command. Other sessions' commands wait until all are dropped."""
        return ack_of(self.ask(purge_of(moment), within=within))

    def purge_in_steps(
        self, moment: datetime | None = None, *, within: float | None = None
    ) -> Iterator[Ack]:
        """The same by several commands, whose moments rise, so that each drops few segments. Each
        gives its Ack; `within` bounds each of them, and other calls may be made between. Segments
        of one expiry are dropped by one command."""
        step: Step | None = Step.first(purge_of(moment))
        while step is not None:
            ack = ack_of(self.ask(step.request(), within=within))
            yield ack
            step = step.next(ack.purged)

    def remove(self, kind: SegmentType, segment_id: bytes, *, within: float | None = None) -> Ack:
        """Drops the segment of a type with an id."""
        return ack_of(self.ask(Remove(kind, segment_id), within=within))


class AsyncCalls(ABC):
    """The same, of a session of asyncio."""

    @abstractmethod
    async def ask(self, request: Request, *, within: float | None = None) -> Reply:
        """The reply to a request."""

    async def register(self, rows: Sequence[Row], *, within: float | None = None) -> Ack:
        """As `Calls.register`."""
        return ack_of(await self.ask(Register(rows), within=within))

    async def look_up(
        self, source: int | str, destination: int | str, *, within: float | None = None
    ) -> Sequence[Row]:
        """As `Calls.look_up`."""
        return rows_of(await self.ask(lookup_of(source, destination), within=within))

    async def list(
        self, kind: SegmentType, start: int | str = 0, end: int | str = 0, *,
        within: float | None = None,
    ) -> AsyncIterator[pb.PathSegment]:
        """As `Calls.list`: `async for segment in session.list(kind)`."""
        asked: List | None = list_of(kind, start, end)
        while asked is not None:
            page = page_of(await self.ask(asked, within=within))
            for segment in page.segments:
                yield segment
            asked = next_of(asked, page)

    async def list_page(
        self, kind: SegmentType, start: int | str = 0, end: int | str = 0, *,
        after: bytes | None = None, within: float | None = None,
    ) -> Page:
        """As `Calls.list_page`."""
        return page_of(await self.ask(list_of(kind, start, end, after), within=within))

    async def purge(self, moment: datetime | None = None, *, within: float | None = None) -> Ack:
        """As `Calls.purge`."""
        return ack_of(await self.ask(purge_of(moment), within=within))

    async def purge_in_steps(
        self, moment: datetime | None = None, *, within: float | None = None
    ) -> AsyncIterator[Ack]:
        """As `Calls.purge_in_steps`: `async for ack in session.purge_in_steps()`."""
        step: Step | None = Step.first(purge_of(moment))
        while step is not None:
            ack = ack_of(await self.ask(step.request(), within=within))
            yield ack
            step = step.next(ack.purged)

    async def remove(
        self, kind: SegmentType, segment_id: bytes, *, within: float | None = None
    ) -> Ack:
        """As `Calls.remove`."""
        return ack_of(await self.ask(Remove(kind, segment_id), within=within))
