"""Requests that tests send."""
from __future__ import annotations

from collections.abc import Iterable

from pathd_client import (
    List, Lookup, Purge, Register, Remove, Retry, Row, SegmentType, make_segment, parse_isd_as,
    parse_path, segment_id,
)

# Few attempts, without a pause between.
QUICKLY = Retry(attempts=3, first_pause=0.0, longest_pause=0.0)

PATH = "1-ff00:0:110 1>2 1-ff00:0:111"
LOOKUP = Lookup(parse_isd_as("1-ff00:0:110"), parse_isd_as("1-ff00:0:111"))
LIST = List(SegmentType.DOWN, LOOKUP.source, LOOKUP.destination)
PURGE = Purge(half_seconds=5)
REMOVE = Remove(SegmentType.DOWN, bytes(range(32)))

# Segments of the year 2096, which have not expired by the machine's clock.
MADE = 4_000_000_000


def row(number: int, size: int = 0) -> Row:
    """One of many down segments from 1-ff00:0:110, whose first signature has this size."""
    hops = parse_path(f"1-ff00:0:110 {number + 1}>2 1-ff00:0:111")
    segment = make_segment(hops, MADE)
    segment.as_entries[0].signed.signature = bytes(size)
    return SegmentType.DOWN, segment


def in_order(rows: Iterable[Row]) -> list[Row]:
    """Segments in the order of their keys."""
    return sorted(rows, key=lambda it: (it[0], segment_id(it[1])))


def registration(number: int) -> Register:
    """A registration of one segment."""
    return Register([row(number)])


def large_registration(number: int) -> Register:
    """A registration of eight segments that has 127,000 bytes or more."""
    return Register([row(8 * number + i, 16_000) for i in range(8)])
