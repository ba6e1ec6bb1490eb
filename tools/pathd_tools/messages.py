"""Frames and segments, as the tools and the benchmarks send and receive them, written from
docs/PROTOCOL.md ('Messages').

What a request has to be answered by is judged by pathd_model, which imports nothing of this module.
"""
from __future__ import annotations

import hashlib
import struct
from collections.abc import Iterable, Sequence
from dataclasses import dataclass

DOWN = 2
REGISTER, LOOKUP, PURGE, REMOVE, LIST = 1, 2, 3, 4, 5
MTU = 1472


# Fields of messages


def varint(number: int) -> bytes:
    """The shortest encoding of a number."""
    out = bytearray()
    while number >= 128:
        out.append(number & 127 | 128)
        number >>= 7
    out.append(number)
    return bytes(out)


def number_field(number: int, value: int) -> bytes:
    """A field of a number, which is left out where it is 0."""
    return varint(number * 8) + varint(value) if value else b""


def bytes_field(number: int, content: bytes) -> bytes:
    """A field of bytes."""
    return varint(number * 8 + 2) + varint(len(content)) + content


# Segments


@dataclass(frozen=True)
class Hop:
    """An AS of a segment, with its two interfaces, 0 at the segment's ends, and the MAC of its hop field."""

    isd_as: int
    ingress: int
    egress: int
    mac: bytes = bytes(6)


def info_of(timestamp: int, segment_id: int = 7) -> bytes:
    """The content of a segment's first field."""
    return number_field(1, timestamp) + number_field(2, segment_id)


def signed_contents(hops: Sequence[Hop], exp_time: int = 63) -> list[bytes]:
    """What each entry of a segment with these hops has before its signature."""
    followers = [hop.isd_as for hop in hops[1:]] + [0]
    contents = []
    for hop, follower in zip(hops, followers):
        field = number_field(1, hop.ingress) + number_field(2, hop.egress) + number_field(3, exp_time) + bytes_field(4, hop.mac)
        body = number_field(1, hop.isd_as) + number_field(2, follower) + bytes_field(3, bytes_field(1, field)) + number_field(5, MTU)
        contents.append(bytes_field(1, bytes_field(2, body)))
    return contents


def joined(info: bytes, contents: Iterable[bytes], signatures: Iterable[bytes]) -> bytes:
    """The segment of a first field and of entries, each with its signature; an empty signature is left out."""
    out = bytes_field(1, info)
    for content, signature in zip(contents, signatures):
        signed = content + (bytes_field(2, signature) if signature else b"")
        out += bytes_field(2, bytes_field(1, signed))
    return out


def make_segment(hops: Sequence[Hop], timestamp: int, exp_time: int = 63, segment_id: int = 7, signature: bytes = b"") -> bytes:
    """The segment with these hops, as `pathd` writes it; each entry has the same signature."""
    return joined(info_of(timestamp, segment_id), signed_contents(hops, exp_time), [signature] * len(hops))


def segment_of_size(hops: Sequence[Hop], timestamp: int, size: int, exp_time: int = 63) -> bytes:
    """A segment of just this number of bytes, most of them those of the last entry's signature."""
    info, contents = info_of(timestamp), signed_contents(hops, exp_time)

    def written(first: int, last: int) -> bytes:
        return joined(info, contents, [bytes(first), *[b""] * (len(contents) - 2), bytes(last)])

    # The first signature has some bytes of those that the lengths of the last one's fields leave
    # over.
    for first in range(8):
        most = size - len(written(first, 1))
        for last in range(max(1, most - 12), most + 2):
            segment = written(first, last)
            if len(segment) == size:
                return segment
    raise ValueError(f"there is no such segment of {size} bytes")


def segment_of_most(hops: Sequence[Hop], timestamp: int, size: int) -> bytes:
    """A segment of two hops of this number of bytes or a few less, most of them those of the last entry's signature."""
    info, contents = info_of(timestamp), signed_contents(hops)
    for length in range(size - len(make_segment(hops, timestamp)) - 16, 0, -1):
        segment = joined(info, contents, [b"", bytes(length)])
        if len(segment) <= size:
            return segment
    raise ValueError("the size is too small")


def path_id(hops: Iterable[Hop]) -> bytes:
    """The id of a segment with these hops."""
    return hashlib.sha256(b"".join(struct.pack(">QHH", hop.isd_as, hop.ingress, hop.egress) for hop in hops)).digest()


# Frames


def frame(kind: int, body: bytes) -> bytes:
    """A frame of a kind and a body."""
    return struct.pack(">IB", 1 + len(body), kind) + body


def registration(rows: Iterable[tuple[int, bytes]]) -> bytes:
    """The request that registers segments, each with its type. They have to be ordered by type."""
    by_type: dict[int, bytes] = {}
    for kind, segment in rows:
        by_type[kind] = by_type.get(kind, b"") + bytes_field(1, segment)
    body = b"".join(bytes_field(1, number_field(1, kind) + bytes_field(2, listed)) for kind, listed in sorted(by_type.items()))
    return frame(REGISTER, body)


def command_frame(command: tuple) -> bytes:
    """The request of a command, as pathd_model has them. The segments of a registration have to be ordered by type."""
    if command[0] == "purge":
        return frame(PURGE, struct.pack(">Q", command[1]))
    if command[0] == "remove":
        return frame(REMOVE, bytes([command[1]]) + command[2])
    return registration(command[1])


def lookup_frame(source: int, destination: int) -> bytes:
    """The request of a lookup."""
    return frame(LOOKUP, number_field(1, source) + number_field(2, destination))


def list_frame(kind: int, start: int, end: int, after: bytes = b"") -> bytes:
    """The request of a page of a type, after an id where there is one."""
    return frame(LIST, struct.pack(">BQQ", kind, start, end) + after)


def whole_frames(data: bytes) -> tuple[list[bytes], bytes]:
    """The contents of the whole frames of a stream, and what is left over."""
    contents, at = [], 0
    while at + 4 <= len(data):
        length = int.from_bytes(data[at : at + 4], "big")
        if at + 4 + length > len(data):
            break
        contents.append(data[at + 4 : at + 4 + length])
        at += 4 + length
    return contents, data[at:]


def count_frames(data: bytes) -> int:
    """How many frames there are, of which all are whole."""
    at = count = 0
    while at < len(data):
        at += 4 + int.from_bytes(data[at : at + 4], "big")
        count += 1
    return count
