"""Segments: their hops, their ids, and how one is made and signed, as docs/PROTOCOL.md says."""
from __future__ import annotations

import hashlib
import re
import struct
from collections.abc import Sequence
from dataclasses import dataclass
from datetime import datetime
from enum import IntEnum
from itertools import pairwise

from . import segments_pb2 as pb
from .isd_as import isd_as_text, parse_isd_as
from .moments import moment_of, seconds_of

# Of the hop fields that are made here. A segment expires 64 times 337.5 seconds after its
# timestamp. Of a MAC `pathd` checks alone that it has six bytes.
EXP_TIME = 63
MTU = 1472
MAC = bytes(6)

LINK = re.compile(r"([0-9]+)>([0-9]+)")


class SegmentType(IntEnum):
    """The types of segments, which are the keys of the messages' maps."""

    UP = pb.SEGMENT_TYPE_UP
    DOWN = pb.SEGMENT_TYPE_DOWN
    CORE = pb.SEGMENT_TYPE_CORE


@dataclass(frozen=True)
class Hop:
    """An AS of a segment, and the interfaces by which a path enters and leaves it, which are 0 at
    the segment's ends."""

    isd_as: int
    ingress: int
    egress: int


def parse_path(text: str) -> list[Hop]:
    """The hops of a text such as `1-ff00:0:110 1>2 1-ff00:0:111`, with egress and ingress between
    two ASes. ValueError where it is none."""
    words = text.split(" ")
    if len(words) % 2 == 0:
        raise ValueError(f"no path: {text}")
    links = [link_of(word) for word in words[1::2]]
    egresses = [egress for egress, _ in links] + [0]
    ingresses = [0] + [ingress for _, ingress in links]
    ends = zip(words[::2], ingresses, egresses, strict=True)
    return [Hop(parse_isd_as(word), ingress, egress) for word, ingress, egress in ends]


def link_of(text: str) -> tuple[int, int]:
    """The egress and the ingress of a text such as `1>2`."""
    parts = LINK.fullmatch(text)
    if parts is None:
        raise ValueError(f"no interfaces: {text}")
    return int(parts[1]), int(parts[2])


def path_text(path: pb.PathSegment | Sequence[Hop]) -> str:
    """The text that `parse_path` reads as the hops of a segment, of which there is one at least, or
    as these hops."""
    hops = hops_of(path)
    words = [isd_as_text(hops[0].isd_as)]
    for before, after in pairwise(hops):
        words += [f"{before.egress}>{after.ingress}", isd_as_text(after.isd_as)]
    return " ".join(words)


def segment_id(path: pb.PathSegment | Sequence[Hop]) -> bytes:
    """The id of a segment, or of the segment with these hops: SHA-256 over ISD-AS, ingress and
    egress of each, in 8, 2 and 2 bytes, big-endian."""
    packed = [struct.pack(">QHH", hop.isd_as, hop.ingress, hop.egress) for hop in hops_of(path)]
    return hashlib.sha256(b"".join(packed)).digest()


def keyed_signature(key: bytes, signed: bytes, covered: Sequence[bytes]) -> bytes:
    """The signature of the test profile, which is no standard's: SHA-256 over pieces, each after
    its length in 8 bytes."""
    pieces = [key, signed, *covered]
    packed = [struct.pack(">Q", len(piece)) + piece for piece in pieces]
    return hashlib.sha256(b"".join(packed)).digest()


def make_segment(
    hops: Sequence[Hop], timestamp: int | datetime, key: bytes | None = None
) -> pb.PathSegment:
    """The segment with these hops, made at a moment, or at a number of seconds since 1970, and
    signed where there is a key. ValueError where a number does not fit its field."""
    seconds = seconds_of(timestamp)
    info = pb.SegmentInformation(timestamp=seconds, segment_id=1).SerializeToString()
    segment = pb.PathSegment(segment_info=info)
    covered = [info]
    followers = [hop.isd_as for hop in hops[1:]] + [0]
    for hop, follower in zip(hops, followers, strict=True):
        field = pb.HopField(ingress=hop.ingress, egress=hop.egress, exp_time=EXP_TIME, mac=MAC)
        body = pb.ASEntrySignedBody(
            isd_as=hop.isd_as, next_isd_as=follower, hop_entry=pb.HopEntry(hop_field=field), mtu=MTU
        )
        signed = pb.HeaderAndBody(body=body.SerializeToString()).SerializeToString()
        signature = b"" if key is None else keyed_signature(key, signed, covered)
        segment.as_entries.add(signed=pb.SignedMessage(header_and_body=signed, signature=signature))
        covered += [signed, signature]
    return segment


def hops_of(path: pb.PathSegment | Sequence[Hop]) -> Sequence[Hop]:
    """The hops of a segment, from the signed bytes of its entries; hops are answered as they
    are."""
    if not isinstance(path, pb.PathSegment):
        return path
    hops = []
    for entry in path.as_entries:
        signed = pb.HeaderAndBody.FromString(entry.signed.header_and_body)
        body = pb.ASEntrySignedBody.FromString(signed.body)
        field = body.hop_entry.hop_field
        hops.append(Hop(body.isd_as, field.ingress, field.egress))
    return hops


def timestamp_of(segment: pb.PathSegment) -> int:
    """When a segment was made, in seconds since 1970."""
    return pb.SegmentInformation.FromString(segment.segment_info).timestamp


def expiry(segment: pb.PathSegment) -> int:
    """When a segment expires, with the first of its hop entries: in half seconds since 1970."""
    times = []
    for entry in segment.as_entries:
        signed = pb.HeaderAndBody.FromString(entry.signed.header_and_body)
        times.append(pb.ASEntrySignedBody.FromString(signed.body).hop_entry.hop_field.exp_time)
    return 2 * timestamp_of(segment) + 675 * (1 + min(times))


def made_at(segment: pb.PathSegment) -> datetime:
    """When a segment was made."""
    return moment_of(2 * timestamp_of(segment))


def expires_at(segment: pb.PathSegment) -> datetime:
    """When a segment expires, with the first of its hop entries."""
    return moment_of(expiry(segment))


Row = tuple[SegmentType, pb.PathSegment]
