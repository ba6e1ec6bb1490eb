"""How `pathd` reads messages that anyone may have made, written from docs/PROTOCOL.md
('Messages') alone: a value, or the code of the first fault."""
from __future__ import annotations

from functools import lru_cache

from pathd_model import model

TRUNCATED, LONG, BAD_FIELD, GROUP, BAD_WIRE = 0x11, 0x12, 0x13, 0x14, 0x15
KIND_OF_FIELD, REPEATED, MISSING, RANGE, CHAIN, LOOP, ENTRIES, BAD_TYPE, TOO_LARGE = range(0x22, 0x2B)
NUMBER, BYTES = 0, 2
MOST_SEGMENT, MOST_REGISTRATION, MOST_SEGMENTS = 16_384, 131_072, 16


class Refused(Exception):
    """A message that isn't read; its first argument is the code."""


def varint(data: bytes, at: int) -> tuple[int, int]:
    """A number, and where it ends."""
    number = 0
    for length in range(10):
        if at + length >= len(data):
            raise Refused(TRUNCATED)
        byte = data[at + length]
        if length == 9 and byte > 1:
            raise Refused(LONG)
        number |= (byte & 127) << 7 * length
        if byte < 128:
            return number, at + length + 1
    raise Refused(LONG)


def fields_of(data: bytes) -> list[tuple[int, int, int | bytes]]:
    """Number, wire type and content of each field."""
    fields, at = [], 0
    while at < len(data):
        tag, at = varint(data, at)
        number, wire = tag >> 3, tag & 7
        if tag >= 1 << 32 or number == 0:
            raise Refused(BAD_FIELD)
        if wire in (3, 4):
            raise Refused(GROUP)
        if wire > 5:
            raise Refused(BAD_WIRE)
        if wire == NUMBER:
            value, at = varint(data, at)
        else:
            length = {1: 8, 5: 4}.get(wire)
            if length is None:
                length, at = varint(data, at)
            if at + length > len(data):
                raise Refused(TRUNCATED)
            value = data[at : at + length]
            at += length
        fields.append((number, wire, value))
    return fields


class Message:
    """The fields of a message. `kinds` has the wire type of each known field, `single` the messages that may stand once, `needed` those that have to."""

    def __init__(self, data: bytes, kinds: dict[int, int], single: tuple = (), needed: tuple = ()) -> None:
        self.fields = [it for it in fields_of(data)]
        seen = set()
        for number, wire, _ in self.fields:
            if number in kinds:
                if wire != kinds[number]:
                    raise Refused(KIND_OF_FIELD)
                if number in single and number in seen:
                    raise Refused(REPEATED)
                seen.add(number)
        if any(number not in seen for number in needed):
            raise Refused(MISSING)

    def last(self, number: int, otherwise: int | bytes) -> int | bytes:
        """The content of the last field of a number."""
        found = otherwise
        for its, _, value in self.fields:
            if its == number:
                found = value
        return found

    def all(self, number: int) -> list[bytes]:
        """The contents of all fields of a number."""
        return [value for its, _, value in self.fields if its == number]


def check(is_in_range: bool) -> None:
    """Refuses a number that isn't in its range."""
    if not is_in_range:
        raise Refused(RANGE)


def hop_field(data: bytes) -> tuple[int, int, int]:
    """Ingress, egress and the time of expiry."""
    hop = Message(data, {1: NUMBER, 2: NUMBER, 3: NUMBER, 4: BYTES})
    ingress, egress, exp_time = (hop.last(number, 0) for number in (1, 2, 3))
    check(ingress < 1 << 16 and egress < 1 << 16 and exp_time < 256 and len(hop.last(4, b"")) == 6)
    return ingress, egress, exp_time


def entry_of(data: bytes) -> tuple[int, int, int, int, int, bytes]:
    """ISD-AS, the next one, ingress, egress, time of expiry, and the entry as it is written."""
    entry = Message(data, {1: BYTES, 2: BYTES}, (1, 2), (1,))
    signed = Message(entry.last(1, b""), {1: BYTES, 2: BYTES})
    outer, signature = signed.last(1, b""), signed.last(2, b"")
    body = Message(outer, {1: BYTES, 2: BYTES}).last(2, b"")
    body = Message(body, {1: NUMBER, 2: NUMBER, 3: BYTES, 4: BYTES, 5: NUMBER, 6: BYTES}, (3, 6), (3,))
    isd_as, follower = body.last(1, 0), body.last(2, 0)
    check(isd_as >> 48 != 0 and isd_as & (1 << 48) - 1 != 0 and body.last(5, 0) < 1 << 32)
    hop = Message(body.last(3, b""), {1: BYTES, 2: NUMBER}, (1,), (1,))
    check(hop.last(2, 0) < 1 << 32)
    ends = hop_field(hop.last(1, b""))
    for peer in body.all(4):
        peer = Message(peer, {1: NUMBER, 2: NUMBER, 3: NUMBER, 4: BYTES}, (4,), (4,))
        check(peer.last(3, 0) < 1 << 32)
        hop_field(peer.last(4, b""))
    written = model.bytes_field(1, (model.bytes_field(1, outer) if outer else b"") + (model.bytes_field(2, signature) if signature else b""))
    if entry.all(2):
        written += model.bytes_field(2, entry.last(2, b""))
    return isd_as, follower, *ends, written


@lru_cache(maxsize=1 << 14)
def segment_of(data: bytes) -> bytes | int:
    """The segment as it is written, or the code of its refusal."""
    try:
        return read_segment(data)
    except Refused as refused:
        return refused.args[0]


def read_segment(data: bytes) -> bytes:
    """The segment as it is written."""
    if len(data) > MOST_SEGMENT:
        raise Refused(TOO_LARGE)
    message = Message(data, {1: BYTES, 2: BYTES})
    entries = message.all(2)
    if not 1 <= len(entries) <= 64:
        raise Refused(ENTRIES)
    held = message.last(1, b"")
    info = Message(held, {1: NUMBER, 2: NUMBER})
    check(info.last(1, 0) < 1 << 32 and info.last(2, 0) < 1 << 16)
    hops = [entry_of(entry) for entry in entries]
    last = len(hops) - 1
    for number, (_, follower, ingress, egress, _, _) in enumerate(hops):
        wanted = hops[number + 1][0] if number < last else 0
        if follower != wanted or (ingress == 0) != (number == 0) or (egress == 0) != (number == last):
            raise Refused(CHAIN)
    if len({hop[0] for hop in hops}) != len(hops):
        raise Refused(LOOP)
    return (model.bytes_field(1, held) if held else b"") + b"".join(model.bytes_field(2, hop[5]) for hop in hops)


def read_registration(data: bytes) -> tuple:
    """The command of a registration."""
    if len(data) > MOST_REGISTRATION:
        raise Refused(TOO_LARGE)
    rows, keys = [], set()
    for entry in Message(data, {1: BYTES}).all(1):
        entry = Message(entry, {1: NUMBER, 2: BYTES}, (2,))
        key = entry.last(1, 0)
        if key not in model.TYPE_NAMES:
            raise Refused(BAD_TYPE)
        if key in keys:
            raise Refused(REPEATED)
        keys.add(key)
        for segment in Message(entry.last(2, b""), {1: BYTES}).all(1):
            if len(rows) == MOST_SEGMENTS:
                raise Refused(TOO_LARGE)
            read = segment_of(segment)
            if isinstance(read, int):
                raise Refused(read)
            rows.append((key, read))
    return ("register", tuple(rows))


def read_request(data: bytes) -> tuple[int, int]:
    """Source and destination of a lookup."""
    request = Message(data, {1: NUMBER, 2: NUMBER})
    return request.last(1, 0), request.last(2, 0)
