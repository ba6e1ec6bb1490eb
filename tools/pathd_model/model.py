"""What `pathd` has to answer, written from docs/PROTOCOL.md, docs/STORE.md and
docs/CLI.md alone: rows, the fold of commands, what a lookup finds, what `show` prints, and how an
image opens. The tools that attack the program compare it with this module.

ISD-ASes are numbers, the ISD in their upper 16 bits. Moments are in half seconds since 1970. A
database is a dictionary from keys, which are a type and an id, to rows. Commands are tuples:
("register", ((type, segment), ..)), ("purge", moment) or ("remove", type, id).
"""
from __future__ import annotations

import hashlib
import struct
from collections.abc import Callable
from dataclasses import dataclass
from functools import lru_cache

UP, DOWN, CORE = 1, 2, 3
TYPE_NAMES = {UP: "up", DOWN: "down", CORE: "core"}

REGISTER, LOOKUP, PURGE, REMOVE, LIST = 1, 2, 3, 4, 5
REFUSED = 0xFF
MOST_FOUND = 64

SECTOR = 512
OPEN = 0xA7
# The codes of replies that docs/PROTOCOL.md names.
CODES = {0x01, *range(0x11, 0x16), *range(0x22, 0x2B), *range(0x31, 0x34), *range(0x41, 0x44), *range(0x51, 0x56), 0x57, *range(0x61, 0x65)}


def varint(number: int) -> bytes:
    """The shortest encoding of a number."""
    out = bytearray()
    while number >= 128:
        out.append(number & 127 | 128)
        number >>= 7
    out.append(number)
    return bytes(out)


def number_field(number: int, value: int) -> bytes:
    """A field of a number, which is left out where it is 0."""
    return varint(number * 8) + varint(value) if value else b""


def bytes_field(number: int, content: bytes) -> bytes:
    """A field of bytes."""
    return varint(number * 8 + 2) + varint(len(content)) + content


def read_varint(data: bytes, at: int) -> tuple[int, int]:
    """A number that is well spelled, and where it ends."""
    number = shift = 0
    while True:
        byte = data[at]
        at += 1
        number |= (byte & 127) << shift
        if byte < 128:
            return number, at
        shift += 7


def read_fields(data: bytes) -> list[tuple[int, int | bytes]]:
    """The numbers and the contents of the fields of a message that is in order."""
    at, fields = 0, []
    while at < len(data):
        tag, at = read_varint(data, at)
        wire = tag & 7
        if wire == 0:
            value, at = read_varint(data, at)
            fields.append((tag >> 3, value))
            continue
        length, at = read_varint(data, at) if wire == 2 else (8 if wire == 1 else 4, at)
        fields.append((tag >> 3, data[at : at + length]))
        at += length
    return fields


def last_of(data: bytes, number: int, otherwise: int | bytes) -> int | bytes:
    """The content of the last field of a number."""
    return dict(read_fields(data)).get(number, otherwise)


@dataclass(frozen=True)
class Row:
    """A segment with what is computed of it."""

    segment: bytes
    id: bytes
    first: int
    last: int
    timestamp: int
    expiry: int
    entries: int


@lru_cache(maxsize=1 << 16)
def row_of(segment: bytes) -> Row:
    """The row of a segment that is in order."""
    joined, ends, least, timestamp = b"", [], 255, 0
    for number, content in read_fields(segment):
        if number == 1:
            timestamp = last_of(content, 1, 0)
        elif number == 2:
            body = last_of(last_of(last_of(content, 1, b""), 1, b""), 2, b"")
            hop = last_of(last_of(body, 3, b""), 1, b"")
            isd_as = last_of(body, 1, 0)
            joined += struct.pack(">QHH", isd_as, last_of(hop, 1, 0), last_of(hop, 2, 0))
            least = min(least, last_of(hop, 3, 0))
            ends.append(isd_as)
    expiry = 2 * timestamp + 675 * (1 + least)
    return Row(segment, hashlib.sha256(joined).digest(), ends[0], ends[-1], timestamp, expiry, len(ends))


def apply(db: dict, command: tuple) -> tuple[int, int, int, int]:
    """Applies a command to a database, and answers how many rows were inserted, updated, kept and purged."""
    inserted = updated = kept = purged = 0
    if command[0] == "register":
        for kind, segment in command[1]:
            row = row_of(segment)
            key = (kind, row.id)
            before = db.get(key)
            if before is None:
                inserted += 1
                db[key] = row
            elif row.timestamp > before.timestamp:
                updated += 1
                db[key] = row
            else:
                kept += 1
    elif command[0] == "purge":
        gone = [key for key, row in db.items() if row.expiry <= command[1]]
        purged = len(gone)
        for key in gone:
            del db[key]
    elif db.pop(command[1:], None) is not None:
        purged = 1
    return inserted, updated, kept, purged


def covers(side: int, isd_as: int) -> bool:
    """Whether a side of a query, in which a zero part is any, covers an ISD-AS."""
    isd, asn = side >> 48, side & (1 << 48) - 1
    return isd in (0, isd_as >> 48) and asn in (0, isd_as & (1 << 48) - 1)


def classify(cores: set[int], source: int, destination: int) -> tuple[int, int, int] | int:
    """The type and the two ends that a lookup asks for, or the code of its refusal."""
    if source == 0 and destination == 0:
        return 0x41
    if any(side >> 48 == 0 and side != 0 for side in (source, destination)):
        return 0x42
    from_core, to_core = (side & (1 << 48) - 1 == 0 or side in cores for side in (source, destination))
    if not from_core and not to_core:
        return 0x43
    if from_core and to_core:
        return CORE, destination, source
    return (UP, destination, source) if to_core else (DOWN, source, destination)


def matching_keys(db: dict, query: tuple[int, int, int], now: int = 0) -> list[tuple[int, bytes]]:
    """The keys of the rows that match a query and are valid, in order."""
    kind, start, end = query
    return sorted(
        key for key, row in db.items() if key[0] == kind and covers(start, row.first) and covers(end, row.last) and row.expiry > now
    )


def matching(db: dict, query: tuple[int, int, int], now: int = 0) -> list[bytes]:
    """The segments that a query finds."""
    return [db[key].segment for key in matching_keys(db, query, now)[:MOST_FOUND]]


def page(db: dict, query: tuple[int, int, int], after: bytes = b"", now: int = 0) -> tuple[list[bytes], bool]:
    """The segments of a page after an id, or of the first page, and whether more follow."""
    keys = [key for key in matching_keys(db, query, now) if not after or key > (query[0], after)]
    return [db[key].segment for key in keys[:MOST_FOUND]], len(keys) > MOST_FOUND


def found_body(kind: int, segments: list[bytes]) -> bytes:
    """The body of a lookup's reply."""
    if not segments:
        return b""
    listed = b"".join(bytes_field(1, segment) for segment in segments)
    return bytes_field(1, number_field(1, kind) + bytes_field(2, listed))


def listed_body(kind: int, segments: list[bytes], is_more: bool) -> bytes:
    """The body of a list's reply."""
    return bytes([is_more]) + found_body(kind, segments)


def isd_as_text(number: int) -> str:
    """The canonical text of an ISD-AS."""
    isd, asn = number >> 48, number & (1 << 48) - 1
    if asn < 1 << 32:
        return f"{isd}-{asn}"
    return f"{isd}-{asn >> 32:x}:{asn >> 16 & 0xFFFF:x}:{asn & 0xFFFF:x}"


def show_text(db: dict, place: int) -> bytes:
    """What `show` prints of a database and a place."""
    lines = []
    for (kind, _), row in sorted(db.items()):
        ends = f"{isd_as_text(row.first)} {isd_as_text(row.last)}"
        lines.append(f"{TYPE_NAMES[kind]} {row.id.hex()} {row.timestamp} {row.expiry} {ends} {row.entries}\n")
    return ("".join(lines) + f"place {place}\n").encode()


# Requests


def command_of(content: bytes) -> tuple:
    """The command of a request's frame, which is in order and no lookup's or list's."""
    kind, body = content[0], content[1:]
    if kind == PURGE:
        return ("purge", int.from_bytes(body, "big"))
    if kind == REMOVE:
        return ("remove", body[0], body[1:])
    rows = []
    for _, entry in read_fields(body):
        key = last_of(entry, 1, 0)
        rows += [(key, segment) for _, segment in read_fields(last_of(entry, 2, b""))]
    return ("register", tuple(rows))


def lookup_of(content: bytes) -> tuple[int, int]:
    """The source and the destination of a lookup's frame."""
    fields = dict(read_fields(content[1:]))
    return fields.get(1, 0), fields.get(2, 0)


def list_of(content: bytes) -> tuple[int, int, int, bytes]:
    """The type, the start, the end and the id of a list's frame, whose length is right; without an id it is empty."""
    kind, start, end = struct.unpack_from(">BQQ", content, 1)
    return kind, start, end, content[18:]


# Stores


# Judges whether bytes are a segment.
IsSegment = Callable[[bytes], bool]


class NoStore(Exception):
    """An image that doesn't open; its text is the line that `show` prints."""


@dataclass(frozen=True)
class Layout:
    """Where the parts of a store begin, in sectors."""

    checkpoint: int
    journal: int

    @property
    def sectors(self) -> int:
        """How many sectors a store has."""
        return 1 + 2 * (self.checkpoint + 1 + self.journal)

    def area(self, half: int) -> int:
        """The checkpoint area of a half."""
        return 1 + half * (self.checkpoint + 1 + self.journal)

    def gate(self, half: int) -> int:
        """The gate of a half; its journal is after it."""
        return self.area(half) + self.checkpoint


def layout_of(image: bytes) -> Layout:
    """The layout that sector 0 names."""
    title, number, checkpoint, journal = struct.unpack_from(">8sIII", image)
    layout = Layout(checkpoint, journal)
    is_sized = 2 <= checkpoint <= 1 << 20 and 516 <= journal <= 1 << 20
    if title != b"SCPATHDB" or number != 1 or not is_sized or layout.sectors > len(image) // SECTOR:
        raise NoStore("error: open 1")
    return layout


def head_of(image: bytes, sector: int) -> tuple[int, int, int]:
    """Version, epoch and place of a checkpoint."""
    magic, version, epoch, place = struct.unpack_from(">4sIQQ", image, sector * SECTOR)
    if magic != b"PCKP" or version == 0:
        raise NoStore("error: open 3 3")
    if version > 2:
        raise NoStore("error: open 3 5")
    return version, epoch, place


@lru_cache(maxsize=1 << 16)
def command_in(record: bytes, version: int, is_segment: IsSegment) -> tuple:
    """The command of a record."""
    if record[:1] == b"\2" and len(record) == 9:
        return ("purge", int.from_bytes(record[1:], "big"))
    if record[:1] == b"\3" and len(record) == 34 and version > 1 and record[1] in TYPE_NAMES:
        return ("remove", record[1], record[2:])
    if record[:1] != b"\1" or len(record) < 2 or record[1] > 16:
        raise NoStore("error: open 4 2")
    rows, at = [], 2
    for _ in range(record[1]):
        if at + 5 > len(record):
            raise NoStore("error: open 4 2")
        kind, size = record[at], int.from_bytes(record[at + 1 : at + 5], "big")
        if kind not in TYPE_NAMES or size > 16384 or at + 5 + size > len(record) or not is_segment(record[at + 5 : at + 5 + size]):
            raise NoStore("error: open 4 2")
        rows.append((kind, record[at + 5 : at + 5 + size]))
        at += 5 + size
    if at != len(record) or sum(len(segment) for _, segment in rows) > 131072:
        raise NoStore("error: open 4 2")
    return ("register", tuple(rows))


def scan(image: bytes, first: int, sectors: int, place: int, version: int, is_segment: IsSegment) -> tuple[list[tuple], bool]:
    """The commands of a journal, and whether it is sealed."""
    commands, gate = [], 0
    while gate < sectors and image[(first + gate) * SECTOR] == OPEN:
        if gate + 1 >= sectors:
            raise NoStore("error: open 4 4")
        at = (first + gate + 1) * SECTOR
        kind, count, zeros, size, its_place = struct.unpack_from(">BBHIQ", image, at)
        is_seal = kind == 2 and count == 0 and size == 0
        is_group = kind == 1 and 1 <= count <= (8 if version == 1 else 32) and size <= 262144 and its_place + count < 1 << 64
        if zeros or not (is_seal or is_group):
            raise NoStore("error: open 4 1")
        if its_place != place + len(commands):
            raise NoStore("error: open 4 3")
        payload = (16 + size + SECTOR - 1) // SECTOR
        if is_group and gate + 1 + payload + 2 > sectors:
            raise NoStore("error: open 4 4")
        if any(image[at + 16 + size : at + payload * SECTOR]):
            raise NoStore("error: open 4 2")
        if is_seal:
            return commands, True
        records, end = at + 16, at + 16 + size
        for _ in range(count):
            length = int.from_bytes(image[records : records + 4], "big")
            if records + 4 + length > end:
                raise NoStore("error: open 4 2")
            commands.append(command_in(bytes(image[records + 4 : records + 4 + length]), version, is_segment))
            records += 4 + length
        if records != end:
            raise NoStore("error: open 4 2")
        gate += 1 + payload
    return commands, False


@dataclass(frozen=True)
class Opened:
    """What an image means: the checkpoint's rows, the place up to which they are folded, and the commands after it."""

    version: int
    place: int
    rows: dict
    commands: list[tuple]

    def fold(self) -> tuple[dict, int]:
        """The database and the place reached."""
        db = dict(self.rows)
        for command in self.commands:
            apply(db, command)
        return db, self.place + len(self.commands)


def open_image(image: bytes, is_segment: IsSegment = lambda _: True) -> Opened:
    """Opens an image. `is_segment` judges whether bytes are a segment as it is written; if nothing is said all are."""
    if len(image) < SECTOR:
        raise NoStore("error: open 1")
    layout = layout_of(image)
    heads = {half: head_of(image, layout.area(half)) for half in (0, 1) if image[layout.gate(half) * SECTOR] == OPEN}
    if not heads:
        raise NoStore("error: open 3 1")
    if len(heads) == 2 and heads[0][1] == heads[1][1]:
        raise NoStore("error: open 3 2")
    chosen = max(heads, key=lambda half: heads[half][1])
    version, _, place = heads[chosen]
    rows = rows_of(image, layout.area(chosen) * SECTOR, layout.checkpoint * SECTOR - 32, is_segment)
    commands, is_sealed = scan(image, layout.gate(chosen) + 1, layout.journal, place, version, is_segment)
    if is_sealed:
        other = 1 - chosen
        if other in heads:
            raise NoStore("error: open 3 4")
        more, is_sealed = scan(image, layout.gate(other) + 1, layout.journal, place + len(commands), version, is_segment)
        if is_sealed:
            raise NoStore("error: open 3 4")
        commands += more
    return Opened(version, place, rows, commands)


def rows_of(image: bytes, area: int, room: int, is_segment: IsSegment) -> dict:
    """The rows of a checkpoint."""
    size, count = struct.unpack_from(">II", image, area + 24)
    if size > room:
        raise NoStore("error: open 3 3")
    rows, at, end = {}, area + 32, area + 32 + size
    for _ in range(count):
        kind, length = struct.unpack_from(">BI", image, at) if at + 5 <= end else (0, 0)
        if kind not in TYPE_NAMES or at + 5 + length > end or not is_segment(bytes(image[at + 5 : at + 5 + length])):
            raise NoStore("error: open 3 3")
        row = row_of(bytes(image[at + 5 : at + 5 + length]))
        if rows and (kind, row.id) <= max(rows):
            raise NoStore("error: open 3 3")
        rows[(kind, row.id)] = row
        at += 5 + length
    if at != end:
        raise NoStore("error: open 3 3")
    return rows
