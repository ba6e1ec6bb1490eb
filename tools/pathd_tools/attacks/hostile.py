"""Sends mutated frames to `pathd once` and opens mutated images by `pathd show`, and compares each
answer with the one that docs/PROTOCOL.md and docs/STORE.md give.

    tools/pathd-tools hostile [--program PROGRAM] [--seed N] [--frames N] [--images N] [--jobs N]

Frames are mutated bytewise, and field by field with the lengths around a field set right; among
them are registrations, segments and lookups' replies of the greatest sizes. Some sessions begin by
filling the store. Others begin with thousands of rows of many ASes, and go on with lookups and
pages of them, removals, and purges that drop some. Each reply has to be, to the byte, that of
tools/pathd_model: its code, the place, the counts, the segments found or listed, and whether more
follow. In some sessions it is later than the expiry of some segments. Each session ends with a
frame that is none: the status and the line have to be those of its fault. Images come from recorded
stores of both versions, with and without seals; what `show` prints of a mutated one, or the line by
which it refuses it, has to be that of the model.

It needs Python 3 and gcc. It ends with the status 1 where an answer is another one, and prints the
first ones.
"""
from __future__ import annotations

import multiprocessing
import random
import re
import struct
import subprocess
import time
from collections import Counter
from functools import lru_cache
from pathlib import Path

from pathd_model import model, reading
from pathd_tools import messages, runs
from pathd_tools.recording import Disk, record

SESSION = 2_000
ONCE_WORDS = ["--cores", "1-ff00:0:110,2-64512"]
SMALL = model.Layout(8, 516)
# The greatest body of a frame; how many bytes of rows the store of `once` holds, and the code of
# what exceeds them.
MOST_BODY = 131_072
ROOM = 2_097_120
FULL, EXPIRED = 0x52, 0x32
# How many requests are made of the greatest ones, and which sessions begin with a full store.
OF_GREATEST = 0.015
FILLED_EVERY = 20
# The ends of the greatest segments, and the lookup that finds them all.
FAR = (0x0001_FF00_0000_0900, 0x0001_FF00_0000_0901)
FAR_QUERY = (1 << 48, FAR[1])
# Which sessions begin with this number of rows, and of which ISDs and ASes their ends are. In the
# other sessions the moment is one of these.
WIDE_EVERY, WIDE_AT = 20, 7
WIDE_ROWS, WIDE_ISDS, WIDE_ASES = 6_000, 6, 24
MOMENTS = (0, 0, 2 * runs.MADE + 675 * 62 + 60_000)
INTERESTING = [0, 1, 2, 0x7F, 0x80, 0x81, 0xA7, 0xFE, 0xFF]


# How a standard error begins that says why a command failed, before the line that names the kind.
REASON = re.compile(rb"pathd: [^\n]+\n")


def kind_line(errors: bytes) -> bytes:
    """A standard error without the line that says why, where there is one."""
    return REASON.sub(b"", errors, count=1)


# Frames


def valid_bodies(seed: str) -> list[tuple[int, bytes]]:
    """Kinds and bodies of requests that are in order, with each field that a message knows."""
    commands = runs.Commands(seed, 24)
    bodies = []
    for _ in range(60):
        command = commands.next(0.15, 0.05)
        frame = messages.command_frame(command)
        bodies.append((frame[4], frame[5:]))
    bodies += [(model.LOOKUP, messages.lookup_frame(*query)[5:]) for query in runs.QUERIES]
    bodies += [(model.REGISTER, full_registration(number)) for number in range(6)]
    bodies.append((model.LOOKUP, b""))
    bodies.append((model.REGISTER, b""))
    return bodies


def full_registration(number: int) -> bytes:
    """A registration whose segment has peers, extensions, a header, signatures and unknown fields."""
    number_field, bytes_field = messages.number_field, messages.bytes_field
    hops = [messages.Hop(runs.CORE_A, 0, 3), messages.Hop(runs.LEAVES[number % 4], 4 + number, 5), messages.Hop(runs.LEAVES[0] + 9, 6, 0)]
    segment = bytes_field(1, number_field(1, runs.MADE + number) + number_field(2, 9) + number_field(9, 1))
    for at, hop in enumerate(hops):
        follower = hops[at + 1].isd_as if at + 1 < len(hops) else 0
        field = number_field(1, hop.ingress) + number_field(2, hop.egress) + number_field(3, 60 + at) + bytes_field(4, b"sixsix")
        peer = number_field(1, 77) + number_field(2, 1 << 40) + number_field(3, 1400) + bytes_field(4, bytes_field(4, bytes(6)))
        body = number_field(1, hop.isd_as) + number_field(2, follower) + bytes_field(3, bytes_field(1, field) + number_field(2, 1500))
        body += bytes_field(4, peer) * number + number_field(5, 1472) + bytes_field(6, b"\xff extensions") + bytes_field(15, b"unknown")
        signed = bytes_field(1, bytes_field(1, b"header") + bytes_field(2, body)) + bytes_field(2, bytes(64))
        segment += bytes_field(2, bytes_field(1, signed) + (bytes_field(2, b"unsigned") if number % 2 else b""))
    return bytes_field(1, number_field(1, 1 + number % 3) + bytes_field(2, bytes_field(1, segment) + bytes_field(1, segment)))


def far_segment(number: int, size: int, entries: int = 2) -> bytes:
    """A segment of this number of bytes, with an id of its own for each number."""
    between = [messages.Hop(FAR[1] + 1 + it, 5, 6) for it in range(entries - 2)]
    return messages.segment_of_size([messages.Hop(FAR[0], 0, 1 + number), *between, messages.Hop(FAR[1], 1, 0)], runs.MADE + number, size)


def far_registration(segments: list[bytes]) -> bytes:
    """The body that registers segments as down."""
    return bytes_of_type(model.DOWN, b"".join(messages.bytes_field(1, segment) for segment in segments))


def bytes_of_type(kind: int, listed: bytes) -> bytes:
    """The body that registers what is listed as one type."""
    return messages.bytes_field(1, messages.number_field(1, kind) + messages.bytes_field(2, listed))


def filled_registration(first: int, count: int, size: int, length: int = MOST_BODY) -> bytes:
    """A registration whose body has just this length: all segments but the last have a size."""
    segments = [far_segment(first + it, size) for it in range(count - 1)]
    last = far_segment(first + count, length - len(far_registration(segments)) - 16)
    left = length - len(far_registration([*segments, last]))
    return far_registration([*segments, far_segment(first + count, len(last) + left)])


@lru_cache(maxsize=None)
def greatest_bodies() -> list[tuple[int, bytes]]:
    """Kinds and bodies of requests at the limits of sizes and counts, and just beyond them."""
    small = [far_segment(900 + it, 300) for it in range(17)]
    bodies = [filled_registration(0, 16, 8_180), filled_registration(100, 8, 16_384), filled_registration(200, 9, 16_384 - 1_900)]
    bodies += [far_registration([far_segment(300, size)]) for size in (16_383, 16_384, 16_385)]
    bodies += [far_registration([far_segment(310 + it, 16_384) for it in range(count)]) for count in (2, 7)]
    bodies += [far_registration(small[:count]) for count in (15, 16, 17)]
    bodies += [far_registration([far_segment(400 + it, 16_384, it)]) for it in (63, 64, 65)]
    bodies.append(far_registration([far_segment(500 + it, 6_000, 64) for it in range(16)]))
    bodies.append(far_registration([*(far_segment(600 + it, 8_000) for it in range(15)), far_segment(620, 16_385)])[:MOST_BODY])
    requests = [(model.REGISTER, body) for body in bodies]
    requests += [(model.LOOKUP, messages.lookup_frame(*FAR_QUERY)[5:])] * 2
    requests.append((model.LOOKUP, messages.lookup_frame(*FAR_QUERY)[5:] + messages.bytes_field(9, bytes(MOST_BODY - 40))))
    return requests


@lru_cache(maxsize=None)
def filling_requests() -> list[tuple[int, bytes]]:
    """Registrations that fill the store of `once` to the byte, some that don't fit, and the lookup of the greatest reply."""
    bodies = [filled_registration(2_000 + 100 * it, 8, 16_384) for it in range(15)]
    # The records of each of these have 131,071 bytes: 131,055 are left, which the third of the next
    # ones takes.
    bodies += [filled_registration(4_000 + 100 * less, 8, 16_384, MOST_BODY - less) for less in (0, 15, 16)]
    bodies.append(far_registration([far_segment(9_000, 700)]))
    return [*((model.REGISTER, body) for body in bodies), (model.LOOKUP, messages.lookup_frame(*FAR_QUERY)[5:])]


class Wide:
    """Requests about rows whose ends are of many ASes."""

    def __init__(self, chance: random.Random) -> None:
        self.chance = chance
        self.rows: list[tuple[int, list[messages.Hop]]] = []
        for number in range(WIDE_ROWS):
            ends = chance.sample(range(WIDE_ISDS * WIDE_ASES), 2)
            # Some ASes have many rows.
            first, last = (self._isd_as(it if chance.random() < 0.8 else it % 5) for it in ends)
            hops = [messages.Hop(first, 0, 1 + number), messages.Hop(last if last != first else first + 512, 1 + number % 7, 0)]
            self.rows.append((1 + number % 3, hops))

    @staticmethod
    def _isd_as(number: int) -> int:
        return (1 + number // WIDE_ASES) << 48 | 0xFF00_0000_0110 + number % WIDE_ASES

    def filling(self) -> list[tuple[int, bytes]]:
        """Registrations of all rows."""
        return [self._registration(self.rows[at : at + 16]) for at in range(0, len(self.rows), 16)]

    def _registration(self, rows: list[tuple[int, list[messages.Hop]]]) -> tuple[int, bytes]:
        made = [(kind, messages.make_segment(hops, runs.MADE + self.chance.randrange(100_000))) for kind, hops in rows]
        return model.REGISTER, messages.registration(made)[5:]

    def _side(self) -> int:
        isd_as = self._isd_as(self.chance.randrange(WIDE_ISDS * WIDE_ASES))
        return self.chance.choice((isd_as, isd_as, isd_as >> 48 << 48, 0, isd_as & (1 << 48) - 1))

    def next(self) -> tuple[int, bytes]:
        """A lookup, a registration, a removal or a purge."""
        fate = self.chance.random()
        kind, hops = self.chance.choice(self.rows)
        if fate < 0.6:
            sides = self.chance.choice(((self._side(), self._side()), (runs.CORE_A, self._side()), (hops[-1].isd_as, runs.CORE_A)))
            return model.LOOKUP, messages.lookup_frame(*sides)[5:]
        if fate < 0.75:
            return self._registration(self.chance.sample(self.rows, 3))
        if fate < 0.95:
            return model.REMOVE, bytes([kind]) + messages.path_id(hops)
        # Most drop some rows that the ones before have left, and some drop none.
        return model.PURGE, struct.pack(">Q", 2 * (runs.MADE + self.chance.randrange(6_000)) + 675 * 64)


def mutated_bytes(data: bytes, others: list[bytes], chance: random.Random) -> bytes:
    """The bytes with some of them changed, taken out, put in, doubled or taken from elsewhere."""
    data = bytearray(data)
    for _ in range(chance.choice((1, 1, 1, 2, 4))):
        at = chance.randrange(len(data) + 1)
        how = chance.randrange(8)
        if how == 0 and at < len(data):
            data[at] ^= 1 << chance.randrange(8)
        elif how == 1 and at < len(data):
            data[at] = chance.choice(INTERESTING)
        elif how == 2 and at < len(data):
            data[at] = chance.randrange(256)
        elif how == 3:
            del data[at : at + chance.choice((1, 1, 2, 8, 40))]
        elif how == 4:
            data[at:at] = chance.randbytes(chance.choice((1, 1, 2, 9, 11)))
        elif how == 5:
            data[at:at] = data[at : at + chance.randrange(1, 60)]
        elif how == 6:
            del data[at:]
        else:
            other = chance.choice(others)
            start = chance.randrange(len(other) + 1)
            data[at : at + chance.randrange(20)] = other[start : start + chance.randrange(60)]
    return bytes(data)


def long_varint(number: int, chance: random.Random) -> bytes:
    """A number, in now and then more bytes than it takes."""
    short = messages.varint(number)
    if chance.random() < 0.9 or len(short) > 8:
        return short
    return bytes(byte | 0x80 for byte in short) + b"\x80" * chance.randrange(0, 10 - len(short)) + b"\0"


def mutated_fields(data: bytes, chance: random.Random, depth: int = 0) -> bytes:
    """A message in which one field, at any depth, is changed, with the lengths around it set right."""
    try:
        fields = reading.fields_of(data)
    except reading.Refused:
        return mutated_bytes(data, [data], chance)
    if not fields:
        return data + chance.choice((b"", messages.number_field(1, 5), messages.bytes_field(2, b"")))
    fields = [list(it) for it in fields]
    at = chance.randrange(len(fields))
    number, wire, value = fields[at]
    how = chance.randrange(10)
    if isinstance(value, bytes) and value and how < 7 and depth < 9:
        fields[at][2] = mutated_fields(value, chance, depth + 1)
    elif how == 7:
        fields.insert(chance.randrange(len(fields) + 1), list(fields[at]))
    elif how == 8:
        del fields[at]
    elif how == 9:
        fields[at][0] = chance.choice((1, 2, 3, 4, 5, 6, 7, 1 << 28, (1 << 29) - 1))
    elif isinstance(value, int):
        fields[at][2] = chance.choice(
            (0, 1, value ^ 1, value + 1, 1 << 16, (1 << 16) - 1, 255, 256, 1 << 32, (1 << 32) - 1, 1 << 48, (1 << 64) - 1, chance.getrandbits(64))
        )
    elif chance.random() < 0.5:
        fields[at][1], fields[at][2] = chance.choice(((0, 7), (1, bytes(8)), (5, bytes(4))))
    else:
        fields[at][2] = chance.choice((b"", bytes(5), bytes(6), bytes(7), b"\xff" * 20))
    if chance.random() < 0.1:
        chance.shuffle(fields)
    return b"".join(spelled(*field, chance) for field in fields)


def spelled(number: int, wire: int, value: int | bytes, chance: random.Random) -> bytes:
    """A field."""
    tag = long_varint(number * 8 + wire, chance)
    if isinstance(value, int):
        return tag + long_varint(value & (1 << 64) - 1, chance)
    return tag + (long_varint(len(value), chance) if wire == 2 else b"") + value


def mutated_request(bodies: list[tuple[int, bytes]], chance: random.Random) -> tuple[int, bytes]:
    """A kind and a body, whose length is one that the kind may have."""
    is_greatest = chance.random() < OF_GREATEST
    kind, body = chance.choice(greatest_bodies() if is_greatest else bodies)
    if kind == model.PURGE:
        return kind, struct.pack(">Q", chance.choice((0, chance.getrandbits(64), 2 * runs.MADE + chance.randrange(250_000))))
    if kind == model.REMOVE:
        at = chance.randrange(33)
        return kind, body[:at] + bytes([chance.randrange(5)]) + body[at + 1 :] if chance.random() < 0.5 else body
    if chance.random() < (0.5 if is_greatest else 0.1):
        return kind, body
    for _ in range(chance.choice((1, 1, 2))):
        body = mutated_fields(body, chance) if chance.random() < 0.6 else mutated_bytes(body, [it for _, it in bodies], chance)
    if kind == model.REGISTER and chance.random() < 0.002:
        body = bytes_of_type(model.DOWN, body * (1 + 140_000 // (1 + len(body))))
    return kind, body[:MOST_BODY]


def broken_frame(bodies: list[tuple[int, bytes]], chance: random.Random) -> tuple[bytes, bytes]:
    """What ends a session, and the line that says so."""
    kind, body = chance.choice(bodies)
    how = chance.randrange(7)
    if how == 0:
        return struct.pack(">I", chance.choice((0, 131_074, 1 << 31, (1 << 32) - 1))) + chance.randbytes(chance.randrange(9)), b"error: frame 1\n"
    if how == 1:
        return struct.pack(">IB", 1 + len(body), chance.choice((0, model.LIST, 6, 0x81, 0xFF))) + body, b"error: frame 2\n"
    if how == 2:
        return struct.pack(">IB", chance.choice((1, 8, 10, 131_073)), 3) + chance.randbytes(8), b"error: frame 1\n"
    if how == 3:
        return struct.pack(">IB", chance.choice((1, 33, 35, 131_073)), 4) + chance.randbytes(33), b"error: frame 1\n"
    if how == 4:
        return struct.pack(">IB", chance.choice((1, 17, 18, 50, 51, 131_073)), model.LIST) + chance.randbytes(49), b"error: frame 2\n"
    frame = messages.frame(kind, body)
    return frame[: chance.randrange(1, len(frame))], b"error: frame 3\n"


class Session:
    """What a session of `once` answers at a moment."""

    def __init__(self, now: int = 0) -> None:
        self.now = now
        self.db: dict = {}
        self.place = 0
        # At least as many bytes as the records of all rows have.
        self.most_bytes = 0

    def reply(self, kind: int, body: bytes) -> bytes:
        """The content of the reply to a request."""
        try:
            if kind == model.LOOKUP:
                return self._found(*reading.read_request(body))
            if kind == model.REGISTER:
                command = reading.read_registration(body)
                if any(model.row_of(segment).expiry <= self.now for _, segment in command[1]):
                    return bytes([model.REFUSED, EXPIRED])
            elif kind == model.PURGE:
                command = ("purge", int.from_bytes(body, "big"))
            elif body[0] not in model.TYPE_NAMES:
                return bytes([model.REFUSED, reading.BAD_TYPE])
            else:
                command = ("remove", body[0], body[1:])
        except reading.Refused as refused:
            return bytes([model.REFUSED, refused.args[0]])
        if not self._fits(command):
            return bytes([model.REFUSED, FULL])
        place, self.place = self.place, self.place + 1
        return struct.pack(">BQIIII", 0x80 + kind, place, *model.apply(self.db, command))

    def _fits(self, command: tuple) -> bool:
        """Whether the rows after a command fit the store."""
        added = sum(5 + len(segment) for _, segment in command[1]) if command[0] == "register" else 0
        self.most_bytes += added
        if self.most_bytes <= ROOM:
            return True
        after = dict(self.db)
        model.apply(after, command)
        size = sum(5 + len(row.segment) for row in after.values())
        self.most_bytes = size if size <= ROOM else self.most_bytes - added
        return size <= ROOM

    def _found(self, source: int, destination: int) -> bytes:
        query = model.classify(runs.CORES, source, destination)
        if isinstance(query, int):
            return bytes([model.REFUSED, query])
        return b"\x82" + model.found_body(query[0], model.matching(self.db, query, self.now))


def try_frames(given: tuple) -> tuple[Counter, list[str]]:
    """Sends mutated frames in sessions of some thousand."""
    program, seed, worker, count = given
    chance = random.Random(f"{seed}/frames/{worker}")
    counts: Counter = Counter()
    faults: list[str] = []
    while counts["frames"] < count and len(faults) < 5:
        bodies = valid_bodies(f"{seed}/{worker}/{counts['frames'] % 7}")
        requests = [mutated_request(bodies, chance) for _ in range(SESSION)]
        now = chance.choice(MOMENTS)
        if counts["sessions"] % FILLED_EVERY == 0:
            requests, now = filling_requests() + requests[len(filling_requests()) :], 0
        elif counts["sessions"] % WIDE_EVERY == WIDE_AT:
            wide, now = Wide(chance), 0
            requests = [*wide.filling(), *(wide.next() for _ in range(SESSION))]
        last, line = broken_frame(bodies, chance)
        data = b"".join(messages.frame(*request) for request in requests) + last
        done = subprocess.run([program, "once", *ONCE_WORDS, "--now", str(now)], input=data, capture_output=True, check=False, timeout=300)
        session = Session(now)
        wanted = [session.reply(*request) for request in requests]
        replies, rest = messages.whole_frames(done.stdout)
        counts["frames"] += len(requests)
        counts["sessions"] += 1
        counts[line.decode().strip()] += 1
        for content in wanted:
            counts[f"refused {content[1]:#04x}" if content[0] == model.REFUSED else f"reply {content[0]:#04x}"] += 1
        if replies != wanted or rest:
            at = next((it for it, (one, other) in enumerate(zip(replies, wanted)) if one != other), min(len(replies), len(wanted)))
            got = replies[at].hex() if at < len(replies) else "nothing"
            faults.append(f"{messages.frame(*requests[at])[:200].hex()} is answered by {got[:80]}, and not {wanted[at].hex()[:80]}")
        elif (done.returncode, kind_line(done.stderr)) != (1, line):
            faults.append(f"{last.hex()[:80]} ends a session with {done.returncode}, {done.stderr}, and not {line}")
    return counts, faults


# Images


def is_segment(data: bytes) -> bool:
    """Whether bytes are a segment as it is written."""
    return reading.segment_of(data) == data


def judged_image(image: bytes) -> tuple[int, bytes, bytes]:
    """Status, output and errors of `show`, by the model."""
    try:
        opened = model.open_image(image, is_segment)
        db, place = opened.fold()
    except model.NoStore as refused:
        return 1, b"", f"{refused}\n".encode()
    return 0, model.show_text(db, place), b""


def make_images(program: str, library: str, folder: Path, seed: int) -> list[bytes]:
    """Images of stores of both versions: fresh, with groups, with a seal, with a new half, after a checkpoint."""
    images = []
    for version in (1, 2):
        run = record(program, library, folder, f"{seed}/{version}", 1_500, SMALL, version)
        disk = Disk(run.first)
        chance = random.Random(f"{seed}/images/{version}")
        for call in run.calls:
            disk.follow(call)
            is_of_halves = call.letter == "W" and (call.offset // model.SECTOR - 1) % (SMALL.checkpoint + 1 + SMALL.journal) <= SMALL.checkpoint
            if is_of_halves or chance.random() < 0.01:
                image = bytearray(disk.kept)
                for _, _, offset, content in disk.writes:
                    image[offset : offset + len(content)] = content
                images.append(bytes(image))
    return images


def mutated_image(image: bytes, chance: random.Random) -> bytes:
    """An image in which some bytes or sectors are others."""
    image = bytearray(image)
    sector = model.SECTOR
    heads = [0, *(SMALL.area(half) + at for half in (0, 1) for at in (0, 1)), *(SMALL.gate(half) + at for half in (0, 1) for at in range(8))]
    for _ in range(chance.choice((1, 1, 1, 2, 3))):
        used = chance.randrange(SMALL.sectors)
        at = chance.choice(heads) if chance.random() < 0.6 else used
        how = chance.randrange(9)
        start = at * sector
        within = chance.randrange(40) if chance.random() < 0.7 else chance.randrange(sector)
        if how < 3:
            image[start + within] ^= 1 << chance.randrange(8)
        elif how < 5:
            image[start + within] = chance.choice(INTERESTING)
        elif how == 5:
            other = chance.choice(heads) * sector
            image[start : start + sector] = image[other : other + sector]
        elif how == 6:
            image[start : start + sector] = chance.choice((bytes(sector), b"\xa5" * sector, chance.randbytes(sector), b"\xa7" + bytes(sector - 1)))
        elif how == 7:
            image[start + within : start + within + 8] = struct.pack(">Q", chance.choice((0, 1, 255, (1 << 64) - 1, chance.getrandbits(64))))[-8:]
        elif chance.random() < 0.2:
            del image[chance.randrange(len(image)) :]
        else:
            image[start + within : start + within + 4] = chance.randbytes(4)
        if len(image) < SMALL.sectors * sector:
            break
    return bytes(image)


def try_images(given: tuple) -> tuple[Counter, list[str]]:
    """Opens mutated images."""
    program, library, top, images, seed, worker, count = given
    folder = Path(top) / f"images{worker}"
    folder.mkdir()
    chance = random.Random(f"{seed}/images/{worker}")
    counts: Counter = Counter()
    faults: list[str] = []
    files = [folder / f"image{number}" for number in range(10)]
    again = runs.Again(library, [program, "show", str(files[0])], folder)
    while counts["images"] < count and len(faults) < 5:
        mutated = [mutated_image(images[chance.randrange(len(images))], chance) for _ in files]
        for file, image in zip(files, mutated):
            file.write_bytes(image)
        for image, (status, out, errors) in zip(mutated, again.run(len(files))):
            got, wanted = (status, out, kind_line(errors)), judged_image(image)
            counts["images"] += 1
            counts["image: opened" if wanted[0] == 0 else f"image: {wanted[2].decode().strip()}"] += 1
            if got != wanted:
                kept = Path(f"/tmp/pathd-image-{seed}-{worker}-{counts['images']}")
                kept.write_bytes(image)
                faults.append(f"{kept}: {got[0]} {got[1][-30:]!r} {got[2]!r}, and not {wanted[0]} {wanted[1][-30:]!r} {wanted[2]!r}")
    again.close()
    return counts, faults


# The script


def main(words: list[str]) -> int:
    """Tries frames and images, and prints what was answered."""
    options, program = runs.begin(__doc__, words, seed=1, frames=1_000_000, images=100_000, jobs=2)
    counts: Counter = Counter()
    faults: list[str] = []
    with runs.scratch() as folder, multiprocessing.Pool(options.jobs) as pool:
        frames = [(program, options.seed, worker, options.frames // options.jobs) for worker in range(options.jobs)]
        for of_worker, found in pool.imap_unordered(try_frames, frames):
            counts += of_worker
            faults += found
        print(f"  {counts['frames']} frames, {len(faults)} differ, {time.monotonic() - options.since:.0f} seconds", flush=True)
        recorder, forker = runs.compiled("recorded_calls.c", folder), runs.compiled("run_again.c", folder)
        images = make_images(program, recorder, folder, options.seed) if options.images else []
        print(f"  {len(images)} images to be mutated", flush=True)
        given = [(program, forker, str(folder), images, options.seed, worker, options.images // options.jobs) for worker in range(options.jobs)]
        for of_worker, found in pool.imap_unordered(try_images, given):
            counts += of_worker
            faults += found
    return runs.end(options, f"{counts['frames']} frames, {counts['images']} images, {len(faults)} differ", faults, counts)
