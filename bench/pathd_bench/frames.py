"""Segments and frames of the benchmarks: down segments from one AS to others."""
from __future__ import annotations

from collections.abc import Iterator
from pathlib import Path

from pathd_tools import TOP, messages
from pathd_tools.messages import DOWN, Hop

CORE = 0x0001_FF00_0000_0100
LEAVES = 0x0001_FF00_0001_0000
MADE = 1_700_000_000
# When a segment expires that was made then, in half seconds since 1970.
EXPIRY = 2 * MADE + 675 * 64
MAC = bytes([1, 2, 3, 4, 5, 6])
SIGNATURE = bytes(range(64))
# How many segments of a path differ in their interfaces.
NUMBERS = 65_535


def hops_of(which: int, entries: int, leaf: int | None = None) -> list[Hop]:
    """The hops of the segment of a number, which ends at the AS numbered `leaf` where one is given."""
    path = [CORE + at for at in range(entries)]
    if leaf is not None:
        path[-1] = LEAVES + leaf
    own = which % NUMBERS + 1
    return [Hop(isd_as, 0 if at == 0 else 2, 0 if at + 1 == entries else own, MAC) for at, isd_as in enumerate(path)]


def segment(which: int, entries: int, leaf: int | None = None, made: int = MADE) -> bytes:
    """The segment of a number."""
    return messages.make_segment(hops_of(which, entries, leaf), made, segment_id=which % NUMBERS + 1, signature=SIGNATURE)


def segment_id(which: int, entries: int, leaf: int | None = None) -> bytes:
    """The id of the segment of a number."""
    return messages.path_id(hops_of(which, entries, leaf))


def registrations(segments: list[bytes], at_once: int) -> Iterator[bytes]:
    """Requests that register segments as down segments, some at once."""
    for at in range(0, len(segments), at_once):
        yield messages.registration((DOWN, it) for it in segments[at : at + at_once])


def pairs(times: int) -> bytes:
    """So many times the worked segment's registration and its lookup."""
    return bytes.fromhex("".join((TOP / "crates/pathd/stdin").read_text().split())) * times


def batches(times: int) -> bytes:
    """So many times one registration of 16 segments of 8 entries."""
    return b"".join(registrations([segment(it, 8) for it in range(16)], 16)) * times


def write_rows(path: Path, numbers: range, leaves: int, earlier: int = 0) -> None:
    """Writes segments of 4 entries, each after its length in four bytes. That of number N ends at the leaf N modulo `leaves`; all were made so many seconds earlier."""
    with path.open("wb") as file:
        for which in numbers:
            content = segment(which, 4, which % leaves, MADE - earlier)
            file.write(len(content).to_bytes(4, "big") + content)
