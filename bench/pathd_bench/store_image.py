"""Writes a store to a file, whose rows are in its first half's checkpoint."""
from __future__ import annotations

import os
from pathlib import Path

from pathd_bench import frames
from pathd_tools.messages import DOWN

SECTOR = 512
# The most sectors of an area, and those of a journal.
MOST_SECTORS, JOURNAL = 1 << 20, 516
# The sector of a gate that is open.
GATE = b"\xa7" + bytes(SECTOR - 1)


def row(segment: bytes) -> bytes:
    """The record of a row."""
    return bytes([DOWN]) + len(segment).to_bytes(4, "big") + segment


def padded(content: bytes) -> bytes:
    """Whole sectors."""
    return content + bytes(-len(content) % SECTOR)


def checkpoint(segments: list[bytes]) -> bytes:
    """The checkpoint of rows whose records are in order."""
    rows = len(segments)
    records = b"".join(row(it) for it in segments)
    head = b"PCKP" + (2).to_bytes(4, "big") + (1).to_bytes(8, "big") + rows.to_bytes(8, "big")
    return padded(head + len(records).to_bytes(4, "big") + rows.to_bytes(4, "big") + records)


def write(path: Path, rows: int, entries: int) -> int:
    """Writes a store with rows of so many entries in its first half's checkpoint, and returns the bytes of a segment."""
    segments = [frames.segment(it, entries, it) for it in range(rows)]
    ids = [frames.segment_id(it, entries, it) for it in range(rows)]
    area = checkpoint([it for _, it in sorted(zip(ids, segments))])
    areas = min(2 * len(area) // SECTOR, MOST_SECTORS)
    title = b"SCPATHDB" + (1).to_bytes(4, "big") + areas.to_bytes(4, "big") + JOURNAL.to_bytes(4, "big")
    path.write_bytes(padded(title) + area + bytes(SECTOR * areas - len(area)) + GATE + bytes(SECTOR))
    os.truncate(path, SECTOR * (1 + 2 * (areas + 1 + JOURNAL)))
    return len(segments[0])
