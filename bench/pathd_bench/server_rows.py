"""Fills a server with rows: down segments of two entries from 1-ff00:0:110 to 1-ff00:0:111, each
with interfaces of its own. A segment has 88 bytes, and 220 with signatures of 64 bytes.
"""
from __future__ import annotations

import socket

from pathd_tools import messages
from pathd_tools.messages import DOWN, Hop

IN_A_REGISTRATION = 16
AT_ONCE = 64
CORE, LEAF = 0x0001_FF00_0000_0110, 0x0001_FF00_0000_0111
CORE_MAC, LEAF_MAC = bytes.fromhex("010203040506"), bytes.fromhex("0a0b0c0d0e0f")
# Segments of 2096, so that none expires by the machine's clock.
MADE = 4_000_000_000
# The bytes of an acknowledgement.
REPLY = 29


def segment(number: int, signature: bytes) -> bytes:
    """The segment of a number, each of whose entries has this signature."""
    hops = [Hop(CORE, 0, 1 + number % 1_000, CORE_MAC), Hop(LEAF, 1 + number // 1_000, 0, LEAF_MAC)]
    return messages.make_segment(hops, MADE, signature=signature)


def registration(first: int, last: int, signature: bytes) -> bytes:
    """The frame that registers the segments of these numbers as down segments."""
    return messages.registration((DOWN, segment(number, signature)) for number in range(first, last))


def fill(port: int, rows: int, signature: bytes = b"") -> bool:
    """Fills the server of a port. Answers whether each registration was acknowledged."""
    firsts = list(range(0, rows, IN_A_REGISTRATION))
    with socket.create_connection(("127.0.0.1", port), 60) as connection, connection.makefile("rb") as replies:
        for at in range(0, len(firsts), AT_ONCE):
            sent = firsts[at : at + AT_ONCE]
            connection.sendall(b"".join(registration(first, min(first + IN_A_REGISTRATION, rows), signature) for first in sent))
            for _ in sent:
                if replies.read(REPLY)[4:5] != b"\x81":
                    return False
    return True
