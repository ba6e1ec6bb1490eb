"""ISD-AS texts and segments, beside the worked ones of docs/PROTOCOL.md."""
from __future__ import annotations

import unittest
from datetime import datetime, timedelta, timezone

from pathd_client import (
    expires_at, expiry, hops_of, isd_as_text, made_at, make_segment, parse_isd_as, parse_path,
    path_text, segment_id, timestamp_of,
)
from pathd_client.segments import keyed_signature

PATH = "1-ff00:0:110 1>2 1-ff00:0:111"
ID = "8adcea68dc57cbbe68da7142af88b68a9d27a590e1d5157c53c2bb2c762345ff"

# The worked segment's information and entries, as they are signed, and their signatures by the key.
KEY = b"a key of the test profile"
INFO = bytes.fromhex("0880e2cfaa06 1007")
FIRST = bytes.fromhex(
    "1223 089082808080e07f 109182808080e07f 1a0e 0a0c 1001 183f 2206010203040506 28c00b"
)
SECOND = bytes.fromhex("121b 089182808080e07f 1a0e 0a0c 0802 183f 22060a0b0c0d0e0f 28c00b")
SIGNATURES = [
    bytes.fromhex("31a45617b6693c8ca6c9df0dd203759b08fa0e35bd65e554d20c1cf47480dcc7"),
    bytes.fromhex("c32aff63a5c814036bf7635a601b59ee8e54bba3fd613a84088c277a0535122d"),
]


class Texts(unittest.TestCase):
    """ISD-AS texts."""

    def test_both_ways(self) -> None:
        for text, number in [
            ("1-ff00:0:110", 0x0001_FF00_0000_0110),
            ("2-64512", 0x0002_0000_0000_FC00),
            ("0-0", 0),
            ("65535-4294967295", 0xFFFF_0000_FFFF_FFFF),
        ]:
            self.assertEqual(parse_isd_as(text), number)
            self.assertEqual(isd_as_text(number), text)

    def test_what_is_none(self) -> None:
        for text in ("", "1", "1-", "65536-1", "1-4294967296", "1-ff00:0", "1-ff00:0:12345"):
            with self.assertRaises(ValueError):
                parse_isd_as(text)


class Segments(unittest.TestCase):
    """Segments that are made, and what is read of them."""

    def test_both_ways(self) -> None:
        segment = make_segment(parse_path(PATH), 1_700_000_000)
        self.assertEqual(path_text(hops_of(segment)), PATH)
        self.assertEqual(timestamp_of(segment), 1_700_000_000)
        self.assertEqual(expiry(segment), 3_400_043_200)
        self.assertEqual(segment_id(hops_of(segment)).hex(), ID)

    def test_a_segment_in_place_of_its_hops(self) -> None:
        made = datetime(2023, 11, 14, 22, 13, 20, tzinfo=timezone.utc)
        segment = make_segment(parse_path(PATH), made + timedelta(milliseconds=999))
        self.assertEqual(path_text(segment), PATH)
        self.assertEqual(segment_id(segment).hex(), ID)
        self.assertEqual(made_at(segment), made)
        self.assertEqual(expires_at(segment) - made_at(segment), timedelta(hours=6))

    def test_worked_signatures(self) -> None:
        first = keyed_signature(KEY, FIRST, [INFO])
        second = keyed_signature(KEY, SECOND, [INFO, FIRST, first])
        self.assertEqual([first, second], SIGNATURES)

    def test_signed_segments(self) -> None:
        segment = make_segment(parse_path(PATH), 1_700_000_000, KEY)
        covered = [segment.segment_info]
        for entry in segment.as_entries:
            signed, signature = entry.signed.header_and_body, entry.signed.signature
            self.assertEqual(signature, keyed_signature(KEY, signed, covered))
            covered += [signed, signature]

    def test_paths_that_are_none(self) -> None:
        for text in ("", "1-1 1>2", "1-1 1 1-2", "1-1 a>b 1-2", "1-1 1>2 1-2 3", "1-1 1>2>3 1-2"):
            with self.assertRaises(ValueError):
                parse_path(text)


if __name__ == "__main__":
    unittest.main()
