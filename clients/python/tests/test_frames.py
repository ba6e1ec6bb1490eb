"""Frames, beside the worked bytes of docs/PROTOCOL.md."""
from __future__ import annotations

import io
import unittest

from pathd_client import (
    MOST_REPLY, MOST_REQUEST, Ack, Code, Found, FrameBuffer, FrameError, List, Lookup, Page, Purge,
    Refused, Register, Remove, SegmentType, frame, make_segment, parse_isd_as, parse_path,
    read_frames, read_reply, segment_id,
)

from .fake_server import ack, framed, refusal
from .samples import LIST, LOOKUP, PURGE, REMOVE, row

ID = "8adcea68dc57cbbe68da7142af88b68a9d27a590e1d5157c53c2bb2c762345ff"
HOPS = parse_path("1-ff00:0:110 1>2 1-ff00:0:111")


class Requests(unittest.TestCase):
    """The frames of requests."""

    def test_lookup(self) -> None:
        worked = "00000011 02 089082808080e07f 109182808080e07f"
        self.assertEqual(frame(LOOKUP), bytes.fromhex(worked))
        self.assertEqual(frame(Lookup(0, 0)), bytes.fromhex("0000000102"))

    def test_purge(self) -> None:
        wanted = bytes.fromhex("00000009 03 00000000caa88abf")
        self.assertEqual(frame(Purge(half_seconds=3_400_043_199)), wanted)

    def test_remove(self) -> None:
        request = Remove(SegmentType.DOWN, segment_id(HOPS))
        self.assertEqual(frame(request), bytes.fromhex("00000022 04 02" + ID))

    def test_list(self) -> None:
        sides = "0001ff0000000110 0001ff0000000111"
        self.assertEqual(frame(LIST), bytes.fromhex("00000012 05 02" + sides))
        after = List(LIST.type, LIST.start, LIST.end, segment_id(HOPS))
        self.assertEqual(frame(after), bytes.fromhex("00000032 05 02" + sides + ID))
        self.assertEqual(LIST.following(make_segment(HOPS, 0)), after)
        of_isd = List(SegmentType.CORE, parse_isd_as("2-0"), parse_isd_as("0-5"))
        wanted = "00000012 05 03 0002000000000000 0000000000000005"
        self.assertEqual(frame(of_isd), bytes.fromhex(wanted))
        self.assertEqual(frame(List(SegmentType.UP)), bytes.fromhex("00000012 05 01" + "00" * 16))

    def test_register(self) -> None:
        made = frame(Register([(SegmentType.DOWN, make_segment(HOPS, 1_700_000_000))]))
        # The worked segment has another segment id and other MACs, of the same sizes.
        self.assertEqual(made[:15], bytes.fromhex("00000061 01 0a5e 0802 125a 0a58 0a08"))
        self.assertEqual(len(made), 4 + 0x61)

    def test_numbers_have_64_bits(self) -> None:
        for number in (-1, 2**64):
            with self.assertRaises(ValueError):
                Purge(half_seconds=number)
            with self.assertRaises(ValueError):
                Lookup(0, number)
            with self.assertRaises(ValueError):
                List(SegmentType.UP, number)
            with self.assertRaises(ValueError):
                List(SegmentType.UP, 0, number)

    def test_ids_have_32_bytes(self) -> None:
        with self.assertRaises(ValueError):
            Remove(SegmentType.UP, bytes(31))
        with self.assertRaises(ValueError):
            List(SegmentType.UP, after=b"")

    def test_bytes_are_bounded(self) -> None:
        empty = len(frame(Register([row(0, 100_000)]))) - 100_000
        most = Register([row(0, MOST_REQUEST + 4 - empty)])
        self.assertEqual(len(frame(most)), MOST_REQUEST + 4)
        with self.assertRaises(ValueError):
            frame(Register([row(0, MOST_REQUEST + 5 - empty)]))


class Replies(unittest.TestCase):
    """What the contents of replies are read as."""

    def test_acknowledgements(self) -> None:
        self.assertEqual(read_reply(PURGE, ack(7, 0x83)), Ack(7, 0, 0, 0, 0))
        self.assertEqual(read_reply(REMOVE, ack(2**64 - 2, 0x84, 3)), Ack(2**64 - 2, 3, 0, 0, 0))

    def test_lookups(self) -> None:
        self.assertEqual(read_reply(LOOKUP, b"\x82"), Found([]))
        registered = Register([row(0), row(1)])
        found = read_reply(LOOKUP, b"\x82" + registered.body())
        self.assertEqual(found, Found(registered.rows))

    def test_pages(self) -> None:
        empty = Page(SegmentType.DOWN, [], False)
        self.assertEqual(read_reply(LIST, b"\x85\x00"), empty)
        self.assertEqual(str(empty), "nothing")
        segment = make_segment(HOPS, 1_700_000_000)
        worked = segment.SerializeToString()
        self.assertEqual(len(worked), 0x58)
        body = bytes.fromhex("0a5e 0802 125a 0a58") + worked
        for more in (False, True):
            page = read_reply(LIST, bytes([0x85, more]) + body)
            self.assertEqual(page, Page(SegmentType.DOWN, [segment], more))
            lines = "down 1-ff00:0:110 1>2 1-ff00:0:111" + "\nand more" * more
            self.assertEqual(str(page), lines)

    def test_refusals(self) -> None:
        reply = read_reply(LOOKUP, refusal(0x43))
        self.assertEqual(reply, Refused(Code.NO_CORE))
        self.assertEqual(read_reply(LOOKUP, refusal(0x7E)), Refused(0x7E))

    def test_what_is_no_reply(self) -> None:
        for content in (b"\x81", ack(0)[:-1], b"\x82", b"\xff", b"\xff\x01\x02", ack(0, 0x84)):
            with self.assertRaises(FrameError):
                read_reply(PURGE, content)
        for content in (b"\x82\x0a", b"\x82\x0a\x02\x08\x07"):
            with self.assertRaises(FrameError):
                read_reply(LOOKUP, content)

    def test_what_is_no_page(self) -> None:
        kind, segment = row(0)
        down = Register([(kind, segment)]).body()
        for content in (b"\x85", b"\x85\x02", b"\x82", ack(0), b"\x85\x00\x0a", b"\x85\x01"):
            with self.assertRaises(FrameError):
                read_reply(LIST, content)
        with self.assertRaises(FrameError):
            read_reply(List(SegmentType.UP), b"\x85\x00" + down)
        # Pages after this one would never end.
        after = List(kind, after=segment_id(segment))
        self.assertEqual(read_reply(after, b"\x85\x00" + down), Page(kind, [segment], False))
        with self.assertRaises(FrameError):
            read_reply(after, b"\x85\x01" + down)
        segment.as_entries[1].signed.header_and_body = b"\xff"
        with self.assertRaises(FrameError):
            read_reply(List(kind), b"\x85\x01" + Register([(kind, segment)]).body())


class Streams(unittest.TestCase):
    """Frames that are found in a stream."""

    def test_bytes_one_by_one(self) -> None:
        buffer = FrameBuffer()
        found = []
        for byte in framed(b"\x82") + framed(b"\xff\x41") + b"\x00":
            buffer.feed(bytes([byte]))
            while (content := buffer.take()) is not None:
                found.append(content)
        self.assertEqual(found, [b"\x82", b"\xff\x41"])

    def test_many_at_once(self) -> None:
        buffer = FrameBuffer()
        buffer.feed(framed(b"\x82") * 3)
        self.assertEqual([buffer.take() for _ in range(4)], [b"\x82", b"\x82", b"\x82", None])

    def test_lengths_are_bounded(self) -> None:
        for length in (0, MOST_REPLY + 1):
            buffer = FrameBuffer()
            buffer.feed(length.to_bytes(4, "big"))
            with self.assertRaises(FrameError):
                buffer.take()

    def test_files(self) -> None:
        stream = framed(b"\x82") + framed(b"\xff\x41")
        self.assertEqual(list(read_frames(io.BytesIO(stream))), [b"\x82", b"\xff\x41"])
        for end in (1, 4, 6, 9, len(stream) - 1):
            with self.assertRaises(FrameError):
                list(read_frames(io.BytesIO(stream[:end])))


if __name__ == "__main__":
    unittest.main()
