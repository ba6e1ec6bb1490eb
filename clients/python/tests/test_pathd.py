"""Sessions with the built program, which the variable PATHD names."""
from __future__ import annotations

import os
import re
import socket
import subprocess
import tempfile
import time
import unittest
from collections.abc import Sequence
from pathlib import Path

from pathd_client import (
    MOST_ROWS, Ack, Acknowledge, Code, Found, List, Lookup, Page, Purge, Refused, Register, Remove,
    Request, Retry, Row, SegmentType, Servers, Session, SessionError, TurnedAway, frame, hops_of,
    make_segment, parse_path, read_frames, run_session, segment_id,
)
from pathd_client.segments_pb2 import PathSegment

from .samples import LIST, LOOKUP, MADE, QUICKLY, in_order, large_registration, registration, row

PROGRAM = os.environ.get("PATHD", "")
CORES = "1-ff00:0:110"

# The line of standard error that has the server's port.
SERVES = re.compile(r"^pathd: serves .* at 127\.0\.0\.1:(\d+): .*\n", re.MULTILINE)

# What the program may take until it listens, in seconds.
PATIENCE = 60.0


class Server:
    """A server of a store of its own, in a folder that is dropped at the end."""

    def __init__(self, *words: str) -> None:
        self._words = words
        self._folder = tempfile.TemporaryDirectory()
        self._store = os.path.join(self._folder.name, "store")
        made = ["format", self._store, "--checkpoint", "32768", "--journal", "4096"]
        subprocess.run([PROGRAM, *made], check=True, stdout=subprocess.DEVNULL)
        self.port = 0

    def __enter__(self) -> Server:
        self.start()
        return self

    def __exit__(self, *_ended: object) -> None:
        self.kill()
        self._folder.cleanup()

    def start(self) -> None:
        """Starts the program, at the port that it had before."""
        notices = Path(self._folder.name) / "notices"
        words = ["run", self._store, "--listen", f"127.0.0.1:{self.port}", "--cores", CORES, "--lists"]
        with notices.open("w", encoding="utf-8") as file:
            self._process = subprocess.Popen(
                [PROGRAM, *words, *self._words], stdout=subprocess.DEVNULL, stderr=file
            )
        deadline = time.monotonic() + PATIENCE
        while time.monotonic() < deadline:
            said = notices.read_text(encoding="utf-8")
            if serves := SERVES.search(said):
                self.port = int(serves[1])
                return
            time.sleep(0.02)
        raise TimeoutError("the program does not listen")

    def kill(self) -> None:
        """Kills the program."""
        self._process.kill()
        self._process.wait()

    def shown(self) -> str:
        """What `show` prints of the store, once the program has ended."""
        words = [PROGRAM, "show", self._store]
        return subprocess.run(words, check=True, capture_output=True, text=True).stdout

    def session(self, retry: Retry = QUICKLY) -> Session:
        """A session with the server."""
        return Session("127.0.0.1", self.port, reply_timeout=PATIENCE, retry=retry)


@unittest.skipUnless(PROGRAM, "PATHD names no program")
class Sessions(unittest.TestCase):
    """Sessions with a server."""

    def test_each_request(self) -> None:
        kind, segment = row(0)
        remove = Remove(kind, segment_id(hops_of(segment)))
        with Server() as server, server.session() as session:
            self.assertEqual(session.ask(registration(0)), Ack(0, 1, 0, 0, 0))
            self.assertEqual(session.ask(LOOKUP), Found([(kind, segment)]))
            purge = Purge(half_seconds=5)
            replies = session.pipeline([registration(0), remove, remove, LOOKUP, purge])
        acks = [Ack(1, 0, 0, 1, 0), Ack(2, 0, 0, 0, 1), Ack(3, 0, 0, 0, 0)]
        self.assertEqual(replies, [*acks, Found([]), Ack(4, 0, 0, 0, 0)])

    def test_refusals(self) -> None:
        signed = Register([(SegmentType.DOWN, row(0)[1])])
        with Server("--key", "00") as server, server.session() as session:
            replies = session.pipeline([Lookup(0, 0), Lookup(LOOKUP.destination, 7), signed])
        codes = [Code.NULL_DESTINATION, Code.ISD_ONLY_WILDCARD, Code.BAD_SIGNATURE]
        self.assertEqual(replies, [Refused(code) for code in codes])

    def test_large_replies_meet_large_requests(self) -> None:
        with Server() as server, server.session() as session:
            session.pipeline([large_registration(i) for i in range(8)])
            requests: list[Request] = [LOOKUP] * 8
            requests += [large_registration(i) for i in range(8, 64)]
            replies = session.pipeline(requests)
        found = [reply for reply in replies if isinstance(reply, Found)]
        self.assertEqual([len(reply.rows) for reply in found], [64] * 8)
        inserted = [reply.inserted for reply in replies if isinstance(reply, Ack)]
        self.assertEqual(inserted, [8] * 56)

    def test_a_server_that_is_killed_and_started_again(self) -> None:
        retry = Retry(attempts=50, first_pause=0.1, longest_pause=0.1)
        with Server() as server, server.session(retry) as session:
            session.pipeline([registration(i) for i in range(10)])
            server.kill()
            server.start()
            replies = session.pipeline([registration(i) for i in range(20)])
        kept = [reply.kept for reply in replies if isinstance(reply, Ack)]
        self.assertEqual(kept, [1] * 10 + [0] * 10)

    def test_silent_sessions_go_on(self) -> None:
        with Server("--idle", "1") as server, server.session() as session:
            session.ask(LOOKUP)
            time.sleep(2.5)
            self.assertEqual(session.ask(Remove(SegmentType.UP, bytes(32))), Ack(0, 0, 0, 0, 0))

    def test_the_65th_session(self) -> None:
        with Server() as server:
            sessions = [server.session() for _ in range(65)]
            for session in sessions[:64]:
                session.ask(LOOKUP)
            with self.assertRaises(TurnedAway):
                sessions[64].ask(LOOKUP)
            sessions[0].close()
            patient = server.session(Retry(attempts=50, first_pause=0.1, longest_pause=0.1))
            self.assertEqual(patient.ask(Remove(SegmentType.UP, bytes(32))), Ack(0, 0, 0, 0, 0))
            for session in [patient, *sessions]:
                session.close()


def rows_of_type(kind: SegmentType, count: int, end: str = "1-ff00:0:111") -> list[Row]:
    """Segments of a type between two ASes, in the order of their keys."""
    paths = [parse_path(f"1-ff00:0:110 {number + 1}>2 {end}") for number in range(count)]
    return in_order((kind, make_segment(path, MADE)) for path in paths)


def registrations(rows: Sequence[Row]) -> list[Register]:
    """The registrations of these segments."""
    return [Register(rows[at : at + MOST_ROWS]) for at in range(0, len(rows), MOST_ROWS)]


@unittest.skipUnless(PROGRAM, "PATHD names no program")
class Lists(unittest.TestCase):
    """Lists of a server, which has more segments between two ASes than one page."""

    def test_pages(self) -> None:
        up, down = rows_of_type(SegmentType.UP, 64), rows_of_type(SegmentType.DOWN, 150)
        core = rows_of_type(SegmentType.CORE, 65) + rows_of_type(SegmentType.CORE, 1, "2-7")
        rows = [*up, *down, *core]
        with Server() as server, server.session() as session:
            session.pipeline(registrations(rows))
            for kind, wanted in [
                (SegmentType.UP, up), (SegmentType.DOWN, down), (SegmentType.CORE, in_order(core)),
            ]:
                segments = [segment for _, segment in wanted]
                self.assertEqual(list(session.list(kind)), segments)
                page = Page(kind, segments[:64], len(wanted) > 64)
                self.assertEqual(session.list_page(kind), page)
            self.check_sides(session, down)
            self.check_ids(session, [segment for _, segment in down])

    def check_sides(self, session: Session, down: list[Row]) -> None:
        """A lookup finds the first page, and a part of a side that is 0 covers every number."""
        found = session.ask(LOOKUP)
        self.assertEqual(found, Found(down[:64]))
        self.assertEqual(session.ask(LIST), Page(LIST.type, [it for _, it in down[:64]], True))
        for start, end, count in [
            ("1-0", "0-ff00:0:111", 150), ("0-0", "1-ff00:0:111", 150), ("2-0", "0-0", 0),
            ("1-ff00:0:111", "1-ff00:0:110", 0), ("1-ff00:0:110", "1-ff00:0:112", 0),
        ]:
            listed = session.list(SegmentType.DOWN, start, end)
            self.assertEqual(sum(1 for _ in listed), count, (start, end))
        self.assertEqual(sum(1 for _ in session.list(SegmentType.CORE, "0-0", "2-0")), 1)

    def check_ids(self, session: Session, segments: Sequence[PathSegment]) -> None:
        """A page begins after any id, that of a segment or not."""
        for number in (0, 63, 64, 85, 86, 149):
            identity = segment_id(segments[number])
            rest = segments[number + 1 :]
            below = (int.from_bytes(identity, "big") - 1).to_bytes(32, "big")
            page = session.list_page(SegmentType.DOWN, after=identity)
            self.assertEqual(page, Page(SegmentType.DOWN, rest[:64], len(rest) > 64))
            page = session.list_page(SegmentType.DOWN, after=below)
            self.assertEqual(page.segments, [segments[number], *rest][:64])
        first = session.list_page(SegmentType.DOWN, after=bytes(32))
        self.assertEqual(first.segments, segments[:64])
        none = session.list_page(SegmentType.DOWN, after=b"\xff" * 32)
        self.assertEqual(none, Page(SegmentType.DOWN, [], False))

    def test_rows_that_go_and_come_between_pages(self) -> None:
        rows = rows_of_type(SegmentType.DOWN, 130)
        segments = [segment for _, segment in rows]
        with Server() as server, server.session() as session:
            session.pipeline(registrations(rows[1:]))
            listed = session.list(SegmentType.DOWN)
            first = [next(listed) for _ in range(64)]
            # The last of the page goes, and one comes before it.
            session.remove(SegmentType.DOWN, segment_id(segments[64]))
            session.register(rows[:1])
            self.assertEqual([*first, *listed], segments[1:])

    def test_other_types_are_refused(self) -> None:
        # No client sends these: the byte of the type is changed in the frame.
        frames = [frame(LIST)[:5] + bytes([kind]) + frame(LIST)[6:] for kind in (0, 4, 255)]
        with Server() as server, socket.create_connection(("127.0.0.1", server.port)) as raw:
            raw.settimeout(PATIENCE)
            raw.sendall(b"".join(frames) + frame(LOOKUP))
            raw.shutdown(socket.SHUT_WR)
            replies = list(read_frames(raw.makefile("rb")))
        self.assertEqual(replies, [b"\xff\x29"] * 3 + [b"\x82"])


@unittest.skipUnless(PROGRAM, "PATHD names no program")
class Several(unittest.TestCase):
    """Servers that get the same commands."""

    def test_a_server_that_is_away_gets_the_rows(self) -> None:
        kind, segment = row(1)
        with Server() as one, Server() as other:
            addresses = [("127.0.0.1", server.port) for server in (one, other)]
            with Servers(addresses, acknowledge=Acknowledge.ONE, within=PATIENCE) as servers:
                servers.command(registration(0))
                self.assertTrue(servers.drain(PATIENCE))
                one.kill()
                servers.command(registration(1))
                servers.command(registration(2))
                servers.command(Remove(kind, segment_id(hops_of(segment))))
                self.assertEqual(servers.lookup(LOOKUP), Found([row(0), row(2)]))
                one.start()
                self.assertTrue(servers.drain(PATIENCE))
            one.kill()
            other.kill()
            self.assertEqual(rows_of(one.shown()), rows_of(other.shown()))
            self.assertEqual(len(rows_of(one.shown())), 2)


def rows_of(shown: str) -> list[str]:
    """The rows that `show` prints, without the place at the end."""
    return shown.splitlines()[:-1]


@unittest.skipUnless(PROGRAM, "PATHD names no program")
class Once(unittest.TestCase):
    """Sessions with `pathd once`."""

    def test_a_session(self) -> None:
        requests: list[Request] = [registration(0), LOOKUP, Purge(half_seconds=2**64 - 1), LOOKUP]
        replies = run_session([PROGRAM, "once", "--cores", CORES], requests)
        wanted = [Ack(0, 1, 0, 0, 0), Found([row(0)]), Ack(1, 0, 0, 0, 1), Found([])]
        self.assertEqual(replies, wanted)

    def test_no_lists(self) -> None:
        with self.assertRaisesRegex(SessionError, "status 1 after 1 of 2 replies"):
            run_session([PROGRAM, "once", "--cores", CORES], [registration(0), LIST])


if __name__ == "__main__":
    unittest.main()
