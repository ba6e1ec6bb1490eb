"""The typed calls of sessions, over TCP, over TLS and of tasks."""
from __future__ import annotations

import asyncio
import shutil
import socket
import ssl
import struct
import subprocess
import tempfile
import threading
import unittest
from collections.abc import Callable
from contextlib import suppress
from datetime import datetime, timedelta, timezone
from functools import partial
from pathlib import Path

from pathd_client import (
    NO_RETRY, Ack, Address, AsyncSession, Code, ConnectionEnded, FrameError, List, Lookup,
    OutcomeUnknown, Page, Purge, Refused, Register, Remove, ReplyTimeout, Request, SegmentType,
    Session, SessionError, TurnedAway, frame, half_seconds_of, moment_of, segment_id,
)

from .fake_server import (
    BOUND, FakeServer, Peer, Script, ack, answers, closes, refusal, turns_away,
)
from .fake_store import FakeStore, acknowledges, lists
from .samples import LIST, LOOKUP, PURGE, QUICKLY, REMOVE, in_order, registration, row

ROW = row(0)
NONE = Ack(0, 0, 0, 0, 0)
EAST = timezone(timedelta(hours=2))


def contents(*requests: Request) -> list[bytes]:
    """The contents of the frames of these requests."""
    return [frame(request)[4:] for request in requests]


class Moments(unittest.TestCase):
    """Moments as half seconds since 1970."""

    def test_both_ways(self) -> None:
        for moment, number in [
            (datetime(1970, 1, 1, tzinfo=timezone.utc), 0),
            (datetime(1970, 1, 1, 2, 0, 0, 999_999, EAST), 1),
            (datetime(2023, 11, 15, 3, 59, 59, 999_999, timezone.utc), 3_400_041_599),
        ]:
            self.assertEqual(half_seconds_of(moment), number)
            self.assertEqual(half_seconds_of(moment_of(number)), number)
        self.assertEqual(moment_of(3).microsecond, 500_000)

    def test_purges(self) -> None:
        before = half_seconds_of(datetime.now(timezone.utc))
        now = Purge.now().half_seconds
        self.assertTrue(before <= now <= half_seconds_of(datetime.now(timezone.utc)))
        self.assertEqual(Purge.at(datetime(1970, 1, 1, 2, 0, 2, 500_000, EAST)), PURGE)

    def test_moments_that_are_none(self) -> None:
        for moment in (datetime(2026, 1, 1), datetime(1969, 12, 31, tzinfo=timezone.utc)):
            with self.assertRaises(ValueError):
                Purge.at(moment)
        with self.assertRaises(TypeError):
            Purge(1_700_000_000)  # type: ignore[misc]


class Calls(unittest.TestCase):
    """The calls of a session."""

    def test_each_call(self) -> None:
        found = b"\x82" + Register([ROW]).body()
        script = answers(ack(0), found, ack(1, 0x83), ack(2, 0x84))
        with FakeServer(script) as server, Session(*server.address) as session:
            self.assertEqual(session.register([ROW]), NONE)
            self.assertEqual(session.look_up("1-ff00:0:110", LOOKUP.destination), [ROW])
            self.assertEqual(session.purge(moment_of(5)).place, 1)
            self.assertEqual(session.remove(REMOVE.type, REMOVE.id).place, 2)
        self.assertEqual(server.requests, [contents(registration(0), LOOKUP, PURGE, REMOVE)])

    def test_refusals_are_raised(self) -> None:
        calls: list[Callable[[Session], object]] = [
            lambda session: session.register([ROW]),
            lambda session: session.look_up("1-0", "2-0"),
            lambda session: session.purge(),
            lambda session: session.remove(SegmentType.UP, bytes(32)),
            lambda session: session.list_page(SegmentType.UP),
            lambda session: list(session.list(SegmentType.UP)),
        ]
        for code, call in zip((0x52, 0x43, 0x54, 0x62, 0x29, 0x55), calls, strict=True):
            with FakeServer(answers(refusal(code))) as server, Session(*server.address) as session:
                with self.assertRaises(Refused) as caught:
                    call(session)
            self.assertEqual(caught.exception, Refused(Code(code)))
            self.assertEqual(caught.exception.is_unsettled, code == 0x62)

    def test_errors_name_the_server(self) -> None:
        with FakeServer(closes) as server:
            address = Address(*server.address)
            with Session(*address, retry=NO_RETRY) as session:
                with self.assertRaisesRegex(ConnectionEnded, str(address)):
                    session.purge()
        with Session(*address, retry=NO_RETRY) as session:
            with self.assertRaisesRegex(ConnectionEnded, f"no connection with {address}: "):
                session.purge()


class NoLists(unittest.TestCase):
    """Lists of a server that ends the connection."""

    SAID = "the server does not list: run it with --lists"

    def said(self, script: Script, call: Callable[[Session], object]) -> str:
        """The text of the error of a call."""
        with FakeServer(script) as server:
            with Session(*server.address, retry=NO_RETRY) as session:
                with self.assertRaises(ConnectionEnded) as caught:
                    call(session)
        return str(caught.exception)

    def test_no_reply_to_the_first_page(self) -> None:
        self.assertIn(self.SAID, self.said(closes, lambda session: session.list_page(SegmentType.UP)))
        said = self.said(closes, lambda session: list(session.list(SegmentType.UP)))
        self.assertIn(self.SAID, said)

    def test_other_ends(self) -> None:
        def cuts(peer: Peer) -> None:
            peer.read()
            peer.send_bytes(b"\0")

        page = partial(Session.list_page, kind=SegmentType.UP)
        for script, call in [
            (cuts, page),
            (closes, partial(page, after=bytes(32))),
            (closes, lambda session: session.look_up("1-0", "2-0")),
        ]:
            self.assertNotIn(self.SAID, self.said(script, call))

    def test_of_a_task(self) -> None:
        async def page(address: tuple[str, int]) -> None:
            async with AsyncSession(*address, retry=NO_RETRY) as session:
                await session.list_page(SegmentType.UP)

        with FakeServer(closes) as server:
            with self.assertRaisesRegex(ConnectionEnded, self.SAID):
                asyncio.run(page(server.address))


class Steps(unittest.TestCase):
    """Purges in steps."""

    LAST = 3_400_000_000
    # How far before the last moment the first steps are, where nothing is dropped.
    OF_NOTHING = [262_144, 229_376, 200_704, 175_616, 153_664, 134_456]

    @staticmethod
    def drops(counts: list[int]) -> list[bytes]:
        """The acknowledgements of commands that drop so many segments each."""
        return [
            struct.pack(">BQ4I", 0x83, place, 0, 0, 0, count) for place, count in enumerate(counts)
        ]

    def assert_moments(self, requests: list[bytes], before: list[int], last: int) -> None:
        """Sees purges by these moments: each is so far before the last one."""
        wanted = [Purge(half_seconds=last - it) for it in before]
        self.assertEqual(requests, contents(*wanted))

    def test_nothing_is_dropped(self) -> None:
        script = answers(*self.drops([0] * 35))
        with FakeServer(script) as server, Session(*server.address) as session:
            acks = list(session.purge_in_steps(moment_of(self.LAST)))
        self.assertEqual([it.place for it in acks], list(range(35)))
        self.assert_moments(server.requests[0][:6], self.OF_NOTHING, self.LAST)
        self.assertEqual(server.requests[0][-1:], contents(Purge(half_seconds=self.LAST)))

    def test_many_are_dropped(self) -> None:
        counts = [0, 256, 1024, 1025, 255, 5000, 512, 100_000, 1500, 3, 0]
        before = [
            20_000, 17_500, 15_313, 13_399, 12_761, 11_485, 11_358, 11_231, 11_230, 11_229, 11_227,
        ]
        script = answers(*self.drops(counts))
        with FakeServer(script) as server, Session(*server.address) as session:
            steps = session.purge_in_steps(moment_of(20_000))
            self.assertEqual([next(steps).purged for _ in counts], counts)
        self.assert_moments(server.requests[0], before, 20_000)

    def test_a_refusal(self) -> None:
        script = answers(*self.drops([3]), refusal(0x51))
        with FakeServer(script) as server, Session(*server.address, retry=NO_RETRY) as session:
            steps = session.purge_in_steps(moment_of(7))
            self.assertEqual(next(steps).purged, 3)
            with self.assertRaises(Refused):
                next(steps)
        self.assert_moments(server.requests[0], [7, 0], 7)


class Lists(unittest.TestCase):
    """Lists of a session, page by page."""

    ROWS = in_order([row(number) for number in range(5)])
    SEGMENTS = [segment for _, segment in ROWS]

    def test_all_pages(self) -> None:
        pages = [self.ROWS[:2], self.ROWS[2:4], self.ROWS[4:]]
        replies = [bytes([0x85, len(it) == 2]) + Register(it).body() for it in pages]
        lists = [LIST, LIST.following(self.SEGMENTS[1]), LIST.following(self.SEGMENTS[3])]
        with FakeServer(answers(*replies)) as server, Session(*server.address) as session:
            listed = session.list(SegmentType.DOWN, "1-ff00:0:110", LIST.end)
            self.assertEqual(list(listed), self.SEGMENTS)
        self.assertEqual(server.requests, [contents(*lists)])

    def test_one_page(self) -> None:
        for size in (1, 4, 5, 9):
            with FakeStore(lists(self.ROWS, size)) as store, Session(*store.address) as session:
                first = session.list_page(SegmentType.DOWN)
                wanted = Page(SegmentType.DOWN, self.SEGMENTS[:size], size < 5)
                self.assertEqual(first, wanted)
                after = segment_id(self.SEGMENTS[2])
                rest = session.list_page(SegmentType.DOWN, "1-0", 0, after=after)
                self.assertEqual(rest.segments, self.SEGMENTS[3:][:size])
                self.assertEqual(list(session.list(SegmentType.DOWN)), self.SEGMENTS)
                self.assertEqual(list(session.list(SegmentType.UP)), [])

    def test_pages_are_asked_for_as_they_are_needed(self) -> None:
        with FakeStore(lists(self.ROWS, 2)) as store, Session(*store.address) as session:
            listed = session.list(SegmentType.DOWN)
            self.assertEqual(store.lookups, 0)
            for number, segment in enumerate(self.SEGMENTS):
                self.assertEqual(next(listed), segment)
                self.assertEqual(store.lookups, 1 + number // 2)

    def test_a_page_is_asked_for_again(self) -> None:
        first, rest = (Register(it).body() for it in (self.ROWS[:2], self.ROWS[2:]))

        def ends(peer: Peer) -> None:
            peer.read()
            peer.send(b"\x85\x01" + first)
            peer.read()

        again = answers(refusal(0x51), b"\x85\x00" + rest)
        with FakeServer(ends, again) as server, Session(*server.address, retry=QUICKLY) as session:
            self.assertEqual(list(session.list(SegmentType.DOWN)), self.SEGMENTS)
        following = List(SegmentType.DOWN).following(self.SEGMENTS[1])
        sent = [contents(List(SegmentType.DOWN), following), contents(following, following)]
        self.assertEqual(server.requests, sent)

    def test_pages_that_would_never_end(self) -> None:
        for body in (b"", Register(self.ROWS[:1]).body()):
            with FakeStore(lambda _content: b"\x85\x01" + body) as store:
                with Session(*store.address) as session, self.assertRaises(FrameError):
                    list(session.list(SegmentType.DOWN))

    def test_what_is_no_side(self) -> None:
        session = Session("127.0.0.1", 1)
        for side in list[int | str](["1", -1, 1 << 64]):
            with self.assertRaises(ValueError):
                session.list_page(SegmentType.UP, side)
            with self.assertRaises(ValueError):
                next(session.list(SegmentType.UP, 0, side))
        with self.assertRaises(ValueError):
            session.list_page(SegmentType.UP, after=bytes(31))


class TlsProxy:
    """A proxy that ends TLS before a server, as a context; its certificate is of this name."""

    def __init__(self, server: Address, folder: Path, name: str) -> None:
        self.certificate = folder / f"{name}.crt"
        key = folder / f"{name}.key"
        words = ["-newkey", "ec", "-pkeyopt", "ec_paramgen_curve:P-256", "-nodes", "-days", "2"]
        names = ["-subj", f"/CN={name}", "-addext", f"subjectAltName=DNS:{name}"]
        files = ["-keyout", str(key), "-out", str(self.certificate)]
        made = ["openssl", "req", "-x509", *words, *names, *files]
        subprocess.run(made, check=True, capture_output=True)
        self._context = ssl.SSLContext(ssl.PROTOCOL_TLS_SERVER)
        self._context.load_cert_chain(self.certificate, key)
        self._server = server
        self._listener = socket.create_server(("127.0.0.1", 0))
        self.address = Address(*self._listener.getsockname())

    def __enter__(self) -> TlsProxy:
        threading.Thread(target=self._accept, daemon=True).start()
        return self

    def __exit__(self, *_ended: object) -> None:
        self._listener.close()

    def _accept(self) -> None:
        with suppress(OSError):
            while True:
                connected, _ = self._listener.accept()
                threading.Thread(target=self._join, args=[connected], daemon=True).start()

    def _join(self, connected: socket.socket) -> None:
        with suppress(OSError), connected:
            with (
                self._context.wrap_socket(connected, server_side=True) as secured,
                socket.create_connection(self._server) as behind,
            ):
                back = threading.Thread(target=pump, args=[behind, secured], daemon=True)
                back.start()
                pump(secured, behind)
                back.join()


def pump(source: socket.socket, to: socket.socket) -> None:
    """Passes bytes on until the source ends."""
    with suppress(OSError):
        while piece := source.recv(1 << 16):
            to.sendall(piece)
    with suppress(OSError):
        to.shutdown(socket.SHUT_RDWR)


@unittest.skipUnless(shutil.which("openssl"), "openssl makes the certificates")
class Tls(unittest.TestCase):
    """Sessions over TLS."""

    def setUp(self) -> None:
        folder = tempfile.TemporaryDirectory()
        self.addCleanup(folder.cleanup)
        self.folder = Path(folder.name)

    def test_many_bytes_both_ways(self) -> None:
        reply = b"\x82" + Register([row(0, 16_000), row(1, 16_000)]).body()
        requests = [Register([row(number, 16_000)]) for number in range(200)]
        with FakeStore(lambda content: reply if content[0] == 2 else ack(0)) as store:
            with TlsProxy(store.address, self.folder, "pathd.example") as proxy:
                context = ssl.create_default_context(cafile=str(proxy.certificate))
                with Session(*proxy.address, tls=context, server_name="pathd.example") as session:
                    self.assertEqual(session.pipeline(requests), [NONE] * 200)
                    self.assertEqual(len(session.look_up("1-0", "2-0")), 2)
                    self.assertEqual(len(store.commands), 200)
                    # The server ends the connection, and a new one is made.
                    store.stop()
                    store.start()
                    self.assertEqual(len(session.look_up("1-0", "2-0")), 2)

    def test_other_names_and_authorities(self) -> None:
        with FakeStore() as store:
            with TlsProxy(store.address, self.folder, "pathd.example") as proxy:
                good = ssl.create_default_context(cafile=str(proxy.certificate))
                others = ssl.create_default_context()
                tried = [(good, "other.example"), (good, None), (others, "pathd.example")]
                for context, name in tried:
                    with Session(
                        *proxy.address, tls=context, server_name=name, retry=NO_RETRY
                    ) as session, self.assertRaises(ConnectionEnded):
                        session.purge()
        self.assertEqual(store.commands, [])

    def test_of_tasks(self) -> None:
        async def asks(address: Address, context: ssl.SSLContext) -> None:
            async with AsyncSession(*address, tls=context, server_name="pathd.example") as session:
                self.assertEqual(await session.purge(moment_of(5)), NONE)

        with FakeStore() as store:
            with TlsProxy(store.address, self.folder, "pathd.example") as proxy:
                context = ssl.create_default_context(cafile=str(proxy.certificate))
                asyncio.run(asks(proxy.address, context))


class Tasks(unittest.IsolatedAsyncioTestCase):
    """Sessions of tasks."""

    async def asyncSetUp(self) -> None:
        asyncio.get_running_loop().set_debug(False)  # a busy machine has slow tasks

    async def test_many_tasks_have_their_own_replies(self) -> None:
        def place(content: bytes) -> bytes:
            return ack(int.from_bytes(content[1:], "big"), 0x83)

        with FakeStore(place) as store:
            async with AsyncSession(*store.address) as session:
                asked = [session.purge(moment_of(number)) for number in range(500)]
                replies = await asyncio.gather(*asked)
        self.assertEqual([reply.place for reply in replies], list(range(500)))

    async def test_each_call(self) -> None:
        found = b"\x82" + Register([ROW]).body()
        script = answers(ack(0), found, ack(1, 0x83), refusal(0x52))
        with FakeServer(script) as server:
            async with AsyncSession(*server.address) as session:
                self.assertEqual(await session.register([ROW]), NONE)
                self.assertEqual(await session.look_up("1-ff00:0:110", "1-ff00:0:111"), [ROW])
                self.assertEqual((await session.purge(moment_of(5))).place, 1)
                with self.assertRaises(Refused) as caught:
                    await session.remove(REMOVE.type, REMOVE.id)
        self.assertEqual(caught.exception.code, Code.FULL)
        self.assertEqual(server.requests, [contents(registration(0), LOOKUP, PURGE, REMOVE)])

    async def test_purges_in_steps(self) -> None:
        with FakeServer(answers(*Steps.drops([3, 4]))) as server:
            async with AsyncSession(*server.address) as session:
                counts = [ack.purged async for ack in session.purge_in_steps(moment_of(7))]
        self.assertEqual(counts, [3, 4])
        self.assertEqual(
            server.requests, [contents(Purge(half_seconds=0), Purge(half_seconds=7))]
        )

    async def test_lists(self) -> None:
        rows = in_order([row(number) for number in range(5)])
        segments = [segment for _, segment in rows]
        with FakeStore(lists(rows, 2)) as store:
            async with AsyncSession(*store.address) as session:
                listed = [it async for it in session.list(SegmentType.DOWN, "1-0", LIST.end)]
                self.assertEqual(listed, segments)
                after = segment_id(segments[0])
                page = await session.list_page(SegmentType.DOWN, after=after)
                self.assertEqual(page, Page(SegmentType.DOWN, segments[1:3], True))
                store.answer = lambda content: refusal(0x29)
                with self.assertRaises(Refused):
                    await session.list_page(SegmentType.DOWN)
                with self.assertRaises(Refused):
                    await anext(session.list(SegmentType.DOWN))

    async def test_a_cancelled_task_keeps_its_place(self) -> None:
        def script(peer: Peer) -> None:
            peer.read()
            peer.read()
            peer.send(ack(0, 0x83), ack(1, 0x83))

        with FakeServer(script) as server:
            async with AsyncSession(*server.address) as session:
                with self.assertRaises(ReplyTimeout):
                    await session.purge(within=BOUND / 2)
                self.assertEqual((await session.purge()).place, 1)

    async def test_ends(self) -> None:
        for script, fault in list[tuple[Script, type[SessionError]]]([
            (closes, ConnectionEnded), (turns_away, TurnedAway),
        ]):
            with FakeServer(script, script, script) as server:
                async with AsyncSession(*server.address, retry=QUICKLY) as session:
                    with self.assertRaises(fault):
                        await session.purge()
        with FakeServer(closes) as server:
            address = Address(*server.address)
            async with AsyncSession(*address, retry=QUICKLY) as session:
                with self.assertRaises(OutcomeUnknown):
                    await session.remove(REMOVE.type, REMOVE.id)
        async with AsyncSession(*address, retry=QUICKLY) as session:
            with self.assertRaisesRegex(ConnectionEnded, str(address)):
                await session.purge()

    async def test_a_server_that_is_started_again(self) -> None:
        with FakeStore() as store:
            async with AsyncSession(*store.address) as session:
                for _ in range(3):
                    self.assertEqual(await session.remove(REMOVE.type, REMOVE.id), NONE)
                    store.stop()
                    store.start()
                    await asyncio.sleep(0.05)

    async def test_what_is_refused_for_now_is_asked_again(self) -> None:
        with FakeServer(answers(refusal(0x51), refusal(0x01), ack(7, 0x83))) as server:
            async with AsyncSession(*server.address, retry=QUICKLY) as session:
                self.assertEqual((await session.purge()).place, 7)

    async def test_a_silent_server(self) -> None:
        with FakeStore(lambda content: None) as store:
            async with AsyncSession(*store.address, reply_timeout=BOUND) as session:
                asked = [session.purge(), session.look_up("1-0", "2-0")]
                for fault in await asyncio.gather(*asked, return_exceptions=True):
                    self.assertIsInstance(fault, ReplyTimeout)
                store.answer = acknowledges
                self.assertEqual(await session.purge(), NONE)


if __name__ == "__main__":
    unittest.main()
