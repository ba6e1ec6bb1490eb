"""Sessions with a server that does what a test says."""
from __future__ import annotations

import socket
import time
import unittest
from collections.abc import Iterator
from contextlib import contextmanager, suppress
from unittest import mock

from pathd_client import (
    NO_RETRY, Ack, Code, ConnectionEnded, Found, FrameError, Lookup, OutcomeUnknown, Refused,
    Register, ReplyTimeout, Request, Retry, Session, SessionError, TurnedAway, frame,
)
from pathd_client.connection import Connection

from .fake_server import (
    BOUND, PATIENCE, FakeServer, Peer, ack, answers, closes, framed, refusal, resets, turns_away,
)
from .samples import LOOKUP, PURGE, QUICKLY, REMOVE, large_registration, registration, row

NOTHING = Found([])


def session_with(
    server: FakeServer, retry: Retry = QUICKLY, reply_timeout: float = PATIENCE
) -> Session:
    """A session with a fake server."""
    host, port = server.address
    return Session(host, port, reply_timeout=reply_timeout, retry=retry)


def contents(*requests: Request) -> list[bytes]:
    """What the frames of these requests contain."""
    return [frame(request)[4:] for request in requests]


@contextmanager
def small_buffers() -> Iterator[None]:
    """Lets the system keep few of the bytes that a client sends."""
    connect = socket.create_connection

    def connected(address: tuple[str, int], timeout: float) -> socket.socket:
        connection = connect(address, timeout)
        connection.setsockopt(socket.SOL_SOCKET, socket.SO_SNDBUF, 4_096)
        return connection

    with mock.patch("socket.create_connection", connected):
        yield


class Exchanges(unittest.TestCase):
    """Requests and replies where nothing fails."""

    def test_ask(self) -> None:
        with FakeServer(answers(ack(0), b"\x82")) as server, session_with(server) as session:
            self.assertEqual(session.ask(registration(0)), Ack(0, 0, 0, 0, 0))
            self.assertEqual(session.ask(LOOKUP), NOTHING)
        self.assertEqual(server.requests, [contents(registration(0), LOOKUP)])

    def test_replies_are_in_order(self) -> None:
        kinds = (ack(0), b"\x82", ack(1, 0x83), ack(2, 0x84), refusal(0x41))
        with FakeServer(answers(*kinds)) as server, session_with(server) as session:
            replies = session.pipeline([registration(0), LOOKUP, PURGE, REMOVE, Lookup(0, 0)])
        wanted = [Ack(0, 0, 0, 0, 0), NOTHING, Ack(1, 0, 0, 0, 0), Ack(2, 0, 0, 0, 0)]
        self.assertEqual(replies, [*wanted, Refused(Code.NULL_DESTINATION)])

    def test_no_requests(self) -> None:
        self.assertEqual(Session("127.0.0.1", 1).pipeline([]), [])

    def test_too_many_bytes_send_nothing(self) -> None:
        with Session("127.0.0.1", 1) as session, self.assertRaises(ValueError):
            session.pipeline([LOOKUP, Register([row(0, 140_000)])])

    def test_replies_in_pieces(self) -> None:
        def drips(peer: Peer) -> None:
            peer.read()
            for byte in framed(ack(3)):
                peer.send_bytes(bytes([byte]))
                time.sleep(0.001)

        with FakeServer(drips) as server, session_with(server) as session:
            self.assertEqual(session.ask(registration(0)), Ack(3, 0, 0, 0, 0))


class Windows(unittest.TestCase):
    """What is under way at one time."""

    def test_large_replies_meet_large_requests(self) -> None:
        """Neither side waits for ever where the server reads nothing while it writes."""
        found = b"\x82" + Register([row(i, 16_000) for i in range(64)]).body()
        requests = [LOOKUP] * 8 + [large_registration(i) for i in range(56)]
        replies = [found] * 8 + [ack(i) for i in range(56)]
        server = FakeServer(answers(*replies), buffer=4_096)
        with small_buffers(), server, session_with(server) as session:
            answered = session.pipeline(requests)
        self.assertEqual([type(reply) for reply in answered], [Found] * 8 + [Ack] * 56)
        self.assertEqual(server.requests, [contents(*requests)])

    def under_way(self, requests: list[Request]) -> int:
        """How many requests are sent before a reply is."""

        def hesitates(peer: Peer) -> None:
            peer.read_all(1.0)
            counts.append(len(peer.requests))
            for _ in peer.requests:
                peer.send(b"\xff\x32")
            answers(*[b"\xff\x32"] * (len(requests) - len(peer.requests)))(peer)

        counts: list[int] = []
        with FakeServer(hesitates) as server, session_with(server) as session:
            session.pipeline(requests)
        return counts[0]

    def test_requests_are_bounded_by_number(self) -> None:
        self.assertEqual(self.under_way([registration(i) for i in range(100)]), Session.WINDOW)

    def test_requests_are_bounded_by_bytes(self) -> None:
        requests: list[Request] = [large_registration(i) for i in range(20)]
        size = max(len(frame(request)) for request in requests)
        self.assertEqual(self.under_way(requests), Session.WINDOW_BYTES // size)


class RefusedForNow(unittest.TestCase):
    """Requests that are asked again after a refusal."""

    def test_each_passing_code(self) -> None:
        for code in (Code.MEMORY, Code.BUSY, Code.NO_SEAT):
            requests: list[Request] = [registration(0), PURGE, REMOVE]
            for request in requests:
                kind = 0x80 + request.kind
                replies = (b"\x82", refusal(code), ack(5, kind))
                with FakeServer(answers(*replies)) as server, session_with(server) as session:
                    session.ask(LOOKUP)
                    self.assertEqual(session.ask(request), Ack(5, 0, 0, 0, 0))
                self.assertEqual(server.requests, [contents(LOOKUP, request, request)])

    def test_other_codes_are_replies(self) -> None:
        for code in Code:
            if not Refused(code).is_passing:
                with FakeServer(answers(refusal(code))) as server, session_with(server) as session:
                    self.assertEqual(session.ask(registration(0)), Refused(code))

    def test_attempts_are_bounded(self) -> None:
        busy = answers(*[refusal(Code.BUSY)] * 3)
        with FakeServer(busy) as server, session_with(server) as session:
            self.assertEqual(session.ask(REMOVE), Refused(Code.BUSY))
        self.assertEqual(len(server.requests[0]), 3)

    def test_no_retry(self) -> None:
        with FakeServer(answers(refusal(Code.BUSY))) as server:
            with session_with(server, NO_RETRY) as session:
                self.assertEqual(session.ask(LOOKUP), Refused(Code.BUSY))

    def test_those_of_one_kind(self) -> None:
        requests = [registration(i) for i in range(3)]
        replies = (refusal(Code.BUSY), ack(0), refusal(Code.MEMORY), ack(1), ack(2))
        with FakeServer(answers(*replies)) as server, session_with(server) as session:
            answered = session.pipeline(requests)
        places = [reply.place for reply in answered if isinstance(reply, Ack)]
        self.assertEqual(places, [1, 0, 2])
        self.assertEqual(server.requests, [contents(*requests, requests[0], requests[2])])

    def test_those_of_several_kinds_keep_their_order(self) -> None:
        replies = (refusal(Code.BUSY), ack(0, 0x84))
        with FakeServer(answers(*replies)) as server, session_with(server) as session:
            answered = session.pipeline([registration(0), REMOVE])
        self.assertEqual(answered, [Refused(Code.BUSY), Ack(0, 0, 0, 0, 0)])


class Ends(unittest.TestCase):
    """Connections that end, and what is sent again."""

    def test_no_seat_at_first(self) -> None:
        with FakeServer(turns_away, turns_away, answers(ack(0, 0x84))) as server:
            with session_with(server) as session:
                self.assertEqual(session.ask(REMOVE), Ack(0, 0, 0, 0, 0))

    def test_no_seat_at_all(self) -> None:
        with FakeServer(turns_away, turns_away, turns_away) as server:
            with session_with(server) as session, self.assertRaises(TurnedAway):
                session.ask(LOOKUP)

    def test_an_end_before_the_reply(self) -> None:
        for end in (closes, resets):
            requests: list[Request] = [LOOKUP, registration(0), PURGE]
            for request in requests:
                reply = b"\x82" if request is LOOKUP else ack(0, 0x80 + request.kind)
                with FakeServer(end, answers(reply)) as server, session_with(server) as session:
                    session.ask(request)
                self.assertEqual(server.requests, [contents(request)] * 2)

    def test_a_removal_is_not_sent_twice(self) -> None:
        for end in (closes, resets):
            with FakeServer(end) as server, session_with(server) as session:
                with self.assertRaises(OutcomeUnknown) as caught:
                    session.ask(REMOVE)
            self.assertEqual(caught.exception.replies, [None])
            self.assertEqual(server.requests, [contents(REMOVE)])

    def test_an_end_that_came_before_the_request(self) -> None:
        with FakeServer(answers(b"\x82"), answers(ack(0, 0x84))) as server:
            with session_with(server) as session:
                session.ask(LOOKUP)
                server.wait_for_close()
                self.assertEqual(session.ask(REMOVE), Ack(0, 0, 0, 0, 0))

    def test_those_without_a_reply_are_sent_again(self) -> None:
        requests = [registration(i) for i in range(4)]

        def takes_all_answers_two(peer: Peer) -> None:
            for _ in requests:
                peer.read()
            peer.send(ack(0), ack(1))

        again = answers(ack(2), ack(3))
        with FakeServer(takes_all_answers_two, again) as server, session_with(server) as session:
            answered = session.pipeline(requests)
        self.assertEqual(answered, [Ack(place, 0, 0, 0, 0) for place in range(4)])
        self.assertEqual(server.requests, [contents(*requests), contents(*requests[2:])])

    def test_a_removal_that_was_not_sent_is_sent(self) -> None:
        requests: list[Request] = [large_registration(i) for i in range(4)]
        requests.append(REMOVE)
        replies = [ack(i) for i in range(4)]
        others = answers(*replies[1:], ack(4, 0x84))
        server = FakeServer(answers(replies[0]), others, buffer=4_096)
        with small_buffers(), server, session_with(server) as session:
            answered = session.pipeline(requests)
        self.assertEqual(answered, [Ack(place, 0, 0, 0, 0) for place in range(5)])

    def test_a_removal_that_was_answered_is_not_in_the_way(self) -> None:
        def answers_one(peer: Peer) -> None:
            peer.read()
            peer.read()
            peer.send(ack(0, 0x84))

        with FakeServer(answers_one, answers(b"\x82")) as server, session_with(server) as session:
            self.assertEqual(session.pipeline([REMOVE, LOOKUP]), [Ack(0, 0, 0, 0, 0), NOTHING])

    def test_what_was_received_before_a_reset_counts(self) -> None:
        def replies_and_resets(peer: Peer) -> None:
            peer.send(ack(0))
            peer.reset()

        with FakeServer(replies_and_resets) as server:
            connection = Connection.open(*server.address, timeout=10.0)
            server.wait_for_close()
            connection.queue(frame(LOOKUP))
            connection.transfer(10.0)
            self.assertEqual(list(connection.contents()), [ack(0)])
            with self.assertRaises(ConnectionEnded):
                connection.transfer(10.0)
            connection.close()

    def test_attempts_are_bounded(self) -> None:
        with FakeServer(closes, closes, closes) as server, session_with(server) as session:
            with self.assertRaises(ConnectionEnded) as caught:
                session.ask(LOOKUP)
        self.assertEqual(caught.exception.replies, [None])

    def test_attempts_count_from_the_last_reply(self) -> None:
        def answers_one(peer: Peer) -> None:
            peer.read()
            peer.send(b"\x82")

        with FakeServer(*[answers_one] * 7) as server, session_with(server) as session:
            self.assertEqual(session.pipeline([LOOKUP] * 7), [NOTHING] * 7)

    def test_replies_that_came_are_kept(self) -> None:
        with FakeServer(answers(b"\x82"), closes, closes) as server:
            with session_with(server) as session, self.assertRaises(SessionError) as caught:
                session.pipeline([LOOKUP, LOOKUP])
        self.assertEqual(caught.exception.replies, [NOTHING, None])

    def test_nobody_listens(self) -> None:
        with socket.socket() as unused:
            unused.bind(("127.0.0.1", 0))
            host, port = unused.getsockname()
            with Session(host, port, retry=QUICKLY) as session:
                with self.assertRaises(ConnectionEnded) as caught:
                    session.ask(LOOKUP)
        self.assertIsInstance(caught.exception.__cause__, ConnectionRefusedError)

    def test_a_server_that_comes_later(self) -> None:
        retry = Retry(attempts=200, first_pause=0.05, longest_pause=0.05)
        with FakeServer(answers(ack(0, 0x84)), late=0.2) as server:
            with session_with(server, retry) as session:
                self.assertEqual(session.ask(REMOVE), Ack(0, 0, 0, 0, 0))


class Faults(unittest.TestCase):
    """Servers that are slow, or none of this kind."""

    def test_no_reply_in_time(self) -> None:
        def is_silent(peer: Peer) -> None:
            peer.wait_for_end()

        with FakeServer(is_silent, answers(b"\x82")) as server:
            with session_with(server, reply_timeout=BOUND) as session:
                before = time.monotonic()
                with self.assertRaises(ReplyTimeout) as caught:
                    session.ask(LOOKUP)
                self.assertLess(time.monotonic() - before, PATIENCE / 2)
                self.assertIsInstance(caught.exception, TimeoutError)
                self.assertEqual(session.ask(LOOKUP), NOTHING)
        self.assertEqual(server.requests, [contents(LOOKUP), contents(LOOKUP)])

    def test_a_bound_on_the_whole_call(self) -> None:
        def is_slow(peer: Peer) -> None:
            with suppress(ConnectionError):
                while peer.read():
                    time.sleep(0.1)
                    peer.send(b"\x82")

        with FakeServer(is_slow) as server, session_with(server) as session:
            with self.assertRaises(SessionError) as caught:
                session.pipeline([LOOKUP] * 100, within=BOUND)
            self.assertIn(NOTHING, caught.exception.replies)
            self.assertIn(None, caught.exception.replies)

    def test_a_bound_on_attempts(self) -> None:
        retry = Retry(attempts=None, first_pause=0.01, longest_pause=0.01)
        session = Session("127.0.0.1", 1, retry=retry)
        with self.assertRaises(ConnectionEnded):
            session.ask(LOOKUP, within=0.1)

    def test_an_interrupt(self) -> None:
        def interrupts(peer: Peer) -> None:
            peer.read()
            session.interrupt()
            peer.wait_for_end()

        with FakeServer(interrupts, answers(b"\x82")) as server:
            with session_with(server, NO_RETRY) as session:
                session.interrupt()
                with self.assertRaises(ConnectionEnded):
                    session.ask(LOOKUP)
                self.assertEqual(session.ask(LOOKUP), NOTHING)

    def test_the_time_is_that_of_one_reply(self) -> None:
        def is_slow(peer: Peer) -> None:
            for _ in range(4):
                peer.read()
                time.sleep(0.4 * BOUND)
                peer.send(b"\x82")

        with FakeServer(is_slow) as server, session_with(server, reply_timeout=BOUND) as session:
            self.assertEqual(session.pipeline([LOOKUP] * 4), [NOTHING] * 4)

    def test_what_is_no_reply_ends_the_session(self) -> None:
        for wrong in (framed(ack(0)), framed(b"\x00"), bytes(4), b"HTTP/1.1 400 Bad Request\r\n"):
            def sends_it(peer: Peer) -> None:
                peer.read()
                peer.send_bytes(wrong)
                peer.wait_for_end()

            with FakeServer(sends_it) as server, session_with(server) as session:
                with self.assertRaises(FrameError):
                    session.ask(LOOKUP)

    def test_a_reply_too_many(self) -> None:
        def sends_two(peer: Peer) -> None:
            peer.read()
            peer.send(b"\x82", b"\x82")
            peer.wait_for_end()

        with FakeServer(sends_two) as server, session_with(server) as session:
            with self.assertRaises(FrameError):
                session.ask(LOOKUP)

    def test_a_reply_that_is_cut(self) -> None:
        def cuts(peer: Peer) -> None:
            peer.read()
            peer.send_bytes(framed(ack(0))[:-1])

        with FakeServer(cuts, answers(ack(1))) as server, session_with(server) as session:
            self.assertEqual(session.ask(registration(0)), Ack(1, 0, 0, 0, 0))


if __name__ == "__main__":
    unittest.main()
