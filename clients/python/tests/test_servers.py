"""Several servers, which do what a test says."""
from __future__ import annotations

import threading
import time
import unittest

from pathd_client import (
    Ack, Acknowledge, Bounds, Code, Command, Found, NotAcknowledged, QueueFull, Refused, Register,
    Retry, Servers, SessionError, WhenFull, frame,
)
from pathd_client.deliveries import Delivery

from .fake_server import BOUND, PATIENCE, refusal
from .fake_store import FakeStore, acknowledges, counts, is_silent, refuses
from .samples import LOOKUP, PURGE, REMOVE, registration, row

SOON = Retry(attempts=None, first_pause=0.01, longest_pause=0.05)
TAKEN = Ack(0, 0, 0, 0, 0)


def servers_of(
    *stores: FakeStore,
    acknowledge: Acknowledge = Acknowledge.ALL,
    within: float = PATIENCE,
    bounds: Bounds = Bounds(),
    when_full: WhenFull = WhenFull.REFUSE,
    retry: Retry = SOON,
) -> Servers:
    """The servers that these are."""
    return Servers(
        [store.address for store in stores], acknowledge=acknowledge, within=within,
        bounds=bounds, when_full=when_full, retry=retry,
    )


def content(number: int) -> bytes:
    """What the frame of a registration contains."""
    return frame(registration(number))[4:]


class Needed(unittest.TestCase):
    """How many servers have to acknowledge a command."""

    def test_numbers(self) -> None:
        for servers, majority in ((1, 1), (2, 2), (3, 2), (4, 3), (5, 3)):
            self.assertEqual(Acknowledge.ONE.needed(servers), 1)
            self.assertEqual(Acknowledge.MAJORITY.needed(servers), majority)
            self.assertEqual(Acknowledge.ALL.needed(servers), servers)

    def test_refusals_decide(self) -> None:
        delivery = Delivery(PURGE, 3)
        delivery.settle(0, Refused(Code.FULL))
        self.assertTrue(delivery.can_be_acknowledged(Acknowledge.MAJORITY))
        self.assertFalse(delivery.can_be_acknowledged(Acknowledge.ALL))
        delivery.settle(1, None)
        self.assertFalse(delivery.can_be_acknowledged(Acknowledge.MAJORITY))
        self.assertTrue(delivery.can_be_acknowledged(Acknowledge.ONE))
        delivery.settle(2, TAKEN)
        self.assertTrue(delivery.is_acknowledged(Acknowledge.ONE))


class Commands(unittest.TestCase):
    """Commands, which each server gets."""

    def test_each_server_gets_each_command_in_order(self) -> None:
        commands: list[Command] = [registration(0), PURGE, REMOVE, registration(1)]
        with FakeStore(counts(3)) as one, FakeStore(counts(5)) as other:
            with servers_of(one, other) as servers:
                for command in commands:
                    replies = servers.command(command)
                    self.assertEqual(replies, [Ack(3, 0, 0, 0, 0), Ack(5, 0, 0, 0, 0)])
        wanted = [frame(command)[4:] for command in commands]
        self.assertEqual((one.commands, other.commands), (wanted, wanted))

    def test_threads_have_one_order(self) -> None:
        with FakeStore() as one, FakeStore() as other, servers_of(one, other) as servers:
            threads = [
                threading.Thread(target=servers.command, args=(registration(number),))
                for number in range(32)
            ]
            for thread in threads:
                thread.start()
            for thread in threads:
                thread.join()
        self.assertEqual(len(one.commands), 32)
        self.assertEqual(one.commands, other.commands)

    def test_a_server_that_is_away_gets_them_later(self) -> None:
        with FakeStore() as up, FakeStore(is_up=False) as away:
            with servers_of(up, away, acknowledge=Acknowledge.ONE) as servers:
                for number in range(100):
                    self.assertEqual(servers.command(registration(number))[0], TAKEN)
                self.assertFalse(servers.drain(0.05))
                state = servers.states[away.address]
                self.assertEqual((state.waiting, state.dropped), (100, 0))
                begun = time.monotonic()
                while servers.states[away.address].fault is None and time.monotonic() - begun < PATIENCE:
                    time.sleep(0.01)
                self.assertIn("no connection", servers.states[away.address].fault or "")
                away.start()
                self.assertTrue(servers.drain(PATIENCE))
                self.assertIsNone(servers.states[away.address].fault)
        self.assertEqual(away.commands, list(map(content, range(100))))

    def test_a_server_that_is_started_again(self) -> None:
        """What had no reply is sent again, and nothing is left out."""
        with FakeStore() as one, FakeStore(is_silent) as other:
            with servers_of(one, other, acknowledge=Acknowledge.MAJORITY) as servers:
                thread = threading.Thread(target=servers.command, args=(REMOVE,))
                thread.start()
                other.wait_for(1)
                other.stop()
                other.answer = acknowledges
                other.start()
                thread.join(PATIENCE)
                self.assertTrue(servers.drain(PATIENCE))
        self.assertEqual(other.commands, [frame(REMOVE)[4:]] * 2)

    def test_too_few_acknowledge_in_time(self) -> None:
        with FakeStore() as up, FakeStore(is_up=False) as away:
            with servers_of(up, away, within=BOUND) as servers:
                with self.assertRaises(NotAcknowledged) as failed:
                    servers.command(PURGE)
                self.assertEqual(failed.exception.replies, [TAKEN, None])
                away.start()
                self.assertTrue(servers.drain(PATIENCE))
        self.assertEqual(away.commands, [frame(PURGE)[4:]])

    def test_a_refusal_that_stays(self) -> None:
        full = Refused(Code.FULL)
        with FakeStore() as one, FakeStore(lambda _: refusal(Code.FULL)) as other:
            with servers_of(one, other) as servers:
                with self.assertRaises(NotAcknowledged) as failed:
                    servers.command(registration(0))
                self.assertIn(failed.exception.replies, ([TAKEN, full], [None, full]))
                self.assertIn("of 2 servers acknowledged; refused: ", str(failed.exception))
                self.assertEqual(servers.states[other.address].refused, 1)
            with servers_of(one, other, acknowledge=Acknowledge.ONE) as servers:
                self.assertIn(servers.command(PURGE), ([TAKEN, None], [TAKEN, full]))

    def test_refusals_that_pass(self) -> None:
        for code in (Code.MEMORY, Code.BUSY, Code.STOPPED, Code.OUTCOME_UNKNOWN, Code.NOT_AWAITED):
            codes = [code, code]

            def answer(content: bytes, codes: list[Code] = codes) -> bytes:
                return refusal(codes.pop()) if codes else acknowledges(content)

            with FakeStore(answer) as store, servers_of(store) as servers:
                self.assertEqual(servers.command(PURGE), [TAKEN])
            self.assertEqual(len(store.commands), 3)

    def test_what_follows_a_refusal_that_passes_is_sent_again(self) -> None:
        """A removal never comes before the registration that it follows."""
        refused = [content(0)]

        def answer(sent: bytes) -> bytes:
            if sent in refused:
                refused.remove(sent)
                return refusal(Code.BUSY)
            return acknowledges(sent)

        with FakeStore() as up, FakeStore(answer, is_up=False) as away:
            with servers_of(up, away, acknowledge=Acknowledge.ONE) as servers:
                servers.command(registration(0))
                servers.command(REMOVE)
                away.start()
                self.assertTrue(servers.drain(PATIENCE))
        self.assertEqual(away.commands, [content(0), frame(REMOVE)[4:]] * 2)

    def test_too_many_bytes_are_sent_to_none(self) -> None:
        with FakeStore() as store, servers_of(store) as servers:
            with self.assertRaises(ValueError):
                servers.command(Register([row(0, 140_000)]))
            servers.command(PURGE)
        self.assertEqual(len(store.commands), 1)

    def test_no_servers(self) -> None:
        with self.assertRaises(ValueError):
            Servers([])


class FullQueues(unittest.TestCase):
    """Queues without room."""

    def test_refused(self) -> None:
        with FakeStore() as up, FakeStore(is_up=False) as away:
            with servers_of(
                up, away, acknowledge=Acknowledge.ONE, bounds=Bounds(commands=2)
            ) as servers:
                for _ in range(2):
                    servers.command(PURGE)
                with self.assertRaises(QueueFull) as full:
                    servers.command(REMOVE)
        self.assertIn(str(away.address), str(full.exception))
        self.assertEqual(len(up.commands), 2)

    def test_dropped(self) -> None:
        """The last ones arrive; of those before, the front that is under way may."""
        with FakeStore() as up, FakeStore(is_up=False) as away:
            with servers_of(
                up, away, acknowledge=Acknowledge.ONE, bounds=Bounds(commands=70),
                when_full=WhenFull.DROP,
            ) as servers:
                for number in range(200):
                    servers.command(registration(number))
                state = servers.states[away.address]
                self.assertEqual((state.waiting, state.dropped), (70, 130))
                away.start()
                self.assertTrue(servers.drain(PATIENCE))
        self.assertEqual(len(away.commands), 70)
        self.assertEqual(away.commands[-6:], list(map(content, range(194, 200))))

    def test_a_dropped_command_is_not_acknowledged(self) -> None:
        with FakeStore(is_up=False) as away:
            with servers_of(away, bounds=Bounds(size=1), when_full=WhenFull.DROP) as servers:
                with self.assertRaises(NotAcknowledged):
                    servers.command(PURGE)


class Lookups(unittest.TestCase):
    """Lookups, which one server answers."""

    def test_the_first_server_answers(self) -> None:
        with FakeStore() as one, FakeStore() as other, servers_of(one, other) as servers:
            for _ in range(3):
                self.assertEqual(servers.lookup(LOOKUP), Found([]))
        self.assertEqual((one.lookups, other.lookups), (3, 0))

    def test_they_stay_at_the_one_that_answers(self) -> None:
        with FakeStore(is_up=False) as away, FakeStore() as up, servers_of(away, up) as servers:
            for _ in range(3):
                self.assertEqual(servers.lookup(LOOKUP), Found([]))
            away.start()
            servers.lookup(LOOKUP)
            up.stop()
            self.assertEqual(servers.lookup(LOOKUP), Found([]))
        self.assertEqual((away.lookups, up.lookups), (1, 4))

    def test_a_silent_server_has_a_part_of_the_time(self) -> None:
        with FakeStore(is_silent) as silent, FakeStore() as up:
            with servers_of(silent, up, within=2 * BOUND) as servers:
                begun = time.monotonic()
                self.assertEqual(servers.lookup(LOOKUP), Found([]))
                self.assertGreater(time.monotonic() - begun, BOUND - 0.1)
                self.assertEqual(servers.lookup(LOOKUP), Found([]))
        self.assertEqual((silent.lookups, up.lookups), (1, 2))

    def test_refusals(self) -> None:
        """Another server is asked where a refusal passes, and no other where it stays."""
        for code, asked in ((Code.MEMORY, 1), (Code.NO_CORE, 0)):
            with FakeStore(refuses(code)) as one, FakeStore() as other:
                with servers_of(one, other) as servers:
                    reply = servers.lookup(LOOKUP)
            self.assertEqual(reply, Found([]) if asked else Refused(code))
            self.assertEqual((one.lookups, other.lookups), (1, asked))

    def test_a_server_comes_back_in_time(self) -> None:
        with FakeStore(is_up=False) as store, servers_of(store) as servers:
            timer = threading.Timer(0.2, store.start)
            timer.start()
            self.assertEqual(servers.lookup(LOOKUP), Found([]))
            timer.join()

    def test_none_answers_in_time(self) -> None:
        with FakeStore(is_up=False) as one, FakeStore(is_silent) as other:
            with servers_of(one, other, within=0.3) as servers:
                begun = time.monotonic()
                with self.assertRaises(SessionError) as failed:
                    servers.lookup(LOOKUP)
                self.assertLess(time.monotonic() - begun, PATIENCE / 2)
        for store in (one, other):
            self.assertIn(f"{store.address}: ", str(failed.exception))

    def test_threads_have_sessions_of_their_own(self) -> None:
        both = threading.Barrier(2)

        def answer(content: bytes) -> bytes:
            both.wait(PATIENCE)
            return acknowledges(content)

        with FakeStore(answer) as store, servers_of(store) as servers:
            threads = [threading.Thread(target=servers.lookup, args=(LOOKUP,)) for _ in range(2)]
            for thread in threads:
                thread.start()
            for thread in threads:
                thread.join(PATIENCE)
        self.assertEqual(store.lookups, 2)


class Ends(unittest.TestCase):
    """The end of all sessions."""

    def test_close_does_not_wait_for_replies(self) -> None:
        with FakeStore(is_silent) as silent:
            servers = servers_of(silent, within=0.1)
            with self.assertRaises(NotAcknowledged):
                servers.command(PURGE)
            begun = time.monotonic()
            servers.close()
            self.assertLess(time.monotonic() - begun, PATIENCE / 2)

    def test_calls_end(self) -> None:
        with FakeStore(is_silent) as silent:
            servers = servers_of(silent)
            timer = threading.Timer(0.2, servers.close)
            timer.start()
            begun = time.monotonic()
            for _ in range(2):
                with self.assertRaises(NotAcknowledged):
                    servers.command(PURGE)
            self.assertLess(time.monotonic() - begun, PATIENCE / 2)
            timer.join()


if __name__ == "__main__":
    unittest.main()
