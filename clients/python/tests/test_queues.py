"""The queue of a server."""
from __future__ import annotations

import unittest

from pathd_client import Bounds, Command
from pathd_client.deliveries import Delivery
from pathd_client.queues import CommandQueue

from .samples import PURGE, REMOVE, registration


def deliveries(*commands: Command) -> list[Delivery]:
    """Commands on their way to one server."""
    return [Delivery(command, 1) for command in commands]


def filled(*listed: Delivery, bounds: Bounds = Bounds()) -> CommandQueue:
    """A queue of these."""
    queue = CommandQueue(bounds)
    for delivery in listed:
        queue.put(delivery)
    return queue


class Orders(unittest.TestCase):
    """What is sent next."""

    def test_purges_are_apart(self) -> None:
        listed = deliveries(registration(0), REMOVE, PURGE, PURGE, registration(1))
        queue = filled(*listed)
        for front in (listed[:2], listed[2:4], listed[4:], listed[:0]):
            self.assertEqual(queue.begin(64), front)
            queue.end(len(front))
        self.assertEqual((len(queue), queue.size), (0, 0))

    def test_a_front_is_bounded(self) -> None:
        listed = deliveries(*map(registration, range(5)))
        self.assertEqual(filled(*listed).begin(3), listed[:3])

    def test_what_is_not_settled_stays_in_front(self) -> None:
        listed = deliveries(*map(registration, range(4)))
        queue = filled(*listed)
        queue.begin(3)
        queue.end(1)
        self.assertEqual(queue.begin(64), listed[1:])
        self.assertEqual(queue.size, sum(delivery.size for delivery in listed[1:]))


class Rooms(unittest.TestCase):
    """What a queue has room for."""

    def test_commands_are_bounded(self) -> None:
        first, second, third = deliveries(registration(0), REMOVE, PURGE)
        queue = filled(first, second, bounds=Bounds(commands=2))
        self.assertFalse(queue.has_room_for(third))
        self.assertEqual(queue.put(third), [first])
        self.assertEqual((len(queue), queue.size), (2, second.size + third.size))

    def test_bytes_are_bounded(self) -> None:
        first, second, third = deliveries(PURGE, REMOVE, REMOVE)
        queue = filled(first, second, bounds=Bounds(size=first.size + second.size))
        self.assertFalse(queue.has_room_for(third))
        self.assertEqual(queue.put(third), [first, second])
        self.assertEqual((len(queue), queue.size), (1, third.size))

    def test_what_is_under_way_is_not_dropped(self) -> None:
        first, second, third = deliveries(registration(0), PURGE, REMOVE)
        queue = filled(first, second, bounds=Bounds(commands=2))
        queue.begin(1)
        self.assertEqual(queue.put(third), [second])
        queue.end(1)
        self.assertEqual(queue.begin(64), [third])

    def test_a_new_command_without_any_room(self) -> None:
        first, second = deliveries(PURGE, REMOVE)
        queue = filled(first, bounds=Bounds(commands=1))
        queue.begin(1)
        self.assertEqual(queue.put(second), [second])
        self.assertEqual(len(queue), 1)
        self.assertEqual(filled(bounds=Bounds(size=1)).put(first), [first])

    def test_bounds_have_room(self) -> None:
        for commands, size in ((0, 1), (1, 0)):
            with self.assertRaises(ValueError):
                Bounds(commands, size)


if __name__ == "__main__":
    unittest.main()
