"""The commands that wait for one server."""
from __future__ import annotations

from collections import deque
from dataclasses import dataclass
from enum import Enum
from itertools import islice, takewhile

from .deliveries import Delivery
from .requests import Purge


class WhenFull(Enum):
    """What is done with a command for which the queue of a server has no room."""

    # It is a QueueFull, and is sent to no server.
    REFUSE = "refuse"
    # The oldest command that waits for this server is dropped.
    DROP = "drop"


@dataclass(frozen=True)
class Bounds:
    """The most commands that wait for one server, and the most bytes of their frames."""

    commands: int = 4096
    size: int = 16 << 20

    def __post_init__(self) -> None:
        if self.commands < 1 or self.size < 1:
            raise ValueError(f"no room for a command: {self}")


class CommandQueue:
    """The commands that wait for one server, in the order in which they are sent.

    Those at its front are under way, as many as the last call of `begin` answered. None of them is
    dropped.
    """

    def __init__(self, bounds: Bounds) -> None:
        self._bounds = bounds
        self._waiting: deque[Delivery] = deque()
        self._under_way = 0
        self.size = 0

    def __len__(self) -> int:
        return len(self._waiting)

    def has_room_for(self, delivery: Delivery) -> bool:
        """Whether a command can be put without another being dropped."""
        bounds = self._bounds
        return len(self) < bounds.commands and self.size + delivery.size <= bounds.size

    def put(self, delivery: Delivery) -> list[Delivery]:
        """Puts a command at the end, and answers those that are dropped to make room, oldest first:
        the new one among them where there is no other way."""
        dropped = []
        while not self.has_room_for(delivery) and len(self) > self._under_way:
            dropped.append(self._waiting[self._under_way])
            del self._waiting[self._under_way]
            self.size -= dropped[-1].size
        if not self.has_room_for(delivery):
            return [*dropped, delivery]
        self._waiting.append(delivery)
        self.size += delivery.size
        return dropped

    def begin(self, most: int) -> list[Delivery]:
        """The front of the queue, at most so many commands: purges alone, or none. They are under
        way.

        Some of them may be carried out, and after that all of them in their order: the rows are
        those that all of them leave.
        """
        if not self._waiting:
            return []
        are_purges = isinstance(self._waiting[0].command, Purge)
        alike = takewhile(lambda it: isinstance(it.command, Purge) is are_purges, self._waiting)
        front = list(islice(alike, most))
        self._under_way = len(front)
        return front

    def end(self, settled: int) -> None:
        """Takes out the first commands under way, which are settled. The others wait again."""
        for _ in range(settled):
            self.size -= self._waiting.popleft().size
        self._under_way = 0
