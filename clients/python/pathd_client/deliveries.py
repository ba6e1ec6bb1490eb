"""A command that goes to several servers, and which of their acknowledgements it needs."""
from __future__ import annotations

from dataclasses import dataclass, field
from enum import Enum

from .frames import frame
from .replies import Ack, Reply
from .requests import Command


class Acknowledge(Enum):
    """How many servers have to acknowledge a command."""

    ONE = "one"
    MAJORITY = "majority"
    ALL = "all"

    def needed(self, servers: int) -> int:
        """The number, of this number of servers."""
        return {"one": 1, "majority": servers // 2 + 1, "all": servers}[self.value]


@dataclass(eq=False)
class Delivery:
    """A command that goes to several servers, with what each of them has replied: None where it has
    not, or where the command was dropped from its queue."""

    command: Command
    servers: int
    replies: list[Reply | None] = field(init=False)
    waiting: set[int] = field(init=False)
    size: int = field(init=False)

    def __post_init__(self) -> None:
        self.replies = [None] * self.servers
        self.waiting = set(range(self.servers))
        self.size = len(frame(self.command))

    def settle(self, server: int, reply: Reply | None) -> None:
        """Notes the last reply of a server, or that it gets the command no more."""
        self.replies[server] = reply
        self.waiting.discard(server)

    @property
    def acknowledged(self) -> int:
        """How many servers have acknowledged the command."""
        return sum(isinstance(reply, Ack) for reply in self.replies)

    def is_acknowledged(self, by: Acknowledge) -> bool:
        """Whether as many servers as it needs have acknowledged the command."""
        return self.acknowledged >= by.needed(self.servers)

    def can_be_acknowledged(self, by: Acknowledge) -> bool:
        """Whether as many servers as it needs have acknowledged the command or may still do so."""
        return self.acknowledged + len(self.waiting) >= by.needed(self.servers)

    def __str__(self) -> str:
        replies = [str(reply) for reply in self.replies if not isinstance(reply, (Ack, type(None)))]
        said = f"; {'; '.join(replies)}" if replies else ""
        return f"'{self.command}': {self.acknowledged} of {self.servers} servers acknowledged{said}"
