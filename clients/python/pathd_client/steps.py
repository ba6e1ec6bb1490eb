"""The steps of a purge, as docs/PROTOCOL.md has them."""
from __future__ import annotations

from dataclasses import dataclass

from .requests import Purge

# How far before its last moment a purge begins, in half seconds.
REACH = 262_144
# The part of what is left that a step covers at most, and what it may cover in any case.
SHARE, LEAST = 8, 1_024
# About the most segments that a step should drop. After fewer than FEW the next one covers twice as
# much, and after more than MANY it covers less.
ENOUGH, FEW, MANY = 512, 256, 1_024


@dataclass(frozen=True)
class Step:
    """A step: the moment of its command, and the time that it covers before this moment."""

    moment: int
    width: int
    last: int

    @classmethod
    def first(cls, purge: Purge) -> Step:
        """The first step of a purge."""
        return cls(max(purge.half_seconds - REACH, 0), REACH, purge.half_seconds)

    def request(self) -> Purge:
        """The command of this step."""
        return Purge(half_seconds=self.moment)

    def next(self, dropped: int) -> Step | None:
        """The step after this one, which has dropped so many segments. None after the last one."""
        left = self.last - self.moment
        if left == 0:
            return None
        width = self.width
        if dropped > MANY:
            width //= dropped // ENOUGH + 1
        elif dropped < FEW:
            width *= 2
        width = min(max(width, 1), max(left // SHARE, LEAST), left)
        return Step(self.moment + width, width, self.last)
