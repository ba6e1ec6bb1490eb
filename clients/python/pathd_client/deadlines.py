"""A moment by which something has to be done."""
from __future__ import annotations

import math
import time
from dataclasses import dataclass


@dataclass(frozen=True)
class Deadline:
    """A moment of the monotonic clock, in seconds. Without one there is no end."""

    moment: float = math.inf

    @classmethod
    def after(cls, seconds: float | None) -> Deadline:
        """The moment that is this number of seconds from now; none for None."""
        return cls() if seconds is None else cls(time.monotonic() + seconds)

    def left(self) -> float:
        """How many seconds are left; 0 where there are none."""
        return max(0.0, self.moment - time.monotonic())
