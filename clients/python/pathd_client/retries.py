"""How often something is tried, and how long the pauses between are."""
from __future__ import annotations

import random
from collections.abc import Iterator
from dataclasses import dataclass
from itertools import islice


@dataclass(frozen=True)
class Retry:
    """The most attempts, None for no bound, and the first and the longest pause between two of
    them, in seconds."""

    attempts: int | None = 6
    first_pause: float = 0.1
    longest_pause: float = 2.0

    def __post_init__(self) -> None:
        has_none = self.attempts is not None and self.attempts < 1
        if has_none or not 0 <= self.first_pause <= self.longest_pause:
            raise ValueError(f"no way to try again: {self}")

    def pauses(self) -> Iterator[float]:
        """The pauses between the attempts, one less than there are attempts.

        Each is twice the one before, up to the longest, less a random part of at most its half, so
        that the clients of a server that was restarted do not all return at one moment.
        """
        return islice(self._all_pauses(), None if self.attempts is None else self.attempts - 1)

    def _all_pauses(self) -> Iterator[float]:
        pause = self.first_pause
        while True:
            yield pause * random.uniform(0.5, 1.0)
            pause = min(2 * pause, self.longest_pause)


DEFAULT_RETRY = Retry()

# One attempt: nothing is tried again.
NO_RETRY = Retry(attempts=1)
