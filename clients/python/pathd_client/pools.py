"""Sessions that threads share."""
from __future__ import annotations

import threading
from collections.abc import Callable, Iterator
from contextlib import contextmanager

from .sessions import Session


class Pool:
    """Sessions with one server, as many as threads use at one time."""

    def __init__(self, opened: Callable[[], Session]) -> None:
        self._opened = opened
        self._lock = threading.Lock()
        self._free: list[Session] = []

    @contextmanager
    def session(self) -> Iterator[Session]:
        """A session that no other thread uses meanwhile."""
        with self._lock:
            session = self._free.pop() if self._free else self._opened()
        try:
            yield session
        finally:
            with self._lock:
                self._free.append(session)

    def close(self) -> None:
        """Closes the sessions that no thread uses."""
        with self._lock:
            for session in self._free:
                session.close()
