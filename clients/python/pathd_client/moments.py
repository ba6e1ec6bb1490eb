"""Moments: half seconds since 1970 in the frames, and `datetime` in programs."""
from __future__ import annotations

from datetime import datetime, timedelta, timezone

EPOCH = datetime(1970, 1, 1, tzinfo=timezone.utc)
HALF_SECOND = timedelta(milliseconds=500)


def half_seconds_of(moment: datetime) -> int:
    """The last half second that is not after a moment. ValueError where the moment has no time
    zone: it would be another one on another machine."""
    if moment.tzinfo is None:
        raise ValueError(f"a moment without a time zone: {moment}")
    return (moment - EPOCH) // HALF_SECOND


def moment_of(half_seconds: int) -> datetime:
    """The moment of a number of half seconds, in UTC. OverflowError after the year 9999."""
    return EPOCH + half_seconds * HALF_SECOND


def seconds_of(moment: int | datetime) -> int:
    """The whole seconds since 1970 of a moment, or of a number of them."""
    return moment if isinstance(moment, int) else half_seconds_of(moment) // 2
