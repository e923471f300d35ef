"""Moments as clerks write and read them."""

import os
import time
from datetime import date, datetime, timedelta, timezone

import timestore

from .schema import Refusal

MICROSECOND = timedelta(microseconds=1)


def moment_of(text: str) -> int:
    """The moment that a text names, in microseconds since 1970. A day alone is its last microsecond, in UTC."""
    try:
        if len(text) == len("2026-05-03"):
            day = date.fromisoformat(text)
            return timestore.micros(datetime(day.year, day.month, day.day, tzinfo=timezone.utc) + timedelta(days=1) - MICROSECOND)
        instant = datetime.fromisoformat(text)
    except (ValueError, OverflowError):
        raise Refusal(f"{text!r} is no day such as 2026-05-03 and no instant such as 2026-05-03T14:30:00Z") from None
    if instant.tzinfo is None:
        raise Refusal(f"{text!r} has no zone: write {text}Z for UTC, or {text}+02:00")
    if instant.year < 1971:
        raise Refusal(f"{text!r} is too early")
    return timestore.micros(instant)


def spelled(moment: int) -> str:
    """A moment as `moment_of` reads it: in UTC, to the microsecond where it is no whole second."""
    return timestore.moment(moment).isoformat().replace("+00:00", "Z")


def now() -> int:
    """The clock, in microseconds since 1970. REGISTER_CLOCK in the environment stands in for it."""
    if text := os.environ.get("REGISTER_CLOCK"):
        return moment_of(text)
    return time.time_ns() // 1_000
