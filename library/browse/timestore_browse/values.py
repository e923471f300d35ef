"""Fields and times as people read them."""

from datetime import datetime, timezone
from functools import lru_cache

import timestore

HEXADECIMAL = "0x"
INSTANTS_KEPT = 4_096  # as many rows have the time of one commit


class BadTime(ValueError):
    """A text that is no time."""


def is_text(field: bytes) -> bool:
    """Whether a field is shown as text: UTF-8 without control characters, that can't be taken for hexadecimal."""
    try:
        text = field.decode()
    except UnicodeDecodeError:
        return False
    signs = text.replace("\n", "").replace("\t", "")
    return (signs == "" or signs.isprintable()) and not text.startswith(HEXADECIMAL)


def spelled(field: bytes) -> str:
    """A field as text where it is, else as `0x` and hexadecimal digits. No two fields are spelled alike."""
    return field.decode() if is_text(field) else HEXADECIMAL + field.hex()


@lru_cache(INSTANTS_KEPT)
def instant(time: int) -> str:
    """A time in UTC, to the microsecond where it is no whole second."""
    try:
        return timestore.moment(time).replace(tzinfo=None).isoformat(" ")
    except OverflowError:  # behind the year 9999
        return f"{time} µs"


def time_of(text: str) -> int:
    """The time that a text names: microseconds since 1970, or an instant, in UTC where it names no zone."""
    text = text.strip()
    if text.isascii() and text.isdigit() and len(text) < 20:
        return int(text)
    try:
        found = datetime.fromisoformat(text)
        return timestore.micros(found if found.tzinfo else found.replace(tzinfo=timezone.utc))
    except (ValueError, OverflowError):
        raise BadTime(f"“{text}” is no time: write 2026-05-03, 2026-05-03 14:30:00 or microseconds since 1970") from None


def lasting(micros: int) -> str:
    """How long a version lasted, in the largest unit and the one below it."""
    units = (("d", 86_400_000_000), ("h", 3_600_000_000), ("min", 60_000_000), ("s", 1_000_000), ("ms", 1_000), ("µs", 1))
    for place, (name, size) in enumerate(units):
        if micros >= size:
            below = units[place + 1 : place + 2]
            rest = [f"{micros % size // part} {unit}" for unit, part in below if micros % size >= part]
            return " ".join([f"{micros // size} {name}", *rest])
    return "0 µs"
