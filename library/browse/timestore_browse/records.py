"""What the logs of all profiles tell, and the records of the heap."""

import struct
from collections.abc import Iterator
from typing import NamedTuple

OPEN = 0xC7  # an open gate
EXTENT_BYTES = 8_192
DELTA, GONE, OLD = 2, 3, 4  # kinds of records; the fourth is an anchor
KEY_BYTES = 11  # kind, relation, record
RELATION = struct.Struct("<H")


class Commit(NamedTuple):
    """A commit, as the log has it."""

    time: int
    label: int
    records: int | None  # None where the log has its name alone


class Run(NamedTuple):
    """What an archive job wrote."""

    start: int
    length: int
    records: int


class Log(NamedTuple):
    """What a log tells."""

    commits: list[Commit]
    runs: list[Run]
    reclaimed: int  # the time of the last reclaim, 0 for none
    relations: set[int]  # those of the records in the heap


def relations(records: bytes) -> Iterator[int]:
    """The relation of each record of a list."""
    at = 0
    while at < len(records):
        yield relation(records, at)
        at = end(records, at)


def relation(records: bytes, at: int) -> int:
    """The relation of the record that begins here."""
    return int(RELATION.unpack_from(records, at + 1)[0])


def end(records: bytes, at: int) -> int:
    """Where the record that begins here ends."""
    kind = records[at]
    at += KEY_BYTES
    if kind == GONE:
        return at
    if kind == DELTA:
        fields = int.from_bytes(records[at : at + 2], "little").bit_count()
        at += 2
    else:
        at += 8 if kind == OLD else 0
        fields = records[at]
        at += 1
    for _ in range(fields):
        at += 1 + records[at]
    return at
