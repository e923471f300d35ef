"""The log of a store of profile 4: chains of extents in the heap. The archive names the commits up to the last reclaim."""

import struct
from collections.abc import Iterator
from pathlib import Path
from typing import BinaryIO, NamedTuple

from .records import EXTENT_BYTES, OPEN, Commit, Log, Run, end, relation, relations

PROFILE = 4
ROOTS = struct.Struct("<B3xII")  # turn gate, two roots
ROOTS_AT = 16
EXTENT = struct.Struct("<B3xIIII4x")  # gate, own number, next extent, bytes of the chain, link
COMMIT, ARCHIVED, FLOOR, BASE, ROLL = 5, 6, 7, 8, 9  # kinds of what a chain says
MEMBER = struct.Struct("<xQQH")  # label, time, records
RUN = struct.Struct("<xQQQQH")  # upto, start, length, records, how many of the runs before it this one replaces
ANCHORS = struct.Struct("<xQIII")  # upto, first extent, extents, records
PLACE = struct.Struct("<xQQ")  # start, length
FLOOR_BYTES = 11
NAME = struct.Struct("<QQ")  # label, time


def has_chains(status: bytes) -> bool:
    """Whether a store's log is in its heap."""
    return int.from_bytes(status[8:12], "little") == PROFILE


def read_log(folder: Path) -> Log:
    """What the chains of a store say, and the relations of the records in its heap."""
    turn, *roots = ROOTS.unpack_from((folder / "status").read_bytes(), ROOTS_AT)
    with open(folder / "heap", "rb") as heap, open(folder / "archive", "rb") as archive:
        read = _Read(heap, archive)
        for chain in _log(heap, roots[turn == OPEN]):
            read.take(chain)
    return Log(sorted(read.commits.values()), read.runs, read.reclaimed, read.relations)


class _Extent(NamedTuple):
    gate: int
    own: int
    next: int
    used: int
    link: int


def _extent(heap: BinaryIO, number: int) -> tuple[_Extent, bytes]:
    """An extent, and its bytes of the chain. What the heap lacks is zero."""
    heap.seek(EXTENT_BYTES * (number - 1))
    found = heap.read(EXTENT_BYTES).ljust(EXTENT_BYTES, b"\0")
    extent = _Extent(*EXTENT.unpack_from(found))
    return extent, found[EXTENT.size : EXTENT.size + extent.used]


def _log(heap: BinaryIO, first: int) -> Iterator[bytes]:
    """The bytes of each chain of the log, up to the first whose gate is closed."""
    head, _ = _extent(heap, first)
    while head.gate == OPEN:
        yield _joined(heap, first)
        first = head.link
        head, _ = _extent(heap, first)


def _joined(heap: BinaryIO, number: int) -> bytes:
    """The bytes of a chain: a record may begin in one extent and end in the next."""
    parts = []
    while number:
        extent, part = _extent(heap, number)
        parts.append(part)
        number = extent.next
    return b"".join(parts)


class _Read:
    """What was read of a log so far."""

    def __init__(self, heap: BinaryIO, archive: BinaryIO) -> None:
        self._heap, self._archive = heap, archive
        self.commits: dict[int, Commit] = {}
        self.runs: list[Run] = []
        self.reclaimed = 0
        self.relations: set[int] = set()

    def take(self, chain: bytes) -> None:
        """Reads one more chain."""
        at = 0
        while at < len(chain):
            kind = chain[at]
            if kind == COMMIT:
                at = self._commit(chain, at)
            elif kind == ARCHIVED:
                _, start, length, records, replaced = RUN.unpack_from(chain, at)
                self.runs[len(self.runs) - replaced :] = [Run(start, length, records)]
                at += RUN.size
            elif kind == BASE:
                self.reclaimed, first, _, _ = ANCHORS.unpack_from(chain, at)
                self.relations.update(relations(_joined(self._heap, first)))
                at += ANCHORS.size
            elif kind == ROLL:
                self._name(*PLACE.unpack_from(chain, at))
                at += PLACE.size
            elif kind == FLOOR:
                at += FLOOR_BYTES
            else:
                raise ValueError(f"a chain says something of kind {kind}")

    def _commit(self, chain: bytes, at: int) -> int:
        """Reads a commit; where it ends. Of one up to the last reclaim, whose group has a later one, the records count no more."""
        label, time, records = MEMBER.unpack_from(chain, at)
        self.commits[time] = Commit(time, label, records)
        at += MEMBER.size
        for _ in range(records):
            if time > self.reclaimed:
                self.relations.add(relation(chain, at))
            at = end(chain, at)
        return at

    def _name(self, start: int, length: int) -> None:
        """Reads the commits that a roll names."""
        self._archive.seek(start)
        for label, time in NAME.iter_unpack(self._archive.read(length)):
            self.commits[time] = Commit(time, label, None)
