"""The log of a store of profiles 1 to 3: slots in the status area."""

import struct
from collections.abc import Iterator
from pathlib import Path

from .records import EXTENT_BYTES, OPEN, Commit, Log, Run, relations

HEADER_BYTES = SLOT_BYTES = 512
PIECE_SLOTS = 256
PIECE_GATES = slice(16, 271)
COMMIT, ARCHIVED, RECLAIMED = 1, 2, 3  # kinds of slots
CONTENT = 8  # where the content of a slot begins
MEMBER = struct.Struct("<QQIII")  # label, time, first extent, extents, records
RUN = struct.Struct("<QQQQ")  # upto, start, length, records
KEPT = struct.Struct("<QIII")  # upto, first extent, extents, records
EXTENT = struct.Struct("<IIII")  # own number, next extent, bytes of records, zero


def read_log(folder: Path) -> Log:
    """What the slots of a store tell, and the relations of the records in its heap."""
    status = (folder / "status").read_bytes()
    heap = (folder / "heap").read_bytes()
    commits: list[Commit] = []
    chains: dict[int, int] = {}  # of each commit the extent where its records begin, by its time
    runs: list[Run] = []
    reclaimed = kept = 0
    for at in _open_slots(status):
        kind, members = status[at + 1], status[at + 2]
        if kind == COMMIT:
            for label, time, first, _, records in _members(status, at + CONTENT, members):
                commits.append(Commit(time, label, records))
                chains[time] = first
        elif kind == ARCHIVED:
            runs.append(Run(*RUN.unpack_from(status, at + CONTENT)[1:]))
        elif kind == RECLAIMED:
            reclaimed, kept, _, _ = KEPT.unpack_from(status, at + CONTENT)
    live = [kept, *(first for time, first in chains.items() if time > reclaimed)]
    return Log(commits, runs, reclaimed, {it for first in live for it in relations(_chain(heap, first))})


def last_reclaim(status: bytes) -> int:
    """The time of the last reclaim that the slots tell, 0 for none. Each has a later one."""
    slots = [at for at in _open_slots(status) if status[at + 1] == RECLAIMED]
    return int(KEPT.unpack_from(status, slots[-1] + CONTENT)[0]) if slots else 0


def _open_slots(status: bytes) -> Iterator[int]:
    """Where each slot begins, up to the first closed one."""
    pieces = status[PIECE_GATES]
    open_pieces = next((piece for piece, gate in enumerate(pieces) if gate != OPEN), len(pieces))
    slots = struct.unpack_from("<I", status, 12)[0] + PIECE_SLOTS * open_pieces
    for slot in range(slots):
        at = HEADER_BYTES + SLOT_BYTES * slot
        if status[at] != OPEN:
            return
        yield at


def _members(status: bytes, at: int, count: int) -> Iterator[tuple[int, ...]]:
    return (MEMBER.unpack_from(status, at + MEMBER.size * member) for member in range(count))


def _chain(heap: bytes, extent: int) -> bytes:
    """The records of a chain."""
    parts = []
    while extent:
        start = EXTENT_BYTES * (extent - 1)
        _, extent, used, _ = EXTENT.unpack_from(heap, start)
        parts.append(heap[start + EXTENT.size : start + EXTENT.size + used])
    return b"".join(parts)
