"""A plain reader of a store's three files, by the checks of docs/FORMAT.md, written apart from the
program's."""
from __future__ import annotations

from collections.abc import Callable, Iterator, Mapping
from dataclasses import dataclass, field
from datetime import datetime, timedelta
from typing import Any

from machine import (
    LATEST, PIECE, PROFILES, SLOTS_MOST, Commit, Fields, Floors, History, Key,
    all_versions, can_grow, floor_of, has_own_floors
)

EXTENT = 8192
BODY = EXTENT - 16
SLOT = 512
OPEN = 0xC7
# where the gates of the pieces stand in the header
GATES = range(16, 271)

Value = tuple[bytes, ...]
# of a commit slot the members (label, time, first extent, extents, records); of an archive upto,
# start, length, records;
# of a reclaim upto, first extent, extents, records; of a floor its time, and its relation where it
# is not that of all
Slot = tuple[str, Any]
# a record's key, what it says of it, and where the next one begins
Read = tuple[Key, Any, int]
RunRecord = tuple[Key, int, int, Fields]
# of a key that has a value at the reclaim mark: since when, and its fields
Anchors = dict[Key, tuple[int, Fields]]


class Refused(Exception):
    """What opening answers."""


def u(data: bytes, at: int, size: int) -> int:
    return int.from_bytes(data[at: at + size], "little")


def damaged(area: str, place: int) -> Refused:
    return Refused(f"damaged {area} {place}")


def profile_of(status: bytes) -> int:
    return u(status, 8, 4)


def gates(status: bytes) -> bytes:
    """Those of the pieces; a store that does not grow has none."""
    return status[GATES.start: GATES.stop] if can_grow(profile_of(status)) else b""


def pieces(status: bytes) -> int:
    """The pieces of slots that are open: those before the first closed gate."""
    found = gates(status)
    return next((number for number, gate in enumerate(found) if gate != OPEN), len(found))


def header(status: bytes) -> int:
    """The number of slots."""
    slots, rest = u(status, 12, 4), GATES.start + len(gates(status))
    is_known = status[:8] == b"NOOVER01" and profile_of(status) in PROFILES
    if len(status) < slot_at(0) or not is_known or slots < 16 or any(status[rest: slot_at(0)]):
        raise Refused("not a store")
    every = slots + PIECE * pieces(status)
    if every > SLOTS_MOST or len(status) < slot_at(every):
        raise Refused("not a store")
    return every


# ---- the log


def slot_at(number: int) -> int:
    return 512 + SLOT * number


def commit_slot(slot: bytes) -> tuple[list[tuple[int, ...]], int] | None:
    """The members of a slot and where its body ends, or None where it breaks its form."""
    if not 1 <= slot[2] <= 16:
        return None
    members, before = [], 0
    for place in range(slot[2]):
        at = 8 + 28 * place
        label, time = u(slot, at, 8), u(slot, at + 8, 8)
        first, extents, records = (u(slot, at + it, 4) for it in (16, 20, 24))
        if not (
            before < time <= LATEST
            and 1 <= first <= 65536
            and 1 <= records <= 1024
            and 1 <= extents <= records
        ):
            return None
        members.append((label, time, first, extents, records))
        before = time
    return members, 8 + 28 * slot[2]


def archived_slot(slot: bytes) -> tuple[tuple[int, ...], int] | None:
    upto, start, length, records = u(slot, 8, 8), u(slot, 16, 8), u(slot, 24, 8), u(slot, 32, 8)
    if slot[2] or not 1 <= upto <= LATEST or start + length > LATEST:
        return None
    if not 36 * records <= length <= 4131 * records:
        return None
    return (upto, start, length, records), 40


def reclaimed_slot(slot: bytes) -> tuple[tuple[int, ...], int] | None:
    upto, first, extents, records = u(slot, 8, 8), u(slot, 16, 4), u(slot, 20, 4), u(slot, 24, 4)
    if slot[2] or not 1 <= upto <= LATEST:
        return None
    fits = 1 <= first <= 65536 and 1 <= extents <= min(65536, records)
    if (first or extents or records) and not fits:
        return None
    return (upto, first, extents, records), 28


def floor_slot(slot: bytes) -> tuple[tuple[int, ...], int] | None:
    floor = u(slot, 8, 8)
    return None if slot[2] or not 1 <= floor <= LATEST else ((floor,), 16)


KINDS: dict[int, tuple[str, Callable[[bytes], Any]]] = {
    1: ("commit", commit_slot), 2: ("archived", archived_slot), 3: ("reclaimed", reclaimed_slot),
    4: ("floor", floor_slot),
}


def form(slot: bytes, number: int, profile: int) -> Slot | None:
    """What a slot says, or None where it breaks its form."""
    kind, reader = KINDS.get(slot[1], ("", None))
    read = reader(slot) if reader else None
    if read is not None and kind == "floor" and has_own_floors(profile):
        read = (*read[0], u(slot, 16, 2)), 18
    if read is None or u(slot, 4, 4) != number or slot[3] != 0 or any(slot[read[1]:]):
        return None
    return kind, read[0]


@dataclass
class Log:
    """The open slots before the first closed gate; the last commit's time, the marks, the floors,
    and where the next run begins."""

    slots: list[Slot] = field(default_factory=list)
    newest: int = 0
    archived: int = 0
    reclaimed: int = 0
    floors: Floors = field(default_factory=dict)
    end: int = 0

    @property
    def floor(self) -> int:
        """The floor of all relations."""
        return self.floors.get(None, 0)

    def takes(self, slot: Slot) -> bool:
        """Adds a slot, if it keeps the log's rules."""
        kind, body = slot
        if kind == "commit":
            keeps, self.newest = body[0][1] > self.newest, body[-1][1]
        elif kind == "archived":
            keeps = self.archived < body[0] <= self.newest and body[1] == self.end
            self.archived, self.end = body[0], body[1] + body[2]
        elif kind == "reclaimed":
            keeps = self.reclaimed < body[0] == self.archived
            self.reclaimed = body[0]
        else:
            floor, relation = floor_in(body)
            keeps = self.floors.get(relation, 0) < floor <= self.newest
            self.floors[relation] = floor
        self.slots.append(slot)
        return keeps

    def members(self) -> Iterator[tuple[int, ...]]:
        return (member for kind, body in self.slots if kind == "commit" for member in body)

    def anchors(self) -> tuple[int, ...]:
        """The last reclaim: its mark, and the first extent, the extents and the records of its
        chain."""
        return ([(0, 0, 0, 0)] + [body for kind, body in self.slots if kind == "reclaimed"])[-1]


def floor_in(body: tuple[int, ...]) -> tuple[int, int | None]:
    """The time of a floor slot, and its relation, None where it is the floor of all."""
    return body[0], body[1] if len(body) > 1 else None


def read_log(status: bytes) -> Log:
    log = Log()
    for number in range(header(status)):
        at = slot_at(number)
        if status[at] != OPEN:
            break
        slot = form(status[at: at + SLOT], number, profile_of(status))
        if slot is None or not log.takes(slot):
            raise damaged("status", number)
    return log


def dump(status: bytes) -> list[str]:
    """The text of a log."""
    log, slots = read_log(status), u(status, 12, 4)
    has_pieces = can_grow(profile_of(status))
    lines = [f"header {slots} pieces {pieces(status)}" if has_pieces else f"header {slots}"]
    for number, (kind, body) in enumerate(log.slots):
        lines.append(f"slot {number} {slot_text(kind, body)}")
        for member in body if kind == "commit" else ():
            lines.append(f"member {' '.join(map(str, member))} {instant(member[1])}")
    return [*lines, f"used {len(log.slots)} of {header(status)}"]


def slot_text(kind: str, body: Any) -> str:
    if kind == "commit":
        return kind
    if kind == "floor":
        floor, relation = floor_in(body)
        return f"floor {floor}" if relation is None else f"floor {floor} relation {relation}"
    return " ".join([kind, *map(str, body)])


def instant(time: int) -> str:
    try:
        return (
            datetime(1970, 1, 1) + timedelta(seconds=time // 1_000_000)
        ).strftime("%Y-%m-%dT%H:%M:%SZ")
    except OverflowError:
        return "-"


# ---- the heap


def take_fields(data: bytes, at: int, count: int) -> tuple[list[bytes], int] | None:
    """So many fields, and where they end; None where they don't fit."""
    fields = []
    for _ in range(count):
        if at >= len(data) or at + 1 + data[at] > len(data):
            return None
        fields.append(bytes(data[at + 1: at + 1 + data[at]]))
        at += 1 + data[at]
    return fields, at


def anchor(data: bytes, at: int, mark: int) -> Read | None:
    """One record of the anchors' chain: the key, its time and value, and where the next one
    begins."""
    if at + 20 > len(data) or data[at] != 4:
        return None
    key = u(data, at + 1, 2), u(data, at + 3, 8)
    since, count = u(data, at + 11, 8), data[at + 19]
    taken = take_fields(data, at + 20, count)
    if taken is None or not 1 <= since <= mark or not 1 <= count <= 16:
        return None
    return key, (since, tuple(taken[0])), taken[1]


def record(data: bytes, at: int, before: Mapping[Key, Value | None]) -> Read | None:
    """One record of a chain, over the key's value before it: the key, its value (None: gone) and
    where the next one begins."""
    if at + 11 > len(data):
        return None
    kind, key, place = data[at], (u(data, at + 1, 2), u(data, at + 3, 8)), at + 11
    old = before.get(key)
    if kind == 3:
        return (key, None, place) if old is not None else None
    if kind == 1:
        has_fields = place < len(data) and 1 <= data[place] <= 16
        taken = take_fields(data, place + 1, data[place]) if has_fields else None
        if taken is None or old is not None and is_delta(old, tuple(taken[0])):
            return None
        return key, tuple(taken[0]), taken[1]
    return delta(data, key, place, old) if kind == 2 and old is not None else None


def delta(data: bytes, key: Key, at: int, old: Value) -> Read | None:
    """A record that says which fields of the value before it change, and to what; only where that
    is shorter than the whole."""
    mask = u(data, at, 2)
    has_fields = at + 2 <= len(data) and not mask >> len(old)
    taken = take_fields(data, at + 2, mask.bit_count()) if has_fields else None
    if taken is None:
        return None
    fields = iter(taken[0])
    value = tuple(next(fields) if mask >> it & 1 else old[it] for it in range(len(old)))
    if any(mask >> it & 1 and value[it] == old[it] for it in range(len(old))):
        return None
    return (key, value, taken[1]) if is_delta(old, value) else None


def is_delta(old: Value, new: Value) -> bool:
    """Whether a value is stored as what it changes of the one before."""
    if len(old) != len(new):
        return False
    changed = sum(1 + len(b) for a, b in zip(old, new) if a != b)
    return 13 + changed < 12 + sum(1 + len(it) for it in new)


def extent_of(heap: bytes, number: int) -> tuple[int, bytes] | None:
    """The number of the next extent of the chain, and the bytes of records; None where the extent
    breaks its form."""
    extent = heap[(number - 1) * EXTENT: number * EXTENT] if number >= 1 else b""
    own, following, used, zero = (u(extent, at, 4) for at in (0, 4, 8, 12))
    if len(extent) < EXTENT or own != number or zero or not 1 <= used <= BODY:
        return None
    if any(extent[16 + used:]):
        return None
    return following, extent[16: 16 + used]


def records_in(data: bytes, reader: Callable[[bytes, int], Read | None]) -> list[Read] | None:
    """The records of an extent, or None where one breaks its form."""
    at, found = 0, []
    while at < len(data):
        one = reader(data, at)
        if one is None:
            return None
        found.append(one)
        at = one[2]
    return found


def chain(
    heap: bytes, first: int, extents: int, records: int,
    reader: Callable[[bytes, int], Read | None], taken: set[int],
) -> list[tuple[Key, Any]] | None:
    """What is read of each key of a chain, or None where a check fails."""
    writes: list[tuple[Key, Any]] = []
    number, room = first, 0
    for place in range(extents):
        extent = extent_of(heap, number) if number not in taken else None
        taken.add(number)
        if extent is None or (extent[0] == 0) != (place == extents - 1):
            return None
        found = records_in(extent[1], reader)
        # packed: the first record of an extent had no room in the one before
        if found is None or found[0][2] <= room:
            return None
        writes += [(key, what) for key, what, _ in found]
        number, room = extent[0], BODY - len(extent[1])
    keys = [key for key, _ in writes]
    rise = all(one < other for one, other in zip(keys, keys[1:]))
    return writes if rise and len(writes) == records else None


def fields_of(value: Value | None) -> Fields:
    return None if value is None else " ".join(it.hex() or "-" for it in value)


# ---- the whole


@dataclass(frozen=True)
class Image:
    """What files stand for: of the commits up to the reclaim mark there are the times and labels
    alone (their writes are None)."""

    profile: int
    slots: int
    log: Log
    history: list[Commit]
    anchors: Anchors
    # the extents of the live chains
    live: frozenset[int]


def read(areas: Mapping[str, bytes]) -> Image:
    """Refused where the files don't open."""
    log = read_log(areas["status"])
    mark, first, extents, records = log.anchors()
    history: list[Commit] = []
    taken: set[int] = set()
    olds = chain(
        areas["heap"], first, extents, records, lambda data, at: anchor(data, at, mark), taken
    )
    if olds is None:
        raise damaged("heap", first)
    values: dict[Key, Value | None] = {key: value for key, (_, value) in olds}
    for label, time, first, extents, records in log.members():
        if time <= mark:
            history.append(Commit(time, label, None))
            continue
        writes = chain(
            areas["heap"], first, extents, records, lambda data, at: record(data, at, values),
            taken,
        )
        if writes is None:
            raise damaged("heap", first)
        values.update(writes)
        history.append(Commit(time, label, {key: fields_of(value) for key, value in writes}))
    for run in runs(log):
        if run.start + run.length > len(areas["archive"]):
            raise damaged("archive", run.start)
    return Image(
        profile_of(areas["status"]), header(areas["status"]), log, history,
        {key: (since, fields_of(value)) for key, (since, value) in olds}, frozenset(taken),
    )


# ---- runs


@dataclass(frozen=True)
class Run:
    """A run as its slot names it, with the archive mark and the floors before the slot: its
    versions end later than these, and not later than it goes up to."""

    upto: int
    start: int
    length: int
    records: int
    mark: int
    floors: Floors

    def above(self, relation: int) -> int:
        """What versions of a relation end later than."""
        return max(self.mark, floor_of(self.floors, relation))


def runs(log: Log) -> list[Run]:
    """The runs that a log names, in its order."""
    found, mark, floors = [], 0, {}
    for kind, body in log.slots:
        if kind == "archived":
            found.append(Run(*body, mark, dict(floors)))
            mark = body[0]
        elif kind == "floor":
            floor, relation = floor_in(body)
            floors[relation] = floor
    return found


def run_record(data: bytes, at: int, end: int) -> tuple[Key, int, int, Value, int] | None:
    """One record of a run: its key, from, to, value and where the next one begins."""
    if at + 27 > end or not 1 <= data[at + 26] <= 16:
        return None
    taken = take_fields(data[:end], at + 27, data[at + 26])
    if taken is None:
        return None
    key = u(data, at, 2), u(data, at + 2, 8)
    return key, u(data, at + 10, 8), u(data, at + 18, 8), tuple(taken[0]), taken[1]


def follows(before: RunRecord, key: Key, start: int) -> bool:
    """Whether a version may stand behind another one in a run."""
    return before[0] < key or before[0] == key and before[1] < start and before[2] <= start


def run_records(archive: bytes, run: Run) -> list[RunRecord] | None:
    """The records of a run, or None where it breaks its form."""
    data, index = archive[run.start: run.start + run.length], run.length - 8 * run.records
    at, found = 0, []
    for number in range(run.records):
        one = run_record(data, at, index)
        if one is None or u(data, index + 8 * number, 8) != at:
            return None
        key, start, stop, value, end = one
        if not (start < stop and run.above(key[0]) < stop <= run.upto):
            return None
        if found and not follows(found[-1], key, start):
            return None
        found.append((key, start, stop, fields_of(value)))
        at = end
    return found if at == index else None


# ---- what an image stands for


def why_not_written(image: Image, history: History) -> str | None:
    """Why what the heap has does not stand for this history."""
    mark = image.log.reclaimed
    if [(it.time, it.label) for it in image.history] != [(it.time, it.label) for it in history]:
        return "other times or labels"
    for mine, its in zip(image.history, history):
        if its.time > mark and mine.writes != its.writes:
            return f"other writes at {its.time}"
    if image.anchors != {
        key: (start, fields)
        for key, start, stop, fields in all_versions(history)
        if start <= mark and (stop is None or stop > mark)
    }:
        return f"other anchors at {mark}"
    return None


def why_not(areas: Mapping[str, bytes], image: Image, history: History) -> str | None:
    """Why these files, as they were read, don't stand for this history, both homes of its versions
    looked at; None where they do."""
    log, status = image.log, areas["status"]
    if any(status[slot_at(number)] == OPEN for number in range(len(log.slots), image.slots)):
        return "an open gate behind the log"
    if OPEN in gates(status)[pieces(status):]:
        return "an open gate behind the pieces"
    why = why_not_written(image, history)
    if why:
        return why
    whole = all_versions(history)
    for run in runs(log):
        # what ended by a floor before it, or is in an earlier run, is left out
        wanted = sorted(
            it for it in whole
            if it[2] is not None and run.above(it[0][0]) < it[2] <= run.upto
        )
        if run_records(areas["archive"], run) != wanted:
            return f"other versions in the run at {run.start}"
    return None
