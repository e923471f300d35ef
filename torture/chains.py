"""A plain reader of the files of a store of profile 4, by docs/FORMAT.md, written apart from the
program's. It tells what the files say; a rule that they break is damage, whichever it is."""
from __future__ import annotations

from collections.abc import Callable, Iterator, Mapping
from dataclasses import dataclass, field

import image
from endless import Chain
from image import EXTENT, OPEN, Image, Read, Refused, Run, Value, damaged, u
from machine import ENDLESS, LATEST, Commit, Floors, History, Key, all_versions, floor_of

HEADER = 512
TURN, ROOTS = 16, (20, 24)
HEAD = 24
BODY = EXTENT - HEAD
COMMIT, ARCHIVED, FLOOR, BASE, ROLL = 5, 6, 7, 8, 9
NAME = 16
GROUP_MOST, RECORDS_MOST = 1024, 1024
# a roll: where it begins, and its length
Roll = tuple[int, int]


class Broken(Exception):
    """A chain does not keep a rule."""


def must(holds: bool) -> None:
    if not holds:
        raise Broken


@dataclass
class Log:
    """What the chains of the log say: the last time, the marks, the floors, what is named in the
    archive, and the extent where the log goes on."""

    chains: list[Chain] = field(default_factory=list)
    newest: int = 0
    archived: int = 0
    reclaimed: int = 0
    floors: Floors = field(default_factory=dict)
    runs: list[Run] = field(default_factory=list)
    rolls: list[Roll] = field(default_factory=list)
    # the first extent, the extents and the records of the anchors
    anchors: tuple[int, int, int] = (0, 0, 0)
    # of each commit its bytes, from its records on
    commits: list[tuple[Commit, bytes]] = field(default_factory=list)
    # how many of the runs the base names: the floors before those are not known
    based: int = 0
    next: int = 0

    @property
    def end(self) -> int:
        """The end of all that is named in the archive."""
        return max([0, *(it.start + it.length for it in self.runs), *map(sum, self.rolls)])


def root(status: bytes) -> int:
    """The extent where the log begins."""
    extents, at = u(status, 12, 4), ROOTS[status[TURN] == OPEN] if len(status) > TURN else 0
    found = u(status, at, 4)
    is_store = len(status) >= HEADER and status[:8] == b"NOOVER01" and u(status, 8, 4) == ENDLESS
    is_size = 64 <= extents <= 1 << 20 and extents % 16 == 0 and 1 <= found <= extents
    if not is_store or not is_size or any(status[17:20]) or any(status[28:HEADER]):
        raise Refused("not a store")
    return found


# ---- extents


def chain(heap: bytes, first: int, taken: set[int]) -> tuple[bytes, int, int]:
    """The bytes of the chain that begins in an extent, how many extents it has, and its link."""
    parts, link, number = [], 0, first
    while number:
        data = heap[(number - 1) * EXTENT: number * EXTENT]
        own, following, used, told = (u(data, at, 4) for at in (4, 8, 12, 16))
        must(len(data) == EXTENT and number not in taken and own == number)
        must(not any(data[1:4]) and not any(data[20:HEAD]) and not any(data[HEAD + used:]))
        must(used == BODY if following else 1 <= used <= BODY)
        if parts:
            must(data[0] == 0 and told == 0)
        else:
            link = told
        taken.add(number)
        parts.append(data[HEAD: HEAD + used])
        number = following
    return b"".join(parts), len(parts), link


def is_open(heap: bytes, number: int) -> bool:
    """Whether the log has a chain that begins in this extent."""
    return heap[(number - 1) * EXTENT: (number - 1) * EXTENT + 1] == bytes([OPEN])


# ---- what chains say


def take_archive(log: Log, data: bytes, at: int, is_based: bool) -> int:
    """Reads a run's name; where it ends."""
    upto, start, length, records = (u(data, at + it, 8) for it in (1, 9, 17, 25))
    must(at + 35 <= len(data) and u(data, at + 33, 2) == 0)
    must(log.archived < upto <= log.newest and 36 * records <= length <= 4131 * records)
    before = log.runs[-1].start + log.runs[-1].length if log.runs else 0
    must(before <= start and start + length <= LATEST)
    log.runs.append(Run(upto, start, length, records, log.archived, dict(log.floors)))
    log.archived, log.based = upto, log.based + is_based
    return at + 35


def take_floor(log: Log, data: bytes, at: int) -> int:
    """Reads a floor; where it ends."""
    floor, relation = u(data, at + 1, 8), u(data, at + 9, 2)
    must(at + 11 <= len(data) and log.floors.get(relation, 0) < floor <= log.newest)
    log.floors[relation] = floor
    return at + 11


def take_base(log: Log, data: bytes) -> None:
    upto, log.anchors = u(data, 1, 8), (u(data, 9, 4), u(data, 13, 4), u(data, 17, 4))
    must(not log.chains and len(data) >= 21 and 1 <= upto <= LATEST)
    must(all(log.anchors) or not any(log.anchors))
    log.newest = log.reclaimed = upto
    at, before = 21, 0
    while data[at: at + 1] == bytes([ROLL]):
        start, length = u(data, at + 1, 8), u(data, at + 9, 8)
        must(at + 17 <= len(data) and length >= NAME and length % NAME == 0)
        must(before <= start and start + length <= LATEST)
        log.rolls.append((start, length))
        at, before = at + 17, start + length
    while data[at: at + 1] == bytes([ARCHIVED]):
        at = take_archive(log, data, at, True)
    while data[at: at + 1] == bytes([FLOOR]):
        must(all(relation < u(data, at + 9, 2) for relation in log.floors))
        at = take_floor(log, data, at)
    must(at == len(data))
    log.chains.append(Chain("base", upto))


def record_end(data: bytes, at: int) -> int:
    """Where a record of a commit ends."""
    kind, place = data[at], at + 11
    must(1 <= kind <= 3)
    if kind == 3:
        return place
    count = u(data, place, 2).bit_count() if kind == 2 else data[place]
    taken = image.take_fields(data, place + (2 if kind == 2 else 1), count)
    must(taken is not None)
    return taken[1]


def take_group(log: Log, data: bytes) -> None:
    at, count = 0, 0
    while at < len(data):
        label, time, records = u(data, at + 1, 8), u(data, at + 9, 8), u(data, at + 17, 2)
        must(data[at] == COMMIT and 1 <= records <= RECORDS_MOST and at + 19 <= len(data))
        # of the first group after a base some may be named by a roll too
        must((log.commits[-1][0].time if log.commits else 0) < time <= LATEST)
        start = at = at + 19
        for _ in range(records):
            must(at + 12 <= len(data) or data[at: at + 1] == b"\3")
            at = record_end(data, at)
        log.commits.append((Commit(time, label, None), data[start:at]))
        count += 1
    must(1 <= count <= GROUP_MOST and log.commits[-1][0].time > log.newest)
    log.newest = log.commits[-1][0].time
    log.chains.append(Chain("group", log.newest))


def take(log: Log, data: bytes) -> None:
    """Reads one more chain of the log."""
    kind = data[0]
    if kind == BASE:
        take_base(log, data)
    elif kind == COMMIT:
        take_group(log, data)
    elif kind == ARCHIVED:
        must(take_archive(log, data, 0, False) == len(data))
        log.chains.append(Chain("archive"))
    else:
        must(kind == FLOOR and take_floor(log, data, 0) == len(data))
        log.chains.append(Chain("floor"))


def read_log(areas: Mapping[str, bytes], taken: set[int]) -> Log:
    """The log; its extents are among those that are taken then."""
    log, heap, number = Log(), areas["heap"], root(areas["status"])
    while is_open(heap, number):
        try:
            data, _, link = chain(heap, number, taken)
            must(link != 0)
            take(log, data)
        except (Broken, IndexError):
            raise damaged("heap", number) from None
        number = link
    log.next = number
    if number in taken or log.archived < log.reclaimed:
        raise damaged("heap", number)
    return log


# ---- records


def anchors_of(log: Log, heap: bytes, taken: set[int]) -> dict[Key, tuple[int, Value]]:
    """The values that held at the reclaim mark, and since when."""
    first, extents, records = log.anchors
    data, count, link = chain(heap, first, taken)
    must(count == extents and link == 0 and (not first or heap[(first - 1) * EXTENT] == 0))
    found = list(read_records(data, lambda at: image.anchor(data, at, log.reclaimed)))
    keys = [key for key, _, _ in found]
    must(len(found) == records and all(one < other for one, other in zip(keys, keys[1:])))
    return {key: what for key, what, _ in found}


def writes_of(data: bytes, values: Mapping[Key, Value | None]) -> dict[Key, Value | None]:
    """The writes of a commit, over the values before it."""
    found = list(read_records(data, lambda at: image.record(data, at, values)))
    keys = [key for key, _, _ in found]
    must(all(one < other for one, other in zip(keys, keys[1:])))
    return {key: what for key, what, _ in found}


def read_records(data: bytes, reader: Callable[[int], Read | None]) -> Iterator[Read]:
    at = 0
    while at < len(data):
        one = reader(at)
        must(one is not None)
        yield one
        at = one[2]


def names(log: Log, archive: bytes) -> list[Commit]:
    """The commits that the rolls name, by their times."""
    found = []
    for start, length in log.rolls:
        must(start + length <= len(archive))
        data = archive[start: start + length]
        rows = [(u(data, at, 8), u(data, at + 8, 8)) for at in range(0, length, NAME)]
        must(all(one < other for one, other in zip(rows, rows[1:])))
        found += [Commit(time, label, None) for label, time in rows]
    found.sort(key=lambda it: it.time)
    must(all(one.time < other.time for one, other in zip(found, found[1:])))
    return found


def read(areas: Mapping[str, bytes]) -> Image:
    """Refused where the files don't open."""
    taken: set[int] = set()
    log = read_log(areas, taken)
    first = log.anchors[0] or root(areas["status"])
    try:
        olds = anchors_of(log, areas["heap"], taken)
        values: dict[Key, Value | None] = {key: value for key, (_, value) in olds.items()}
        history = names(log, areas["archive"])
        named = {it.time: it.label for it in history}
        for commit, data in log.commits:
            if commit.time <= log.reclaimed:
                must(named.get(commit.time) == commit.label)
                continue
            writes = writes_of(data, values)
            values.update(writes)
            fields = {key: image.fields_of(value) for key, value in writes.items()}
            history.append(Commit(commit.time, commit.label, fields))
    except Broken:
        raise damaged("heap", first) from None
    if log.next in taken:
        raise damaged("heap", log.next)
    for start, length in [*((it.start, it.length) for it in log.runs), *log.rolls]:
        if start + length > len(areas["archive"]):
            raise damaged("archive", start)
    anchors = {key: (since, image.fields_of(value)) for key, (since, value) in olds.items()}
    return Image(ENDLESS, u(areas["status"], 12, 4), log, history, anchors, frozenset(taken))


# ---- what an image stands for


def overlap(log: Log) -> bool:
    """Whether two runs or rolls have a byte in common."""
    parts = sorted([*((it.start, it.length) for it in log.runs if it.length), *log.rolls])
    return any(start + length > other for (start, length), (other, _) in zip(parts, parts[1:]))


def why_not(areas: Mapping[str, bytes], found: Image, history: History) -> str | None:
    """Why these files, as they were read, don't stand for this history; None where they do."""
    log = found.log
    why = image.why_not_written(found, history)
    if why is None and overlap(log):
        return "two runs or rolls have a byte in common"
    whole = all_versions(history)
    for number, run in enumerate(log.runs if why is None else []):
        ended = [it for it in whole if it[2] is not None and run.mark < it[2] <= run.upto]
        # what ended by a floor before it is left out; of a run of the base it is only known what
        # the floors are now
        floors = log.floors if number < log.based else run.floors
        wanted = sorted(it for it in ended if it[2] > floor_of(floors, it[0][0]))
        plain = Run(run.upto, run.start, run.length, run.records, run.mark, {})
        records = image.run_records(areas["archive"], plain)
        is_right = records == wanted
        if number < log.based and records is not None:
            is_right = {*wanted} <= {*records} <= {*ended}
        if not is_right:
            return f"other versions in the run at {run.start}"
    return why
