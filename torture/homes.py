"""What queries answer of files, whatever the bytes of the runs are: memory and the runs, searched
as the archive's contracts say."""
from __future__ import annotations

from dataclasses import dataclass

import image
import machine
from machine import Key, Version
from program import Areas

HEAD = 26
RECORD_LEAST, RECORD_MOST = 28, 4123
# the greatest number of a record of a relation
RECORD_LAST = (1 << 64) - 1
# a head as it stands: its number, its place, its key, from, to
Placed = tuple[int, int, Key, int, int]


class Damaged(Exception):
    """What was read last of a run breaks a rule."""


@dataclass(frozen=True)
class Run(image.Run):
    """A run whose records are found one at a time."""

    archive: bytes

    def number_at(self, place: int, size: int) -> int:
        return image.u(self.archive, self.start + place, size)

    def damaged(self) -> Damaged:
        return Damaged(f"refused: damaged archive {self.start}")

    def place(self, number: int) -> int:
        """Where a record begins, or behind the last the index: records of every length must leave
        room for it."""
        index = self.length - 8 * self.records
        place = index if number == self.records else self.number_at(index + 8 * number, 8)
        after = self.records - number
        if not number * RECORD_LEAST <= place <= min(number * RECORD_MOST, index):
            raise self.damaged()
        if not after * RECORD_LEAST <= index - place <= after * RECORD_MOST:
            raise self.damaged()
        return place

    def head(self, number: int, last: Placed | None) -> Placed:
        """The head of a record, looked at by itself and beside the one read just before, if that
        is its neighbour."""
        place = self.place(number)
        key = (self.number_at(place, 2), self.number_at(place + 2, 8))
        start, stop = self.number_at(place + 10, 8), self.number_at(place + 18, 8)
        if not (start < stop and self.above(key[0]) < stop <= self.upto):
            raise self.damaged()
        if last is not None and number == last[0] + 1:
            room = place - last[1]
            follows = last[2] < key or (last[2] == key and last[4] <= start)
            if not (RECORD_LEAST <= room <= RECORD_MOST and follows):
                raise self.damaged()
        return number, place, key, start, stop

    def value(self, placed: Placed) -> str:
        """The fields behind a head, which fill the room up to the next record."""
        number, place, _, _, _ = placed
        end = self.place(number + 1)
        if not RECORD_LEAST <= end - place <= RECORD_MOST:
            raise self.damaged()
        data = self.archive[self.start + place + HEAD: self.start + end]
        fields, at = [], 1
        for _ in range(data[0]):
            if at >= len(data) or at + 1 + data[at] > len(data):
                raise self.damaged()
            fields.append(data[at + 1: at + 1 + data[at]])
            at += 1 + data[at]
        if not 1 <= data[0] <= 16 or at != len(data):
            raise self.damaged()
        return " ".join(it.hex() or "-" for it in fields)

    def bound(self, key: Key, time: int) -> tuple[int, Placed | None]:
        """How many of the first records are of a lesser key, or of this one and ended by the time;
        and what was read last."""
        low, high, last = 0, self.records, None
        while low < high:
            middle = (low + high) // 2
            last = self.head(middle, last)
            if last[2] < key or (last[2] == key and last[4] <= time):
                low = middle + 1
            else:
                high = middle
        return low, last

    def find(self, key: Key, time: int) -> str | None:
        number, last = self.bound(key, time)
        if number == self.records:
            return None
        placed = self.head(number, last)
        return self.value(placed) if placed[2] == key and placed[3] <= time else None

    def rows(self, first: Key, final: Key, a: int, b: int) -> list[tuple[int, Version]]:
        """The rows of the keys from the first to the final one: the record, and the part from a to
        b of its version. No more is read than lies between these keys at these times."""
        found, (number, last) = [], self.bound(first, a)
        while number < self.records:
            last = self.head(number, last)
            if (last[2], last[3]) >= (final, b):
                break
            low, high = max(a, last[3]), min(b, last[4])
            if low < high:
                found.append((last[2][1], (low, high, self.value(last))))
            number += 1
        return found


class Files:
    """What files say. image.Refused where they don't open."""

    def __init__(self, areas: Areas) -> None:
        self.image = image.read(areas)
        log, history = self.image.log, self.image.history
        self.newest, self.floors = log.newest, log.floors
        self.archived, self.reclaimed = log.archived, log.reclaimed
        self.named = [(it.time, it.label) for it in history]
        standing = dict(self.image.anchors)
        self.versions: list[tuple[Key, int, int | None, str]] = []
        for commit in history:
            for key, fields in sorted((commit.writes or {}).items()):
                if key in standing:
                    since, before = standing.pop(key)
                    self.versions.append((key, since, commit.time, before))
                if fields is not None:
                    standing[key] = (commit.time, fields)
        self.versions += [(key, since, None, fields) for key, (since, fields) in standing.items()]
        self.versions.sort(key=lambda it: it[:2])
        self.archive = areas["archive"]
        self.runs = [
            Run(it.upto, it.start, it.length, it.records, it.mark, it.floors, self.archive)
            for it in image.runs(log)
        ]

    def memory(self, a: int, b: int, above: int = 0) -> list[tuple[Key, Version]]:
        """The parts from a to b of the versions in memory that end later than a time."""
        parts = [
            (key, (max(a, start), b if stop is None else min(b, stop), fields))
            for key, start, stop, fields in self.versions
            if stop is None or stop > above
        ]
        return [(key, part) for key, part in parts if part[0] < part[1]]

    def refusal(self, relation: int, first: int, end: int) -> list[str]:
        return machine.refusal(self.newest, machine.floor_of(self.floors, relation), first, end)

    def opened(self) -> str:
        """What opening says."""
        return machine.opened(self.image.profile, self.newest, self.floors)

    def at(self, key: Key, time: int) -> list[str]:
        refused = self.refusal(key[0], time, time + 1)
        if refused:
            return refused
        found = [part[2] for one, part in self.memory(time, time + 1) if one == key]
        for run in self.runs if time < self.reclaimed and not found else []:
            value = run.find(key, time) if time < run.upto else None
            if value is not None:
                return [f"value {value}"]
        return [f"value {found[0]}"] if found else ["none"]

    def between(self, key: Key, a: int, b: int) -> list[str]:
        refused = self.refusal(key[0], a, b)
        if refused:
            return refused
        below = a < self.reclaimed
        runs = [run for run in self.runs if below and a < run.upto]
        rows = [part for run in runs for _, part in run.rows(key, key, a, b)]
        rows += [
            part for one, part in self.memory(a, b, self.archived if below else 0) if one == key
        ]
        return [f"{start} {stop} {fields}" for start, stop, fields in rows] + [f"rows {len(rows)}"]

    def scan(self, relation: int, time: int) -> list[str]:
        refused = self.refusal(relation, time, time + 1)
        if refused:
            return refused
        below = time < self.reclaimed
        rows = [
            (record, 0, part)
            for run in self.runs
            if below and time < run.upto
            for record, part in run.rows((relation, 0), (relation, RECORD_LAST), time, time + 1)
        ]
        rows += [
            (key[1], 1, part)
            for key, part in self.memory(time, time + 1, self.archived if below else 0)
            if key[0] == relation
        ]
        rows.sort(key=lambda it: it[:2])
        return [f"{record} {part[2]}" for record, _, part in rows] + [f"rows {len(rows)}"]

    def answer(self, line: str) -> list[str]:
        word, *rest = line.split(" ")
        numbers = [int(it) for it in rest]
        try:
            if word == "at":
                return self.at((numbers[0], numbers[1]), numbers[2])
            if word == "between":
                return self.between((numbers[0], numbers[1]), numbers[2], numbers[3])
            if word == "scan":
                return self.scan(*numbers)
        except Damaged as why:
            return [str(why)]
        return [
            " ".join(["times", *(str(time) for time, label in self.named if label == numbers[0])])
        ]

    def questions(self, keys: list[Key]) -> list[str]:
        """Lines that ask for all that the files say, and for these keys."""
        times = [
            it
            for _, start, stop, _ in self.versions
            for it in (start, start - 1, stop or self.newest)
        ]
        times += [it for run in self.runs for it in (run.upto, run.upto - 1)]
        times += [it for floor in self.floors.values() for it in (floor, floor - 1)]
        moments = sorted({0, self.newest, *(it for it in times if 0 <= it <= self.newest)})
        keys = sorted({*keys, *(it[0] for it in self.versions)})
        lines = [f"times {label}" for label in sorted({label for _, label in self.named})]
        for relation, record in keys:
            floor = machine.floor_of(self.floors, relation)
            lines += [f"at {relation} {record} {moment}" for moment in moments]
            lines += [
                f"between {relation} {record} {moment} {self.newest + 1}"
                for moment in sorted({floor, *moments[:: max(1, len(moments) // 4)]})
            ]
        for relation in sorted({key[0] for key in keys}):
            lines += [f"scan {relation} {moment}" for moment in moments]
        return lines

    def is_sound(self) -> bool:
        """Whether every run keeps the rules of its form."""
        return all(
            image.run_records(self.archive, run) is not None for run in image.runs(self.image.log)
        )
