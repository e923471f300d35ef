"""What the pages show, asked of a copy of the store by the library."""

import bisect
from collections import Counter
from pathlib import Path
from typing import NamedTuple

import timestore

from .files import read_log, relations
from .records import Commit
from .values import spelled


class Summary(NamedTuple):
    """A relation at a glance. Where its floor was raised, of what is kept."""

    relation: int
    standing: int  # records that have a value now
    records: int
    versions: int
    first: int
    last: int
    floor: int  # 0 for none


class Difference(NamedTuple):
    """A record that changed between two moments. A value is None where it had none."""

    record: int
    before: timestore.Fields | None
    after: timestore.Fields | None
    changes: int

    @property
    def kind(self) -> str:
        """What became of it."""
        if self.before == self.after:
            return "changed, and back"
        if self.before is None:
            return "added"
        return "deleted" if self.after is None else "changed"


class Names(NamedTuple):
    """What a relation is called, and its fields."""

    relation: str = ""
    fields: tuple[str, ...] = ()

    def field(self, place: int) -> str:
        """The name of a field, empty where it has none."""
        return self.fields[place] if place < len(self.fields) else ""


def _names(fields: timestore.Fields) -> Names:
    relation, *names = (spelled(field) for field in fields)
    return Names(relation, tuple(name.split(":")[0] for name in names))


class Past:
    """A copy of a store. It stays on the thread that opened it."""

    def __init__(self, folder: Path, names_in: int | None = None) -> None:
        """Names are in a relation of the store, where one is told: its record N has the name of relation N, then those
        of its fields, each up to a colon."""
        self._store = timestore.Store(folder)
        log = read_log(folder)
        self.commits: list[Commit] = log.commits
        self._labels = {commit.time: commit.label for commit in self.commits}
        self.last = self._store.last
        self._moments: dict[int, list[int]] = {}
        self.relations = self._summaries(relations(folder, log))
        self._names = {} if names_in is None else {relation: _names(fields) for relation, fields in self.records(names_in, self.last)}

    def close(self) -> None:
        """Ends the copy's store."""
        self._store.close()

    def label(self, time: int) -> int | None:
        """The label of the commit of a time."""
        return self._labels.get(time)

    def names(self, relation: int) -> Names:
        """What a relation and its fields are called."""
        return self._names.get(relation, Names())

    def floor(self, relation: int) -> int:
        """The time before which the relation answers nothing."""
        try:
            self._store.at(relation, 0, 0)
        except timestore.BeforeKept as why:
            return why.floor
        return 0

    def _summaries(self, relations: list[int]) -> dict[int, Summary]:
        found = (self._summary(relation) for relation in relations)
        return {summary.relation: summary for summary in found if summary}

    def _summary(self, relation: int) -> Summary | None:
        floor = self.floor(relation)
        records: set[int] = set()
        standing = versions = last = 0
        first = self.last
        for row in self._store.scan_between(relation, floor, self.last + 1):
            records.add(row.record)
            versions += 1
            is_standing = row.end > self.last
            standing += is_standing
            first, last = min(first, row.start), max(last, row.start if is_standing else row.end)
        return Summary(relation, standing, len(records), versions, first, last, floor) if versions else None

    def moments(self, relation: int) -> list[int]:
        """The times at which a record of a relation changed, rising."""
        if relation not in self._moments:
            rows = self._store.scan_between(relation, self.floor(relation), self.last + 1)
            times = {time for row in rows for time in (row.start, row.end) if time <= self.last}
            self._moments[relation] = sorted(times)
        return self._moments[relation]

    def step(self, relation: int, time: int) -> int:
        """The number of the last moment of a relation up to a time; 0 also where there is none."""
        return max(0, bisect.bisect_right(self.moments(relation), time) - 1)

    def records(self, relation: int, time: int) -> list[tuple[int, timestore.Fields]]:
        """The records of a relation that had a value at a time."""
        return list(self._store.scan_at(relation, time))

    def versions(self, relation: int, record: int) -> list[timestore.Row]:
        """All values of a record, by time."""
        return list(self._store.between(relation, record, self.floor(relation), self.last + 1))

    def all_versions(self, relation: int) -> list[timestore.Row]:
        """All values of all records of a relation, by record and time."""
        return list(self._store.scan_between(relation, self.floor(relation), self.last + 1))

    def differences(self, relation: int, start: int, end: int) -> list[Difference]:
        """The records that changed after one moment, up to another one."""
        if start >= end:
            return []
        before, after = dict(self.records(relation, start)), dict(self.records(relation, end))
        changes: Counter[int] = Counter()
        rows = list(self._store.scan_between(relation, start, end + 1))
        for row, following in zip(rows, [*rows[1:], None]):
            is_followed = following is not None and (following.record, following.start) == (row.record, row.end)
            changes[row.record] += (row.start > start) + (row.end <= end and not is_followed)
        records = sorted(record for record, count in changes.items() if count)
        return [Difference(record, before.get(record), after.get(record), changes[record]) for record in records]
