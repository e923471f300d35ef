"""Questions about what stood. Each is a function of the store, for `Office.question`."""

from decimal import Decimal
from typing import NamedTuple

import timestore

from . import times
from .office import Entry
from .schema import Address, Case, Clerk, Company, Label, Officer, Refusal, Relation, Row, row_of, seat_record, texts


class Moment(NamedTuple):
    """The time that a question is asked of. A `remark` says where that is not the time that was named."""

    time: int
    remark: str = ""


class Standing(NamedTuple):
    """A company as it stood at a moment, with its officers by their seats."""

    number: int
    company: Company
    address: Address
    officers: dict[int, Officer]


class Change(NamedTuple):
    """What an entry did to one record: before and after, None where it had no value."""

    relation: Relation
    record: int
    before: Row | None
    after: Row | None

    def fields(self) -> list[tuple[str, str, str]]:
        """The fields that changed: name, text before, text after. Where there is none the text is empty."""
        before, after = (texts(row) if row else {} for row in (self.before, self.after))
        names = [name for name in (before or after) if before.get(name) != after.get(name)]
        return [(name, before.get(name, ""), after.get(name, "")) for name in names]


class Step(NamedTuple):
    """An entry with what it did to a company."""

    entry: Entry
    clerk: Clerk
    changes: list[Change]


def settled(store: timestore.Store, asked: int | None) -> Moment:
    """The moment that can be asked: the last entry where none is named, or where the one named comes behind it."""
    last = store.last
    if asked is None:
        return Moment(last)
    if asked <= last:
        return Moment(asked)
    if asked > times.now():
        raise Refusal(f"{times.spelled(asked)} is still to come")
    return Moment(last, f"Nothing was entered after {times.spelled(last)}, so far.")


def _rows(view: timestore.View, relation: Relation, time: int) -> dict[int, Row]:
    return {record: row_of(relation, fields) for record, fields in view.scan_at(relation, time)}


def companies(store: timestore.Store, time: int) -> list[Standing]:
    """All companies that stood at a time."""
    with store.view() as view:
        found = _rows(view, Relation.COMPANIES, time)
        addresses = _rows(view, Relation.ADDRESSES, time)
        officers = _rows(view, Relation.OFFICERS, time)
    standings = []
    for number, company in found.items():
        address = addresses[number]
        assert isinstance(company, Company) and isinstance(address, Address)
        standings.append(Standing(number, company, address, _seated(number, company.seats, officers)))
    return standings


def _seated(number: int, seats: int, officers: dict[int, Row]) -> dict[int, Officer]:
    seated = {seat: officers.get(seat_record(number, seat)) for seat in range(1, seats + 1)}
    return {seat: officer for seat, officer in seated.items() if isinstance(officer, Officer)}


def company(store: timestore.Store, number: int, time: int) -> Standing | None:
    """A company as it stood at a time, None where it did not."""
    with store.view() as view:
        fields = view.at(Relation.COMPANIES, number, time)
        address = view.at(Relation.ADDRESSES, number, time)
        if fields is None or address is None:
            return None
        found, place = row_of(Relation.COMPANIES, fields), row_of(Relation.ADDRESSES, address)
        assert isinstance(found, Company) and isinstance(place, Address)
        records = [seat_record(number, seat) for seat in range(1, found.seats + 1)]
        values = {record: view.at(Relation.OFFICERS, record, time) for record in records}
    officers = {record: row_of(Relation.OFFICERS, value) for record, value in values.items() if value}
    return Standing(number, found, place, _seated(number, found.seats, officers))


def journal(store: timestore.Store) -> list[Entry]:
    """All entries, by time. Each wrote the record of its case, so a version of a case is an entry."""
    entries = []
    for row in store.scan_between(Relation.CASES, 0, store.last + 1):
        case = row_of(Relation.CASES, row.fields)
        assert isinstance(case, Case)
        entries.append(Entry(row.start, Label(case.clerk, row.record, case.part), case))
    return sorted(entries)


def clerks(store: timestore.Store) -> dict[int, Clerk]:
    """The clerks that there are, by their numbers."""
    found = store.scan_at(Relation.CLERKS, store.last)
    rows = {record: row_of(Relation.CLERKS, fields) for record, fields in found}
    return {number: row for number, row in rows.items() if isinstance(row, Clerk)}


def _changes(store: timestore.Store, relation: Relation, record: int) -> dict[int, Change]:
    """Each change of a record, by its time."""
    changes: dict[int, Change] = {}
    end, stood = 0, None
    for row in store.between(relation, record, 0, store.last + 1):
        if stood is not None and row.start > end:
            changes[end] = Change(relation, record, stood, None)
            stood = None
        after = row_of(relation, row.fields)
        changes[row.start] = Change(relation, record, stood, after)
        end, stood = row.end, after
    if stood is not None and end <= store.last:
        changes[end] = Change(relation, record, stood, None)
    return changes


def history(store: timestore.Store, number: int) -> list[Step]:
    """Every entry that changed a company, by time, with what it changed and who made it."""
    of_company = _changes(store, Relation.COMPANIES, number)
    seats = max((change.after.seats for change in of_company.values() if isinstance(change.after, Company)), default=0)
    records = [(Relation.ADDRESSES, number), *((Relation.OFFICERS, seat_record(number, seat)) for seat in range(1, seats + 1))]
    found = [of_company, *(_changes(store, *record) for record in records)]
    named, entries = clerks(store), {entry.time: entry for entry in journal(store)}
    moments = sorted({time for changes in found for time in changes})
    return [Step(entries[time], named[entries[time].label.clerk], [changes[time] for changes in found if time in changes]) for time in moments]


def agrees(store: timestore.Store, entry: Entry) -> bool:
    """Whether the store knows a commit by the label of an entry, at the entry's time and at no other."""
    return store.times_of(entry.label.number) == [entry.time]


def capital(standings: list[Standing]) -> Decimal:
    """What the companies have together."""
    return sum((standing.company.capital for standing in standings), Decimal("0.00"))
