"""What the register tells, as lines of text and as CSV (RFC 4180, in UTF-8)."""

import csv
import io
from collections.abc import Iterable, Iterator
from typing import NamedTuple

from . import times
from .entries import COLUMNS
from .office import Entry
from .past import Change, Standing, Step
from .schema import SEAT_BITS, Clerk, Relation, texts

HISTORY_COLUMNS = ("time", "clerk", "clerk_name", "case", "part", "kind", "corrects", "remark", "label", "table", "seat", "field", "before", "after")
HIDDEN = "seats"  # a field for the program alone


def _csv(rows: Iterable[Iterable[object]]) -> Iterator[str]:
    """The lines of a CSV file, each with its end."""
    for row in rows:
        line = io.StringIO(newline="")
        csv.writer(line).writerow(row)
        yield line.getvalue()


def cells(standing: Standing) -> list[str]:
    """The row of a company, as `import` reads it."""
    company = texts(standing.company)
    del company[HIDDEN]
    officers = "; ".join(f"{officer.name} ({officer.role})" for officer in standing.officers.values())
    return [str(standing.number), *company.values(), *texts(standing.address).values(), officers]


def companies_csv(standings: list[Standing]) -> Iterator[str]:
    """The companies, in the columns that `import` reads."""
    return _csv([COLUMNS, *map(cells, standings)])


def history_csv(steps: list[Step]) -> Iterator[str]:
    """A row for each field that changed."""
    return _csv([HISTORY_COLUMNS, *(row for step in steps for row in _history_rows(step))])


def _history_rows(step: Step) -> Iterator[list[object]]:
    entry = step.entry
    front = [times.spelled(entry.time), step.clerk.login, step.clerk.name, entry.label.case, entry.label.part]
    why = [entry.case.kind, entry.case.corrects or "", entry.case.remark, entry.label.number]
    for change in step.changes:
        for name, before, after in change.fields():
            if name != HIDDEN:
                yield [*front, *why, change.relation.name.lower(), _seat(change) or "", name, before, after]


def _seat(change: Change) -> int:
    """The seat of an officer, 0 of another record."""
    return change.record & ((1 << SEAT_BITS) - 1) if change.relation is Relation.OFFICERS else 0


def company_list(standings: list[Standing]) -> Iterator[str]:
    """A line for each company."""
    width = max((len(standing.company.name) for standing in standings), default=0)
    for number, company, address, _ in standings:
        yield f"{number:>6}  {company.name:<{width}}  {company.form:<4}  {company.capital:>12.2f}  {company.state:<9}  {address.town}"


def sheet(standing: Standing) -> Iterator[str]:
    """What stands of a company, a line for each field."""
    fields = texts(standing.company) | texts(standing.address)
    del fields[HIDDEN]
    for name, text in fields.items():
        yield f"{name:<9} {text}"
    for seat, officer in standing.officers.items():
        yield f"seat {seat:<4} {officer.name}, {officer.role}"


def author(entry: Entry, clerk: Clerk) -> str:
    """Whose entry it is, and why it was made."""
    corrects = f" of case {entry.case.corrects}" if entry.case.corrects else ""
    remark = f": {entry.case.remark}" if entry.case.remark else ""
    return f"{times.spelled(entry.time)}  {clerk.login}, case {entry.label.case}, {entry.case.kind}{corrects}{remark}"


def step_lines(step: Step) -> Iterator[str]:
    """An entry and what it changed of a company."""
    yield author(step.entry, step.clerk)
    for change in step.changes:
        for line in _change_lines(change):
            yield f"    {line}"


def _change_lines(change: Change) -> Iterator[str]:
    if change.relation is Relation.OFFICERS:
        row = change.after or change.before
        assert row is not None  # a change has one of both
        yield f"seat {_seat(change)}: {', '.join(texts(row).values())} {'takes office' if change.after else 'leaves'}"
        return
    for name, before, after in change.fields():
        if name == HIDDEN:
            continue
        yield f"{name}: {before} -> {after}" if change.before else f"{name}: {after}"


class Extract(NamedTuple):
    """The whole history of a company, for people who do not have the store."""

    number: int
    standing: Standing | None
    steps: list[Step]
    last: int  # the time of the register's last entry
    is_checked: bool  # whether the store knows each entry by its label

    def lines(self) -> Iterator[str]:
        """The extract."""
        yield "EXTRACT FROM THE REGISTER OF COMPANIES"
        yield f"Company {self.number}, as entered up to {times.spelled(self.last)}"
        yield from ("", "WHAT STANDS", "")
        yield from sheet(self.standing) if self.standing else ["nothing"]
        yield from ("", "EVERY ENTRY, IN ITS ORDER", "")
        for step in self.steps:
            yield from step_lines(step)
        yield from ("", "WHO MADE THE ENTRIES", "")
        yield from self._clerks()
        yield from ("", "THEIR LABELS IN THE STORE", "")
        yield from (f"{times.spelled(step.entry.time)}  {step.entry.label.number}" for step in self.steps)
        yield "The store has each entry under its label." if self.is_checked else "THE STORE DISAGREES WITH THESE LABELS."

    def _clerks(self) -> Iterator[str]:
        clerks = {step.entry.label.clerk: step.clerk for step in self.steps}
        return (f"{clerk.login}: {clerk.name}, clerk {number}" for number, clerk in sorted(clerks.items()))
