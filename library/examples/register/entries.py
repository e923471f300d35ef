"""What clerks enter. Each function makes one entry, `import_parts` one for each part of a file."""

import csv
import hashlib
import io
from collections.abc import Iterable, Iterator
from functools import partial
from typing import Any, NamedTuple

import timestore

from .office import Author, Desk, Entry, Office
from .schema import COMPANY_MOST, SEAT_MOST, Address, Case, Clerk, Company, Label, Officer, Refusal, Relation, read_field, seat_record

COLUMNS = ("number", "name", "form", "capital", "founded", "state", "street", "postcode", "town", "country", "officers")
COMPANY_FIELDS = ("name", "form", "capital", "founded", "state")
PART_ROWS = 50
PART_RECORDS = 1_000  # a transaction writes at most 1,024
ROW_OFFICERS_MOST = 100


class Line(NamedTuple):
    """A row of a CSV file."""

    line: int
    number: int
    company: Company
    address: Address
    officers: list[Officer]

    def put(self, desk: Desk) -> None:
        """Writes the company, which must be new."""
        if desk.get(Relation.COMPANIES, self.number) is not None:
            raise Refusal(f"line {self.line}: company {self.number} is in the register already")
        desk.put(Relation.COMPANIES, self.number, self.company)
        desk.put(Relation.ADDRESSES, self.number, self.address)
        for seat, officer in enumerate(self.officers, 1):
            desk.put(Relation.OFFICERS, seat_record(self.number, seat), officer)


def clerk_number(office: Office, login: str) -> int:
    """The number of a clerk."""
    with office.desk() as desk:
        numbers = [number for number, clerk in desk.scan(Relation.CLERKS) if clerk.login == login]
    if not numbers:
        raise Refusal(f"{login!r} is no clerk of this register")
    return int(numbers[0])


def add_clerk(office: Office, author: Author, login: str, name: str) -> Entry:
    """Lets one more clerk make entries."""
    clerk = Clerk(read_field(Clerk, "login", login), read_field(Clerk, "name", name))

    def change(desk: Desk) -> None:
        there = desk.scan(Relation.CLERKS)
        if any(login == other.login for _, other in there):
            raise Refusal(f"{login!r} is a clerk already")
        desk.put(Relation.CLERKS, 1 + max(number for number, _ in there), clerk)

    return office.enter(author, change)


def company_number(text: str) -> int:
    """The number of a company from a text."""
    text = text.strip()
    is_number = text.isascii() and text.isdigit() and len(text) <= len(str(COMPANY_MOST))
    if not (is_number and 1 <= int(text) <= COMPANY_MOST):
        raise Refusal(f"number: {text!r} is not from 1 to {COMPANY_MOST}")
    return int(text)


def found_of(desk: Desk, number: int) -> tuple[Company, Address]:
    """A company and its address, as a transaction sees them."""
    company = desk.get(Relation.COMPANIES, number)
    if company is None:
        raise Refusal(f"there is no company {number}")
    return company, desk.get(Relation.ADDRESSES, number)


def _assigned(assignments: Iterable[str]) -> tuple[dict[str, Any], dict[str, Any]]:
    """The fields of a company and of an address that texts such as `town=Lyon` name."""
    company: dict[str, Any] = {}
    address: dict[str, Any] = {}
    for text in assignments:
        name, equals, value = text.partition("=")
        if equals and name in COMPANY_FIELDS:
            company[name] = read_field(Company, name, value)
        elif equals and name in Address._fields:
            address[name] = read_field(Address, name, value)
        else:
            fields = ", ".join((*COMPANY_FIELDS, *Address._fields))
            raise Refusal(f"{text!r} is not FIELD=VALUE, where FIELD is one of {fields}")
    return company, address


def add_company(office: Office, author: Author, assignments: list[str]) -> tuple[int, Entry]:
    """Enters a new company under the next free number, which it tells."""
    company, address = _assigned(assignments)
    company.setdefault("state", "active")
    missing = [name for name in (*COMPANY_FIELDS, *Address._fields) if name not in company | address]
    if missing:
        raise Refusal(f"a new company needs {', '.join(missing)} too")
    numbers = []

    def change(desk: Desk) -> None:
        numbers.append(1 + max((number for number, _ in desk.scan(Relation.COMPANIES)), default=0))
        desk.put(Relation.COMPANIES, numbers[-1], Company(**company, seats=0))
        desk.put(Relation.ADDRESSES, numbers[-1], Address(**address))

    entry = office.enter(author, change)
    return numbers[-1], entry


def change_company(office: Office, author: Author, number: int, assignments: list[str]) -> Entry:
    """Changes fields of a company. A correction is such a change too, whose author says what it corrects."""
    company_fields, address_fields = _assigned(assignments)

    def change(desk: Desk) -> None:
        if author.corrects and desk.get(Relation.CASES, author.corrects) is None:
            raise Refusal(f"there is no case {author.corrects} to be corrected")
        company, address = found_of(desk, number)
        changed, moved = company._replace(**company_fields), address._replace(**address_fields)
        if (changed, moved) == (company, address):
            raise Refusal(f"company {number} has these fields already")
        if changed != company:
            desk.put(Relation.COMPANIES, number, changed)
        if moved != address:
            desk.put(Relation.ADDRESSES, number, moved)

    return office.enter(author, change)


def appoint(office: Office, author: Author, number: int, officer: Officer) -> tuple[int, Entry]:
    """Gives a new officer the next seat of a company, which it tells."""
    seats = []

    def change(desk: Desk) -> None:
        company, _ = found_of(desk, number)
        if company.seats == SEAT_MOST:
            raise Refusal(f"company {number} has had all its {SEAT_MOST} seats")
        seats.append(company.seats + 1)
        desk.put(Relation.COMPANIES, number, company._replace(seats=seats[-1]))
        desk.put(Relation.OFFICERS, seat_record(number, seats[-1]), officer)

    entry = office.enter(author, change)
    return seats[-1], entry


def dismiss(office: Office, author: Author, number: int, seat: int) -> Entry:
    """Ends the office of who has a seat."""

    def change(desk: Desk) -> None:
        found_of(desk, number)
        if desk.get(Relation.OFFICERS, seat_record(number, seat)) is None:
            raise Refusal(f"company {number} has no officer on seat {seat}")
        desk.delete(Relation.OFFICERS, seat_record(number, seat))

    return office.enter(author, change)


def officer_of(text: str) -> Officer:
    """An officer from a text such as `Ada Okafor (director)`."""
    name, bracket, role = text.strip().removesuffix(")").partition(" (")
    if not bracket or not text.strip().endswith(")"):
        raise Refusal(f"officers: {text!r} is not NAME (ROLE)")
    return Officer(read_field(Officer, "name", name), read_field(Officer, "role", role))


def _line(line: int, cells: dict[str, Any]) -> Line:
    if None in cells or None in cells.values():
        raise Refusal(f"line {line}: it has not {len(COLUMNS)} cells")
    try:
        number = company_number(cells["number"])
        officers = [officer_of(text) for text in cells["officers"].split(";") if text.strip()]
        if len(officers) > ROW_OFFICERS_MOST:
            raise Refusal(f"it has more than {ROW_OFFICERS_MOST} officers")
        company = {name: read_field(Company, name, cells[name]) for name in COMPANY_FIELDS}
        address = {name: read_field(Address, name, cells[name]) for name in Address._fields}
    except Refusal as why:
        raise Refusal(f"line {line}: {why}") from None
    return Line(line, number, Company(**company, seats=len(officers)), Address(**address), officers)


def lines_of(text: str) -> list[Line]:
    """The rows of a CSV file, all of which are checked."""
    reader = csv.DictReader(io.StringIO(text, newline=""), strict=True)
    if tuple(reader.fieldnames or ()) != COLUMNS:
        raise Refusal(f"line 1: the columns are not {','.join(COLUMNS)}")
    lines: list[Line] = []
    seen: dict[int, int] = {}
    try:
        for cells in reader:
            line = _line(reader.line_num, cells)
            if line.number in seen:
                raise Refusal(f"line {line.line}: company {line.number} is on line {seen[line.number]} already")
            seen[line.number] = line.line
            lines.append(line)
    except csv.Error as why:
        raise Refusal(f"line {reader.reader.line_num}: {why}") from None
    return lines


def parts_of(lines: list[Line]) -> list[list[Line]]:
    """The lines in parts of at most 50, none of which writes too many records."""
    parts: list[list[Line]] = [[]]
    records = 0
    for line in lines:
        needs = 2 + len(line.officers)
        if len(parts[-1]) == PART_ROWS or records + needs > PART_RECORDS:
            parts.append([])
            records = 0
        parts[-1].append(line)
        records += needs
    return parts if lines else []


class Part(NamedTuple):
    """A part of an import: its lines, and its entry unless an earlier run made it."""

    lines: list[Line]
    entry: Entry | None


def import_parts(office: Office, clerk: int, case: int, name: str, text: str) -> Iterator[Part]:
    """Enters the companies of a CSV file. Each part is told once it outlasts any stop.

    An import that was stopped is gone on with by the same call: the labels of its parts tell which of them
    are in the store.
    """
    parts = parts_of(lines_of(text))
    digest = hashlib.sha256(text.encode()).hexdigest()[:16]
    remark = read_field(Case, "remark", f"{name} sha256 {digest}")
    made = _parts_made(office, clerk, case, remark)
    with office.desk() as desk:
        there = {number for number, _ in desk.scan(Relation.COMPANIES)}
    for line in (line for lines in parts[made:] for line in lines):
        if line.number in there:
            raise Refusal(f"line {line.line}: company {line.number} is in the register already")
    author = Author(clerk, case, "import", remark=remark)
    for number, lines in enumerate(parts):
        put = partial(_put_part, author=author, number=number, lines=lines)
        yield Part(lines, None if number < made else office.enter(author, put))


def _parts_made(office: Office, clerk: int, case: int, remark: str) -> int:
    """How many parts of an import the register has."""
    with office.desk() as desk:
        there: Case | None = desk.get(Relation.CASES, case)
    if there is None:
        return 0
    if there[:1] + there[2:] != (clerk, "import", 0, remark):
        raise Refusal(f"case {case} is in the register already, and is not the import of this file by this clerk")
    return office.question(_labelled, clerk, case)


def _labelled(store: timestore.Store, clerk: int, case: int) -> int:
    """How many parts of a case are in the store, by their labels."""
    part = 0
    while store.times_of(Label(clerk, case, part).number):
        part += 1
    return part


def _put_part(desk: Desk, author: Author, number: int, lines: list[Line]) -> None:
    """Writes the lines of a part, unless another run of the same import is ahead."""
    there: Case | None = desk.get(Relation.CASES, author.case)
    if (there.part + 1 if there else 0) != number:
        raise Refusal(f"case {author.case} goes on in another process too")
    for line in lines:
        line.put(desk)
