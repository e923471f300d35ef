"""What the relations of the register hold, and how each field is written as bytes.

Every field is text that a person can read, so that the store can be read without this program. The
store holds a description of its own relations and of its labels too, in the relation `SCHEMA`.
"""

from collections.abc import Callable
from datetime import date
from decimal import Decimal, InvalidOperation
from enum import IntEnum
from typing import Any, NamedTuple, Self, get_type_hints

FIELD_BYTES_MOST = 255
SEAT_BITS = 16
SEAT_MOST = (1 << SEAT_BITS) - 1
COMPANY_MOST = (1 << 64 - SEAT_BITS) - 1
STATES = ("active", "dissolved")
VERSION = "1"


class Refusal(Exception):
    """What a clerk is told where a command can't be done: nothing was entered."""


class Relation(IntEnum):
    """The relations, and what numbers their records."""

    SCHEMA = 0  # a relation's number, or one of those below
    CLERKS = 1  # the clerk's number
    CASES = 2  # the case's number, as the office counts its cases
    COMPANIES = 3  # the company's number
    ADDRESSES = 4  # the company's number
    OFFICERS = 5  # the company's number * 65,536 + the seat


# Records of the relation SCHEMA that describe no relation.
LABEL_RECORD = 65_536
VERSION_RECORD = 65_537


class Clerk(NamedTuple):
    """Who may make entries."""

    login: str
    name: str


class Case(NamedTuple):
    """The last entry of a case. Each entry writes the record of its case, so its history is the journal."""

    clerk: int
    part: int  # the entries of a case are counted from 0
    kind: str
    corrects: int  # the case that it corrects, 0 for none
    remark: str


class Company(NamedTuple):
    """A company. Its officers have had the seats 1 to `seats`."""

    name: str
    form: str
    capital: Decimal
    founded: date
    state: str
    seats: int


class Address(NamedTuple):
    """Where a company is found."""

    street: str
    postcode: str
    town: str
    country: str


class Officer(NamedTuple):
    """Who acts for a company. One who left has no value in the store from then on."""

    name: str
    role: str


Row = Clerk | Case | Company | Address | Officer

ROWS: dict[Relation, type[Row]] = {
    Relation.CLERKS: Clerk,
    Relation.CASES: Case,
    Relation.COMPANIES: Company,
    Relation.ADDRESSES: Address,
    Relation.OFFICERS: Officer,
}


def _text(text: str) -> str:
    if any(ord(sign) < 32 or ord(sign) == 127 for sign in text):
        raise ValueError("has a line end or another control character")
    if len(text.encode()) > FIELD_BYTES_MOST:
        raise ValueError(f"is longer than {FIELD_BYTES_MOST} bytes")
    return text


def _number(text: str) -> int:
    if not (text.isascii() and text.isdigit()):
        raise ValueError("is no number such as 12")
    return int(text)


def _amount(text: str) -> Decimal:
    try:
        amount = Decimal(text)
        cents = amount.quantize(Decimal("0.01"))
    except InvalidOperation:
        raise ValueError("is no amount such as 25000.00") from None
    if amount != cents or amount.is_signed():
        raise ValueError("is no amount such as 25000.00")
    return cents


def _day(text: str) -> date:
    try:
        return date.fromisoformat(text)
    except ValueError:
        raise ValueError("is no day such as 2026-05-03") from None


class Encoding(NamedTuple):
    """How values of one type are text: `read(write(value)) == value`. `read` raises `ValueError`."""

    name: str
    write: Callable[[Any], str]
    read: Callable[[str], Any]


ENCODINGS: dict[type, Encoding] = {
    str: Encoding("text", _text, _text),
    int: Encoding("number", str, _number),
    Decimal: Encoding("amount", "{:.2f}".format, _amount),
    date: Encoding("day", date.isoformat, _day),
}


def encodings(row: type[Row]) -> dict[str, Encoding]:
    """The encoding of each field of a row, in their order."""
    return {name: ENCODINGS[kind] for name, kind in get_type_hints(row).items()}


def read_field(row: type[Row], name: str, text: str) -> Any:
    """The value of a field that someone wrote as text. Spaces at its ends are left out."""
    text = text.strip()
    try:
        value = encodings(row)[name].read(text)
    except ValueError as why:
        raise Refusal(f"{name}: {text!r} {why}") from None
    if row is Company and name == "state" and value not in STATES:
        raise Refusal(f"state: {text!r} is not one of {', '.join(STATES)}")
    if row is Officer and (";" in text or "(" in text):
        raise Refusal(f"{name}: {text!r} has a ; or a bracket, which the CSV needs")
    if name == "name" and not text:
        raise Refusal("name: is empty")
    return value


def texts(row: Row) -> dict[str, str]:
    """The fields of a row as text, in their order."""
    return {name: it.write(value) for (name, it), value in zip(encodings(type(row)).items(), row)}


def fields_of(row: Row) -> tuple[bytes, ...]:
    """The value of a row, as the store has it."""
    return tuple(text.encode() for text in texts(row).values())


def row_of(relation: Relation, fields: tuple[bytes, ...]) -> Row:
    """The row that a value of the store is."""
    row = ROWS[relation]
    return row(*(it.read(field.decode()) for it, field in zip(encodings(row).values(), fields, strict=True)))


def seat_record(company: int, seat: int) -> int:
    """The record of an officer of a company."""
    return company << SEAT_BITS | seat


class Label(NamedTuple):
    """Whose entry a commit is. Its number is what the store knows the commit by."""

    clerk: int
    case: int
    part: int

    @property
    def number(self) -> int:
        """The label of 64 bits."""
        number = 0
        for part, bits in zip(self, LABEL_BITS.values(), strict=True):
            if part >= 1 << bits:
                raise Refusal(f"{part} is too large for a label's part of {bits} bits")
            number = number << bits | part
        return number

    @classmethod
    def of(cls, number: int) -> Self:
        """The label that has a number."""
        parts = []
        for bits in reversed(LABEL_BITS.values()):
            parts.append(number & ((1 << bits) - 1))
            number >>= bits
        return cls(*reversed(parts))


LABEL_BITS = {"clerk": 16, "case": 32, "part": 16}


def description() -> dict[int, tuple[bytes, ...]]:
    """The records of the relation SCHEMA: name and fields of each relation, the parts of a label, the version."""
    lines = {
        int(relation): [relation.name.lower(), *(f"{name}:{it.name}" for name, it in encodings(row).items())]
        for relation, row in ROWS.items()
    }
    lines[LABEL_RECORD] = ["label", *(f"{name}:{bits}" for name, bits in LABEL_BITS.items())]
    lines[VERSION_RECORD] = ["version", VERSION]
    return {record: tuple(text.encode() for text in line) for record, line in lines.items()}
