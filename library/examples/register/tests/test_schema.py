"""Field encodings, labels and the description of them in the store."""

from datetime import date
from decimal import Decimal

import timestore

from ..schema import Case, Company, Label, Officer, Refusal, Relation, fields_of, read_field, row_of, seat_record
from .base import RegisterTest


class Encodings(RegisterTest):
    def test_rows_are_text(self) -> None:
        row = Company("Loom & Sons", "Ltd", Decimal("25000"), date(2019, 3, 1), "active", 2)
        fields = (b"Loom & Sons", b"Ltd", b"25000.00", b"2019-03-01", b"active", b"2")
        self.assertEqual(fields_of(row), fields)
        self.assertEqual(row_of(Relation.COMPANIES, fields), row)
        self.assertEqual(fields_of(Officer("Jörg", "AR")), ("Jörg".encode(), b"AR"))

    def test_row_of_other_length(self) -> None:
        with self.assertRaises(ValueError):
            row_of(Relation.OFFICERS, (b"Ada",))

    def test_fields_that_are_none(self) -> None:
        wrong = {
            ("capital", "12,5"): "capital: '12,5' is no amount such as 25000.00",
            ("capital", "-1"): "capital: '-1' is no amount such as 25000.00",
            ("capital", "1.005"): "capital: '1.005' is no amount such as 25000.00",
            ("capital", "1e30"): "capital: '1e30' is no amount such as 25000.00",
            ("capital", "-0"): "capital: '-0' is no amount such as 25000.00",
            ("capital", "NaN"): "capital: 'NaN' is no amount such as 25000.00",
            ("capital", "Infinity"): "capital: 'Infinity' is no amount such as 25000.00",
            ("founded", "31.12.2019"): "founded: '31.12.2019' is no day such as 2026-05-03",
            ("founded", "2019-02-30"): "founded: '2019-02-30' is no day such as 2026-05-03",
            ("state", "asleep"): "state: 'asleep' is not one of active, dissolved",
            ("name", "  "): "name: is empty",
            ("name", "a\nb"): "name: 'a\\nb' has a line end or another control character",
            ("form", "é" * 128): f"form: {'é' * 128!r} is longer than 255 bytes",
            ("seats", "１"): "seats: '１' is no number such as 12",
        }
        for (name, text), why in wrong.items():
            with self.assertRaises(Refusal, msg=(name, text)) as caught:
                read_field(Company, name, text)
            self.assertEqual(str(caught.exception), why)

    def test_longest_text(self) -> None:
        self.assertEqual(read_field(Company, "name", "x" * 255), "x" * 255)
        self.assertEqual(read_field(Company, "name", " x "), "x")

    def test_amounts(self) -> None:
        for text, amount in {"7": "7.00", "7.5": "7.50", "1e3": "1000.00", "0": "0.00"}.items():
            self.assertEqual(str(read_field(Company, "capital", text)), amount)


class Labels(RegisterTest):
    def test_parts(self) -> None:
        self.assertEqual(Label(1, 2, 3).number, 1 * 2**48 + 2 * 2**16 + 3)
        self.assertEqual(Label.of(1 * 2**48 + 2 * 2**16 + 3), Label(1, 2, 3))
        most = Label(2**16 - 1, 2**32 - 1, 2**16 - 1)
        self.assertEqual((most.number, Label.of(2**64 - 1)), (2**64 - 1, most))

    def test_too_large(self) -> None:
        for label in (Label(2**16, 0, 0), Label(0, 2**32, 0), Label(0, 0, 2**16)):
            with self.assertRaises(Refusal):
                _ = label.number

    def test_seats(self) -> None:
        self.assertEqual(seat_record(3, 2), 3 * 65536 + 2)


class Stored(RegisterTest):
    def test_description_is_in_the_store(self) -> None:
        """The store says what its relations and labels are."""
        self.make()
        with timestore.Store(self.folder) as store:
            found = dict(store.scan_at(0, store.last))
            self.assertEqual(store.times_of(Label(1, 1, 1).number), [store.last])
            self.assertEqual(row_of(Relation.CASES, store.at(2, 1, store.last) or ()), Case(1, 1, "new clerk", 0, ""))
        self.assertEqual(found, {
            1: (b"clerks", b"login:text", b"name:text"),
            2: (b"cases", b"clerk:number", b"part:number", b"kind:text", b"corrects:number", b"remark:text"),
            3: (b"companies", b"name:text", b"form:text", b"capital:amount", b"founded:day", b"state:text", b"seats:number"),
            4: (b"addresses", b"street:text", b"postcode:text", b"town:text", b"country:text"),
            5: (b"officers", b"name:text", b"role:text"),
            65_536: (b"label", b"clerk:16", b"case:32", b"part:16"),
            65_537: (b"version", b"1"),
        })  # fmt: skip

    def test_other_stores_are_refused(self) -> None:
        self.assertEqual(self.refused("list", "reg"), "reg: No such file or directory")
        (self.base / "reg").mkdir()
        self.assertEqual(self.refused("list", "reg"), "reg is no register: make one with python3 -m register new reg")
        timestore.make(self.folder)
        with timestore.Store(self.folder) as store, store.begin() as txn:
            txn.put(1, 7, b"a")
        self.assertEqual(self.refused("list", "reg"), "reg is a store, but no register")
        self.assertEqual(self.refused("new", "reg", "--name", "Ada", "--case", "1"), "reg has a store already")
        with timestore.Store(self.folder) as store, store.begin() as txn:
            txn.put(0, 65_537, b"version", b"2")
        self.assertEqual(self.refused("list", "reg"), "reg is no register, or one of another version")

    def test_stopped_before_the_first_entry(self) -> None:
        """A store that was made and has no entry becomes a register by the same command."""
        (self.base / "reg").mkdir()
        timestore.make(self.folder)
        self.said("new", "reg", "--name", "Ada Okafor", "--case", "1")
        self.assertEqual(self.said("list", "reg"), "0 companies, capital 0.00\n")
