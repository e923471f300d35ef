"""What stood at a moment, to the microsecond; and what is written for a court."""

import csv
import io

from ..past import Change
from ..schema import Officer, Relation
from ..times import moment_of, spelled
from .base import FIRST_MAY, FIRST_MAY_MICROS, HEADER, SAMPLE, RegisterTest

LATER = "2026-06-01T00:00:00Z"


class Moments(RegisterTest):
    def test_texts(self) -> None:
        self.assertEqual(moment_of(FIRST_MAY), FIRST_MAY_MICROS)
        self.assertEqual(moment_of("2026-05-01T11:00:00.000001+02:00"), FIRST_MAY_MICROS + 1)
        self.assertEqual(moment_of("2026-05-01"), FIRST_MAY_MICROS + 15 * 3_600_000_000 - 1)
        self.assertEqual(spelled(FIRST_MAY_MICROS), FIRST_MAY)
        self.assertEqual(spelled(FIRST_MAY_MICROS + 1), "2026-05-01T09:00:00.000001Z")


class Past(RegisterTest):
    """Bo moves company 1 at the last microsecond of the 3rd of May, and Ada renames it at the first of the 4th."""

    def setUp(self) -> None:
        super().setUp()
        self.make()
        (self.base / "companies.csv").write_bytes(SAMPLE.read_bytes())
        self.said("import", "reg", "companies.csv", "--case", "2")
        self.said("change", "reg", "1", "town=Bern", "--case", "3", "--clerk", "bo", clock="2026-05-03T23:59:59.999999Z")
        self.said("change", "reg", "1", "name=Loom", "--case", "4", clock="2026-05-04T00:00:00Z")

    def at(self, time: str) -> tuple[str, str, str]:
        """Name and town of company 1, and whose entry was the last."""
        lines = dict(line.split(maxsplit=1) for line in self.said("show", "reg", "1", "--at", time, clock=LATER).splitlines())
        return lines["name"], lines["town"], lines["since"].split("  ")[1].split(":")[0]

    def test_boundaries(self) -> None:
        """An entry holds from its own microsecond on, and a day is its last microsecond."""
        wanted = {
            "2026-05-01T09:00:00.000002Z": ("Loom & Sons", "Basel", "ada, case 2, import"),
            "2026-05-02": ("Loom & Sons", "Basel", "ada, case 2, import"),
            "2026-05-03T23:59:59.999998Z": ("Loom & Sons", "Basel", "ada, case 2, import"),
            "2026-05-03T23:59:59.999999Z": ("Loom & Sons", "Bern", "bo, case 3, change"),
            "2026-05-03": ("Loom & Sons", "Bern", "bo, case 3, change"),
            "2026-05-04T00:00:00Z": ("Loom", "Bern", "ada, case 4, change"),
            "2026-05-04T02:00:00+02:00": ("Loom", "Bern", "ada, case 4, change"),
            "2026-05-04": ("Loom", "Bern", "ada, case 4, change"),
        }
        self.assertEqual({time: self.at(time) for time in wanted}, wanted)

    def test_before_the_first_entry(self) -> None:
        why = self.refused("show", "reg", "1", "--at", "2026-05-01T09:00:00.000001Z", clock=LATER)
        self.assertEqual(why, "no company 1 stood at 2026-05-01T09:00:00.000001Z")
        self.assertEqual(self.said("list", "reg", "--at", "2026-05-01T09:00:00.000001Z", clock=LATER), "0 companies, capital 0.00\n")

    def test_after_the_last_entry(self) -> None:
        """What stands is told with the reserve that an entry may still come; of the future nothing is."""
        said = self.said("show", "reg", "1", "--at", "2026-05-20", clock=LATER).splitlines()
        self.assertEqual(said[-1], "Nothing was entered after 2026-05-04T00:00:00Z, so far.")
        self.assertEqual(self.refused("list", "reg", "--at", "2026-06-01", clock=LATER), "2026-06-01T23:59:59.999999Z is still to come")

    def test_texts_that_are_no_time(self) -> None:
        wanted = {
            "yesterday": "'yesterday' is no day such as 2026-05-03 and no instant such as 2026-05-03T14:30:00Z",
            "2026-02-30": "'2026-02-30' is no day such as 2026-05-03 and no instant such as 2026-05-03T14:30:00Z",
            "2026-05-03T14:30:00": "'2026-05-03T14:30:00' has no zone: write 2026-05-03T14:30:00Z for UTC, or 2026-05-03T14:30:00+02:00",
        }
        for text, why in wanted.items():
            self.assertEqual(self.refused("list", "reg", "--at", text), why)

    def test_clock_that_goes_back(self) -> None:
        """An entry never comes before one that was told: it comes a microsecond after it."""
        self.assertEqual(self.said("change", "reg", "1", "town=Thun", "--case", "5", clock=FIRST_MAY), "entered 2026-05-04T00:00:00.000001Z\n")

    def test_lists(self) -> None:
        said = self.said("list", "reg", "--at", "2026-05-03", clock=LATER).splitlines()
        self.assertEqual([line.split() for line in said[:3]], [
            ["1", "Loom", "&", "Sons", "Ltd", "25000.00", "active", "Bern"],
            ["2", "Peppers,", "Wholesale", "Ltd", "100000.00", "active", "Lyon"],
            ["3", "Nordlicht", "AG", "50000.00", "active", "Hamburg"],
        ])  # fmt: skip
        self.assertEqual(said[3:], ["3 companies, capital 175000.00"])

    def test_journal(self) -> None:
        self.assertEqual(self.said("journal", "reg", "--by", "bo"), "2026-05-03T23:59:59.999999Z  bo, case 3, change\n")
        times = [line.split()[0] for line in self.said("journal", "reg").splitlines()]
        first = [FIRST_MAY, "2026-05-01T09:00:00.000001Z", "2026-05-01T09:00:00.000002Z"]
        self.assertEqual(times, [*first, "2026-05-03T23:59:59.999999Z", "2026-05-04T00:00:00Z"])

    def test_export_is_what_was_imported(self) -> None:
        status, out, _ = self.run_command("export", "reg", "--at", "2026-05-02", clock=LATER)
        self.assertEqual(status, 0)
        rows = SAMPLE.read_text(encoding="utf-8").splitlines()
        self.assertEqual(out, "".join(f"{row}\r\n" for row in rows))
        self.write("again.csv", *rows)
        self.said("new", "other", "--name", "Ada Okafor", "--case", "1")
        self.said("import", "other", "again.csv", "--case", "2")
        self.assertEqual(self.said("export", "other"), out)

    def test_history_csv(self) -> None:
        rows = list(csv.DictReader(io.StringIO(self.said("extract", "reg", "1", "--csv"), newline="")))
        self.assertEqual(len(rows), 9 + 2 * 2 + 2)
        self.assertEqual(rows[-2], {
            "time": "2026-05-03T23:59:59.999999Z", "clerk": "bo", "clerk_name": "Bo Lind", "case": "3", "part": "0", "kind": "change",
            "corrects": "", "remark": "", "label": str(2 * 2**48 + 3 * 2**16), "table": "addresses", "seat": "", "field": "town",
            "before": "Basel", "after": "Bern",
        })  # fmt: skip
        self.assertEqual((rows[-1]["field"], rows[-1]["before"], rows[-1]["after"]), ("name", "Loom & Sons", "Loom"))
        self.assertEqual([row["after"] for row in rows if row["table"] == "officers" and row["seat"] == "2"], ["Bo Lind", "secretary"])

    def test_extract(self) -> None:
        self.said("dismiss", "reg", "1", "2", "--case", "5", clock="2026-05-05T00:00:00Z")
        said = self.said("extract", "reg", "1")
        head = "EXTRACT FROM THE REGISTER OF COMPANIES\nCompany 1, as entered up to 2026-05-05T00:00:00Z\n\nWHAT STANDS\n\n"
        self.assertTrue(said.startswith(f"{head}name      Loom\n"))
        self.assertTrue(said.endswith(
            "2026-05-03T23:59:59.999999Z  bo, case 3, change\n    town: Basel -> Bern\n"
            "2026-05-04T00:00:00Z  ada, case 4, change\n    name: Loom & Sons -> Loom\n"
            "2026-05-05T00:00:00Z  ada, case 5, dismissal\n    seat 2: Bo Lind, secretary leaves\n\n"
            "WHO MADE THE ENTRIES\n\nada: Ada Okafor, clerk 1\nbo: Bo Lind, clerk 2\n\n"
            "THEIR LABELS IN THE STORE\n\n"
            f"2026-05-01T09:00:00.000002Z  {2**48 + 2 * 2**16}\n2026-05-03T23:59:59.999999Z  {2 * 2**48 + 3 * 2**16}\n"
            f"2026-05-04T00:00:00Z  {2**48 + 4 * 2**16}\n2026-05-05T00:00:00Z  {2**48 + 5 * 2**16}\n"
            "The store has each entry under its label.\n"
        ))  # fmt: skip
        self.assertNotIn("seat 2    ", said)
        self.assertEqual(self.refused("extract", "reg", "9"), "there is no company 9, nor was there one")

    def test_empty_export(self) -> None:
        self.assertEqual(self.said("export", "reg", "--at", FIRST_MAY, clock=LATER), HEADER + "\r\n")


class Fields(RegisterTest):
    def test_changes(self) -> None:
        old, new = Officer("Ada", "director"), Officer("Ada", "chair")
        self.assertEqual(Change(Relation.OFFICERS, 1, old, new).fields(), [("role", "director", "chair")])
        self.assertEqual(Change(Relation.OFFICERS, 1, None, new).fields(), [("name", "", "Ada"), ("role", "", "chair")])
        self.assertEqual(Change(Relation.OFFICERS, 1, old, None).fields(), [("name", "Ada", ""), ("role", "director", "")])
