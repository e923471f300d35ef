"""Changes, corrections and officers; and several clerks at once."""

import os
import subprocess
import threading
from argparse import Namespace
from concurrent.futures import ThreadPoolExecutor
from decimal import Decimal

import timestore

from .. import entries, office, past, serve
from ..office import Author, Desk, Office
from ..schema import Company, Label, Refusal, Relation
from .base import HEADER, RegisterTest, command, environment

ACME = "1,Acme,Ltd,1000,2020-01-01,active,Quai 7,69002,Lyon,FR,Ada Okafor (director)"
CLERKS, RISES = 8, 12


class Entries(RegisterTest):
    def setUp(self) -> None:
        super().setUp()
        self.make()
        self.write("new.csv", HEADER, ACME)
        self.said("import", "reg", "new.csv", "--case", "2")

    def test_change(self) -> None:
        said = self.said("change", "reg", "1", "town=Paris", "capital=2000", "--case", "3", clock="2026-05-02T00:00:00Z")
        self.assertEqual(said, "entered 2026-05-02T00:00:00Z\n")
        with timestore.Store(self.folder) as store:
            self.assertEqual(store.at(4, 1, store.last), (b"Quai 7", b"69002", b"Paris", b"FR"))
            self.assertEqual(store.at(3, 1, store.last), (b"Acme", b"Ltd", b"2000.00", b"2020-01-01", b"active", b"1"))
            self.assertEqual(store.times_of(Label(1, 3, 0).number), [store.last])

    def test_refused_changes(self) -> None:
        before = self.said("journal", "reg")
        fields = "name, form, capital, founded, state, street, postcode, town, country"
        wrong = {
            ("1", "town=Lyon"): "company 1 has these fields already",
            ("2", "town=Lyon"): "there is no company 2",
            ("1", "towns=Lyon"): f"'towns=Lyon' is not FIELD=VALUE, where FIELD is one of {fields}",
            ("1", "town"): f"'town' is not FIELD=VALUE, where FIELD is one of {fields}",
            ("1", "seats=9"): f"'seats=9' is not FIELD=VALUE, where FIELD is one of {fields}",
            ("1", "town=Paris", "--remark", "a\nb"): "remark: 'a\\nb' has a line end or another control character",
            ("1", "town=Paris", "--remark", "x" * 256): f"remark: {'x' * 256!r} is longer than 255 bytes",
            ("1", "town=Paris", "--clerk", "cy"): "'cy' is no clerk of this register",
        }
        for words, why in wrong.items():
            self.assertEqual(self.refused("change", "reg", *words, "--case", "3"), why)
        self.assertEqual(self.said("journal", "reg"), before)

    def test_numbers_out_of_range(self) -> None:
        """They are no command: a seat never reaches into the next company's."""
        wrong = {
            ("dismiss", "reg", "1", "65536", "--case", "3"): "'65536' is not from 1 to 65535",
            ("dismiss", "reg", "0", "1", "--case", "3"): "'0' is not from 1 to 281474976710655",
            ("show", "reg", "281474976710656"): "'281474976710656' is not from 1 to 281474976710655",
            ("change", "reg", "1", "town=Paris", "--case", "4294967296"): "'4294967296' is not from 1 to 4294967295",
        }
        for words, why in wrong.items():
            status, _, errors = self.run_command(*words)
            self.assertEqual(status, 2)
            self.assertTrue(errors.endswith(f": {why}\n"), errors)

    def test_seats_are_counted(self) -> None:
        with Office(self.folder) as desk_office:

            def fill(desk: Desk) -> None:
                company, _ = entries.found_of(desk, 1)
                desk.put(Relation.COMPANIES, 1, company._replace(seats=65_535))

            desk_office.enter(Author(1, 9, "change"), fill)
        self.assertEqual(self.refused("appoint", "reg", "1", "A", "b", "--case", "3"), "company 1 has had all its 65535 seats")

    def test_add(self) -> None:
        fields = "name=Bolt", "form=AG", "capital=5", "founded=2026-05-01", "street=S", "postcode=1", "town=Bern", "country=CH"
        self.assertEqual(self.said("add", "reg", *fields, "--case", "4"), "company 2 entered 2026-05-01T09:00:00.000003Z\n")
        self.assertEqual(self.refused("add", "reg", *fields[:-1], "--case", "4"), "a new company needs country too")
        self.assertIn("2,Bolt,AG,5.00,2026-05-01,active,S,1,Bern,CH,\n", self.said("export", "reg").replace("\r\n", "\n"))

    def test_officers(self) -> None:
        self.assertEqual(self.said("appoint", "reg", "1", "Cy Young", "secretary", "--case", "5"), "seat 2 entered 2026-05-01T09:00:00.000003Z\n")
        self.said("dismiss", "reg", "1", "1", "--case", "5")
        self.assertEqual(self.refused("dismiss", "reg", "1", "1", "--case", "5"), "company 1 has no officer on seat 1")
        self.assertEqual(self.refused("appoint", "reg", "1", "A;B", "secretary", "--case", "5"), "name: 'A;B' has a ; or a bracket, which the CSV needs")
        with timestore.Store(self.folder) as store:
            self.assertEqual(dict(store.scan_at(5, store.last)), {65536 + 2: (b"Cy Young", b"secretary")})
            self.assertEqual(store.at(5, 65536 + 1, store.last - 1), (b"Ada Okafor", b"director"))

    def test_correction_keeps_the_error(self) -> None:
        self.said("change", "reg", "1", "street=Quai 70", "--case", "3", "--clerk", "bo", clock="2026-05-02T00:00:00Z")
        words = "correct", "reg", "1", "street=Quai 7 bis", "--case", "6", "--corrects"
        self.assertEqual(self.refused(*words, "3"), "a correction needs a --remark that says what was wrong")
        self.assertEqual(self.refused(*words, "7", "--remark", "misread"), "there is no case 7 to be corrected")
        self.said(*words, "3", "--remark", "misread", clock="2026-05-05T00:00:00Z")
        history = self.said("history", "reg", "1").splitlines()[-4:]
        self.assertEqual(history, [
            "2026-05-02T00:00:00Z  bo, case 3, change",
            "    street: Quai 7 -> Quai 70",
            "2026-05-05T00:00:00Z  ada, case 6, correction of case 3: misread",
            "    street: Quai 70 -> Quai 7 bis",
        ])  # fmt: skip
        self.assertIn("street    Quai 70\n", self.said("show", "reg", "1", "--at", "2026-05-04", clock="2026-05-06T00:00:00Z"))

    def test_clerk_twice(self) -> None:
        self.assertEqual(self.refused("clerk", "reg", "bo", "Bo Again", "--case", "1"), "'bo' is a clerk already")


class SeveralClerks(RegisterTest):
    def setUp(self) -> None:
        super().setUp()
        self.make()
        self.write("new.csv", HEADER, ACME)
        self.said("import", "reg", "new.csv", "--case", "2")

    def test_threads_lose_no_change(self) -> None:
        """Each raises the capital by 1 of what it read: where two read the same, one is tried anew."""
        tries: list[int] = []
        with Office(self.folder) as desk_office, ThreadPoolExecutor(CLERKS) as clerks:

            def work(case: int) -> None:
                for _ in range(RISES):
                    desk_office.enter(Author(1 + case % 2, 100 + case, "rise"), lambda desk: raise_capital(desk, tries))

            list(clerks.map(work, range(CLERKS)))
            standing = desk_office.question(past.company, 1, desk_office.question(past.settled, None).time)
            assert standing is not None  # it was imported
            self.assertEqual(standing.company.capital, Decimal(1000 + CLERKS * RISES))
            steps = desk_office.question(past.history, 1)
            self.assertTrue(all(desk_office.question(past.agrees, step.entry) for step in steps))
        rises = [(step.entry.label.case, step.entry.label.part) for step in steps if step.entry.case.kind == "rise"]
        self.assertEqual(sorted(rises), [(100 + case, part) for case in range(CLERKS) for part in range(RISES)])
        capitals = [company.capital for step in steps for company in (step.changes[0].after,) if isinstance(company, Company)]
        self.assertEqual(capitals, [Decimal(1000 + number) for number in range(CLERKS * RISES + 1)])
        self.assertGreater(len(tries), CLERKS * RISES)  # some conflicted

    def test_conflict_is_retried_on_what_stands_then(self) -> None:
        """Two that read the same: the second one is called again, and sees what the first one entered."""
        seen: list[Decimal] = []
        with Office(self.folder) as desk_office:

            def late(desk: Desk) -> None:
                company, _ = entries.found_of(desk, 1)
                seen.append(company.capital)
                if len(seen) == 1:
                    entries.change_company(desk_office, Author(2, 8, "change"), 1, ["capital=7"])
                desk.put(Relation.COMPANIES, 1, company._replace(capital=company.capital * 2))

            desk_office.enter(Author(1, 9, "change"), late)
        self.assertEqual(seen, [Decimal(1000), Decimal(7)])
        self.assertIn("1,Acme,Ltd,14.00,", self.said("export", "reg"))

    def test_conflicts_without_an_end(self) -> None:
        with Office(self.folder) as desk_office:

            def always_late(desk: Desk) -> None:
                company, _ = entries.found_of(desk, 1)
                desk_office.enter(Author(2, 8, "rise"), lambda other: raise_capital(other, []))
                desk.put(Relation.COMPANIES, 1, company)

            with self.assertRaises(Refusal) as caught:
                desk_office.enter(Author(1, 9, "change"), always_late)
        self.assertEqual(str(caught.exception), f"others changed the same records {office.TRIES} times in a row: try again")
        self.assertEqual(self.said("journal", "reg", "--of", "9"), "")

    def test_change_that_fails_enters_nothing(self) -> None:
        with Office(self.folder) as desk_office:

            def fails(desk: Desk) -> None:
                desk.delete(Relation.COMPANIES, 1)
                raise KeyError

            with self.assertRaises(KeyError):
                desk_office.enter(Author(1, 9, "change"), fails)
            self.assertEqual(len(desk_office.question(past.companies, desk_office.question(past.settled, None).time)), 1)
        self.assertEqual(threading.active_count(), 1)

    def test_processes_wait_for_one_another(self) -> None:
        """Without a server each command has the store for itself, and the others wait for it."""
        words = [command("appoint", "reg", "1", f"A{number}", "director", "--case", str(number)) for number in range(20, 26)]
        running = [subprocess.Popen(line, cwd=self.base, env=environment(None, REGISTER_CLERK="bo"), stdout=subprocess.PIPE) for line in words]
        said = [process.communicate(timeout=120)[0] for process in running]
        self.assertEqual([process.returncode for process in running], [0] * 6)
        self.assertEqual(sorted(text.split()[1] for text in said), [b"2", b"3", b"4", b"5", b"6", b"7"])

    def test_store_that_stays_open_elsewhere(self) -> None:
        with timestore.Store(self.folder), self.assertRaises(Refusal) as caught:
            Office(self.folder, wait_seconds=0.1)
        why = f"{self.folder} is open in another process. Let that one end, or have it serve all: python3 -m register serve {self.folder}"
        self.assertEqual(str(caught.exception), why)


class Served(RegisterTest):
    def setUp(self) -> None:
        super().setUp()
        self.make()
        self.write("new.csv", HEADER, ACME)
        self.said("import", "reg", "new.csv", "--case", "2")

    def start(self) -> "subprocess.Popen[bytes]":
        server = subprocess.Popen(command("serve", "reg"), cwd=self.base, env=environment("2026-05-02T00:00:00Z"), stdout=subprocess.PIPE)
        self.addCleanup(server.wait)
        self.addCleanup(server.kill)
        assert server.stdout is not None  # it is a pipe
        self.addCleanup(server.stdout.close)
        self.assertEqual(server.stdout.readline(), b"reg is served at reg.desk\n")
        return server

    def test_processes(self) -> None:
        server = self.start()
        self.assertEqual(os.stat(self.base / "reg.desk").st_mode & 0o077, 0)
        words = [command("appoint", "reg", "1", f"A{number}", "director", "--case", "30") for number in range(8)]
        running = [subprocess.Popen(line, cwd=self.base, env=environment(None, REGISTER_CLERK="bo"), stdout=subprocess.PIPE) for line in words]
        said = [process.communicate(timeout=120)[0] for process in running]
        self.assertEqual(sorted(text.split()[1] for text in said), [b"%d" % seat for seat in range(2, 10)])
        times = sorted(text.split()[3] for text in said)
        self.assertEqual(times, [*(b"2026-05-02T00:00:00.%06dZ" % micros for micros in range(1, 8)), b"2026-05-02T00:00:00Z"])
        self.assertEqual(self.said("journal", "reg", "--of", "30").count("bo, case 30, appointment"), 8)
        self.assertEqual(self.refused("show", "reg", "7"), "no company 7 stood at 2026-05-02T00:00:00.000007Z")
        self.write("more.csv", HEADER, ACME.replace("1", "2", 1))
        self.assertEqual(self.said("import", "reg", "more.csv", "--case", "31"), "lines 2 to 2: entered 2026-05-02T00:00:00.000008Z\n1 companies\n")
        server.terminate()
        self.assertEqual(server.wait(timeout=30), 0)
        self.assertFalse((self.base / "reg.desk").exists())
        self.assertIn("2 companies", self.said("list", "reg"))

    def test_server_that_was_killed(self) -> None:
        """Its socket stays behind, and is in nobody's way."""
        server = self.start()
        server.kill()
        server.wait()
        self.assertTrue((self.base / "reg.desk").exists())
        self.assertIn("1 companies", self.said("list", "reg"))
        self.start()
        self.assertIn("1 companies", self.said("list", "reg"))

    def test_second_server_is_refused(self) -> None:
        self.start()
        with self.assertRaises(Refusal):
            Office(self.folder, wait_seconds=0.1)

    def test_what_is_not_served(self) -> None:
        self.start()
        answers = serve.ask(Namespace(command="serve", register=self.folder))
        assert answers is not None  # it is served
        with self.assertRaises(Refusal) as caught:
            list(answers)
        self.assertEqual(str(caught.exception), "'serve' is not served")

    def test_path_too_long_for_a_socket(self) -> None:
        """Commands work there all the same, one at a time."""
        folder = self.base / ("x" * 100)
        self.said("new", str(folder), "--name", "Ada Okafor", "--case", "1")
        self.assertEqual(self.said("list", str(folder)), "0 companies, capital 0.00\n")
        why = "is too long a path to be served: go to the folder that it is in, and name it from there"
        self.assertEqual(self.refused("serve", str(folder)), f"{folder} {why}")


def raise_capital(desk: Desk, tries: list[int]) -> None:
    """Raises the capital of company 1 by 1."""
    tries.append(1)
    company, _ = entries.found_of(desk, 1)
    desk.put(Relation.COMPANIES, 1, company._replace(capital=company.capital + 1))
