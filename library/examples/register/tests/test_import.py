"""An import of a CSV file, also one that is killed."""

import os
import signal
import subprocess

import timestore

from ..schema import Label
from .base import FIRST_MAY, HEADER, SAMPLE, RegisterTest, command, environment

ROWS = 1_000
FIRST = "1,Acme,Ltd,1000,2020-01-01,active,Quai 7,69002,Lyon,FR,"


def row(number: int) -> str:
    """A company of a large file."""
    return f'{number},"Company {number}, Ltd",Ltd,{number}.00,2020-01-01,active,Street {number},{number},Town,CH,A{number} (director)'


class Import(RegisterTest):
    def test_sample(self) -> None:
        self.make()
        (self.base / "companies.csv").write_bytes(SAMPLE.read_bytes())
        self.assertEqual(self.said("import", "reg", "companies.csv", "--case", "2"), "lines 2 to 4: entered 2026-05-01T09:00:00.000002Z\n3 companies\n")
        with timestore.Store(self.folder) as store:
            last = store.last
            self.assertEqual(store.at(3, 2, last), (b"Peppers, Wholesale", b"Ltd", b"100000.00", b"2021-11-15", b"active", b"1"))
            self.assertEqual(store.at(4, 3, last), ("Hafenstraße 12".encode(), b"20359", b"Hamburg", b"DE"))
            self.assertEqual(store.at(5, 1 * 65536 + 2, last), (b"Bo Lind", b"secretary"))
            self.assertEqual(store.times_of(Label(1, 2, 0).number), [last])

    def test_again_changes_nothing(self) -> None:
        self.make()
        self.write("new.csv", HEADER, FIRST)
        self.said("import", "reg", "new.csv", "--case", "2")
        self.assertEqual(self.said("import", "reg", "new.csv", "--case", "2"), "lines 2 to 2: entered before\n1 companies\n")
        self.assertEqual(self.said("journal", "reg", "--of", "2").count("\n"), 1)

    def test_case_of_something_else(self) -> None:
        self.make()
        self.write("new.csv", HEADER, FIRST)
        self.said("import", "reg", "new.csv", "--case", "2")
        why = "case 2 is in the register already, and is not the import of this file by this clerk"
        self.assertEqual(self.refused("import", "reg", "new.csv", "--case", "2", "--clerk", "bo"), why)
        self.write("new.csv", HEADER, FIRST, FIRST.replace("1", "2", 1))
        self.assertEqual(self.refused("import", "reg", "new.csv", "--case", "2"), why)
        self.assertEqual(self.refused("import", "reg", "new.csv", "--case", "1"), why.replace("case 2", "case 1"))
        self.assertEqual(self.refused("import", "reg", "new.csv", "--case", "3"), "line 2: company 1 is in the register already")

    def test_wrong_lines(self) -> None:
        """Each is named by its line, and nothing of the file is entered."""
        self.make()
        good = FIRST.replace("1", "9", 1)
        wrong = {
            FIRST.replace("1000", "12.345"): "line 3: capital: '12.345' is no amount such as 25000.00",
            FIRST.replace("1", "x", 1): "line 3: number: 'x' is not from 1 to 281474976710655",
            FIRST.replace("1", "0", 1): "line 3: number: '0' is not from 1 to 281474976710655",
            FIRST.replace("1", "281474976710656", 1): "line 3: number: '281474976710656' is not from 1 to 281474976710655",
            FIRST + "Ada": "line 3: officers: 'Ada' is not NAME (ROLE)",
            FIRST + "Ada (a); (b)": "line 3: officers: ' (b)' is not NAME (ROLE)",
            FIRST + ";".join(["A (b)"] * 101): "line 3: it has more than 100 officers",
            FIRST + ",more": "line 3: it has not 11 cells",
            "1,Acme": "line 3: it has not 11 cells",
            good: "line 3: company 9 is on line 2 already",
            '1,"Acme': "line 3: unexpected end of data",
        }
        for text, why in wrong.items():
            self.write("new.csv", HEADER, good, text)
            self.assertEqual(self.refused("import", "reg", "new.csv", "--case", "2"), why)
        self.assertEqual(self.said("list", "reg"), "0 companies, capital 0.00\n")

    def test_wrong_files(self) -> None:
        self.make()
        self.assertEqual(self.refused("import", "reg", "new.csv", "--case", "2"), "new.csv: No such file or directory")
        (self.base / "new.csv").write_bytes(b"\xff\xfe")
        self.assertEqual(self.refused("import", "reg", "new.csv", "--case", "2"), "new.csv is not in UTF-8: invalid start byte at byte 0")
        self.write("new.csv", "number;name")
        self.assertEqual(self.refused("import", "reg", "new.csv", "--case", "2"), f"line 1: the columns are not {HEADER}")
        self.write("new.csv", HEADER)
        self.assertEqual(self.said("import", "reg", "new.csv", "--case", "2"), "0 companies\n")

    def test_many_officers_of_each(self) -> None:
        """A part has no more records than a transaction may write: 9 rows of 102 records, not 10."""
        self.make()
        officers = ";".join(f"A{number} (director)" for number in range(100))
        self.write("new.csv", HEADER, *(FIRST.replace("1", str(number), 1) + f'"{officers}"' for number in range(1, 11)))
        said = self.said("import", "reg", "new.csv", "--case", "2").splitlines()
        self.assertEqual([line.split(":")[0] for line in said], ["lines 2 to 10", "lines 11 to 11", "10 companies"])


class Killed(RegisterTest):
    def import_until(self, parts: int) -> int:
        """Kills an import once so many parts were told; how many were told by then."""
        words = command("import", "reg", "large.csv", "--case", "2", "--clerk", "ada")
        with subprocess.Popen(words, cwd=self.base, env=environment(FIRST_MAY), stdout=subprocess.PIPE) as process:
            assert process.stdout is not None  # it is a pipe
            told = [process.stdout.readline() for _ in range(parts)]
            os.kill(process.pid, signal.SIGKILL)
            told += process.stdout.read().splitlines(keepends=True)
        self.assertEqual(process.returncode, -signal.SIGKILL)
        return sum(line.endswith(b"\n") for line in told)

    def test_what_was_told_is_there(self) -> None:
        self.make()
        lines = [row(number) for number in range(1, ROWS + 1)]
        self.write("large.csv", HEADER, *lines)
        for parts in (1, 3, 6):
            told = self.import_until(parts)
            export = self.said("export", "reg").splitlines()[1:]
            self.assertIn(len(export), (50 * told, 50 * (told + 1)))
            self.assertEqual(export, lines[: len(export)])
        self.said("import", "reg", "large.csv", "--case", "2")
        self.assertEqual(self.said("export", "reg").splitlines(), [HEADER, *lines])
        with timestore.Store(self.folder) as store:
            rows = list(store.scan_between(3, 0, store.last + 1))
            self.assertEqual([found.record for found in rows], list(range(1, ROWS + 1)))
            labelled = [store.times_of(Label(1, 2, part).number) for part in range(ROWS // 50 + 1)]
        self.assertEqual([len(times) for times in labelled], [1] * (ROWS // 50) + [0])
        self.assertEqual([found.start for found in rows], [times[0] for times in labelled[:-1] for _ in range(50)])
