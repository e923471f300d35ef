"""What the tests share: a register in a folder of its own, and its commands as processes."""

import io
import os
import sys
import tempfile
import unittest
from contextlib import chdir, redirect_stderr, redirect_stdout
from pathlib import Path
from unittest.mock import patch

from ..__main__ import main

PACKAGE = Path(__file__).resolve().parents[1]
SAMPLE = PACKAGE / "companies.csv"
HEADER = "number,name,form,capital,founded,state,street,postcode,town,country,officers"
FIRST_MAY = "2026-05-01T09:00:00Z"
FIRST_MAY_MICROS = 1_777_626_000_000_000


def environment(clock: str | None, **more: str) -> dict[str, str]:
    """The environment of a command."""
    found = {name: text for name, text in os.environ.items() if not name.startswith("REGISTER_")}
    folders = (str(PACKAGE.parent), *os.environ.get("PYTHONPATH", "").split(os.pathsep))
    found["PYTHONPATH"] = os.pathsep.join(os.path.abspath(folder) for folder in folders if folder)
    found["PYTHONDONTWRITEBYTECODE"] = "1"
    return {**found, **({"REGISTER_CLOCK": clock} if clock else {}), **more}


def command(*words: str) -> list[str]:
    """A command line."""
    return [sys.executable, "-m", "register", *words]


class RegisterTest(unittest.TestCase):
    """A test in an empty folder, which is the working folder of the commands."""

    def setUp(self) -> None:
        base = tempfile.TemporaryDirectory()
        self.addCleanup(base.cleanup)
        self.base = Path(base.name)
        self.folder = str(self.base / "reg")

    def run_command(self, *words: str, clock: str = FIRST_MAY) -> tuple[int, str, str]:
        """Status, output and errors of a command of the clerk ada, made in this process."""
        out, errors = io.TextIOWrapper(io.BytesIO()), io.StringIO()
        settings = patch.dict(os.environ, {"REGISTER_CLOCK": clock, "REGISTER_CLERK": "ada"})
        with chdir(self.base), settings, redirect_stdout(out), redirect_stderr(errors):
            try:
                status = main(list(words))
            except SystemExit as why:
                status = int(why.code or 0)
        out.flush()
        assert isinstance(out.buffer, io.BytesIO)  # as it was made
        return status, out.buffer.getvalue().decode(), errors.getvalue()

    def said(self, *words: str, clock: str = FIRST_MAY) -> str:
        """What a command tells that must not be refused."""
        status, out, errors = self.run_command(*words, clock=clock)
        self.assertEqual((status, errors), (0, ""), words)
        return out

    def refused(self, *words: str, clock: str = FIRST_MAY) -> str:
        """The reason of a command that must be refused."""
        status, out, errors = self.run_command(*words, clock=clock)
        self.assertEqual(status, 1, (words, out, errors))
        self.assertTrue(errors.startswith("register: "), errors)
        return errors.removeprefix("register: ").removesuffix("\n")

    def make(self) -> None:
        """A register with the clerks ada, whose number is 1, and bo, whose number is 2."""
        self.said("new", "reg", "--name", "Ada Okafor", "--case", "1")
        self.said("clerk", "reg", "bo", "Bo Lind", "--case", "1")

    def write(self, name: str, *lines: str) -> None:
        """A file of lines."""
        (self.base / name).write_text("".join(f"{line}\r\n" for line in lines), encoding="utf-8", newline="")
