"""What a clerk is told where the store or the system refuses something."""

import unittest

import timestore

from ..commands import reason
from ..schema import Refusal

REASONS = (
    (Refusal("there is no company 2"), "there is no company 2"),
    (timestore.NotAStore("not a store"), "reg is no register: make one with python3 -m register new reg"),
    (timestore.StatusFull("status full"), "reg has no room for more entries: timestore grow reg makes some"),
    (timestore.HeapFull("heap full"), "reg has no room for more: timestore vacuum reg TIME makes some"),
    (timestore.InDoubt("in doubt"), "the disk refused a write (in doubt). Mend that, then see in the journal whether the entry was made"),
    (timestore.Failed("failed"), "the disk refused a write (failed). Mend that, then see in the journal whether the entry was made"),
    (timestore.BeforeKept("before kept", 1_777_626_000_000_000), "what stood before 2026-05-01T09:00:00Z was let go"),
    (timestore.Damaged("damaged", 3, 1), "the files of reg are damaged (heap, 3): keep them, and restore a backup"),
    (timestore.NoMemory("no memory"), "reg: no memory"),
    (FileNotFoundError(2, "No such file or directory", "a.csv"), "a.csv: No such file or directory"),
    (PermissionError(13, "Permission denied"), "reg: Permission denied"),
)


class Reasons(unittest.TestCase):
    def test_texts(self) -> None:
        for why, text in REASONS:
            self.assertEqual(reason(why, "reg"), text)
