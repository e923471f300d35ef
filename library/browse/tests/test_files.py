"""The reader of the files: the small stores that docs/FORMAT.md shows byte by byte, and each kind of record."""

import struct
import tempfile
import unittest
from pathlib import Path

from timestore_browse import chains, files, slots

SLOTS = (
    "c7010100 00000000 0100000000000000 6400000000000000 01000000 01000000 01000000",
    "c7010100 01000000 0200000000000000 6e00000000000000 02000000 01000000 01000000",
    "c7010100 02000000 0300000000000000 7800000000000000 03000000 01000000 01000000",
    "c7010100 03000000 0400000000000000 8200000000000000 04000000 01000000 01000000",
    "c7020000 04000000 7800000000000000 0000000000000000 4a00000000000000 0200000000000000",
    "c7030000 05000000 7800000000000000 00000000 00000000 00000000",
    "c7040000 06000000 7800000000000000 0100",
)
EXTENTS = (
    "01000000 00000000 0e000000 00000000 01 0100 0700000000000000 01 01 61",
    "02000000 00000000 0e000000 00000000 01 0100 0700000000000000 01 01 62",
    "03000000 00000000 0b000000 00000000 03 0100 0700000000000000",
    "04000000 00000000 0e000000 00000000 01 0100 0700000000000000 01 01 63",
)
ARCHIVE = (
    "0100 0700000000000000 6400000000000000 6e00000000000000 01 01 61"
    "0100 0700000000000000 6e00000000000000 7800000000000000 01 01 62"
    "0000000000000000 1d00000000000000"
)
STATUS_BYTES = 8_704

# The same commits in a store of profile 4, archived and reclaimed up to 120.
ENDLESS_STATUS = "4e4f4f5645523031 04000000 40000000 c7000000 01000000 07000000"
ENDLESS_EXTENTS = (
    "c7000000 01000000 00000000 21000000 02000000 00000000 05 0100000000000000 6400000000000000 0100 01 0100 0700000000000000 01 0161",
    "c7000000 02000000 00000000 21000000 03000000 00000000 05 0200000000000000 6e00000000000000 0100 01 0100 0700000000000000 01 0162",
    "c7000000 03000000 00000000 1e000000 04000000 00000000 05 0300000000000000 7800000000000000 0100 03 0100 0700000000000000",
    "c7000000 04000000 00000000 21000000 05000000 00000000 05 0400000000000000 8200000000000000 0100 01 0100 0700000000000000 01 0163",
    "c7000000 05000000 00000000 23000000 06000000 00000000"
    "06 7800000000000000 0000000000000000 4a00000000000000 0200000000000000 0000",
    "00",
    "c7000000 07000000 00000000 26000000 04000000 00000000"
    "08 7800000000000000 000000000000000000000000 09 4a00000000000000 3000000000000000",
)
ROLL = "0100000000000000 6400000000000000 0200000000000000 6e00000000000000 0300000000000000 7800000000000000"


def status(slots: tuple[str, ...]) -> bytes:
    """A status area of 16 slots."""
    header = (b"NOOVER01" + bytes.fromhex("03000000 10000000")).ljust(512, b"\0")
    return (header + b"".join(bytes.fromhex(slot).ljust(512, b"\0") for slot in slots)).ljust(STATUS_BYTES, b"\0")


def write(folder: Path, status: bytes, extents: tuple[str, ...], archive: str) -> None:
    """The three files of a store."""
    (folder / "status").write_bytes(status)
    (folder / "heap").write_bytes(b"".join(bytes.fromhex(extent).ljust(8_192, b"\0") for extent in extents))
    (folder / "archive").write_bytes(bytes.fromhex(archive))


def endless_status(header: str = ENDLESS_STATUS) -> bytes:
    """A status area of profile 4."""
    return bytes.fromhex(header).ljust(512, b"\0")


def chain(numbers: tuple[int, ...], link: int, content: bytes) -> dict[int, str]:
    """The extents of a chain of the log, by their numbers."""
    found = {}
    for place, number in enumerate(numbers):
        part, following = content[8_168 * place :][:8_168], (*numbers, 0)[place + 1]
        head = (0xC7, number, following, len(part), link) if number == numbers[0] else (0, number, following, len(part), 0)
        found[number] = (struct.pack("<5I4x", *head) + part).hex()
    return found


class Files(unittest.TestCase):
    def setUp(self) -> None:
        base = tempfile.TemporaryDirectory()
        self.addCleanup(base.cleanup)
        self.folder = Path(base.name)

    def relations(self) -> list[int]:
        """The relations of the store."""
        return files.relations(self.folder, files.read_log(self.folder))

    def test_log(self) -> None:
        write(self.folder, status(SLOTS), EXTENTS, ARCHIVE)
        log = files.read_log(self.folder)
        self.assertEqual(log.commits, [(100, 1, 1), (110, 2, 1), (120, 3, 1), (130, 4, 1)])
        self.assertEqual((log.runs, log.reclaimed), ([(0, 74, 2)], 120))
        self.assertEqual((slots.last_reclaim(status(SLOTS)), slots.last_reclaim(status(SLOTS[:5]))), (120, 0))

    def test_log_ends_at_a_closed_gate(self) -> None:
        write(self.folder, status((*SLOTS[:1], "00" + SLOTS[1][2:], *SLOTS[2:])), EXTENTS, ARCHIVE)
        self.assertEqual(files.read_log(self.folder).commits, [(100, 1, 1)])

    def test_relations(self) -> None:
        write(self.folder, status(SLOTS), EXTENTS, ARCHIVE)
        self.assertEqual(self.relations(), [1])

    def test_relations_of_the_archive_alone(self) -> None:
        """Extents that were given back are not read, whatever they hold."""
        archive = ARCHIVE.replace("0100 07", "0900 07", 1)
        extents = tuple(extent.replace("0100 07", "2222 07") for extent in EXTENTS[:3])
        write(self.folder, status(SLOTS), (*extents, EXTENTS[3]), archive)
        self.assertEqual(self.relations(), [1, 9])

    def test_records_of_each_kind(self) -> None:
        """An anchor, a delta of two fields, a deletion and what a reclaim kept, in a chain of two extents."""
        anchor = "01 0a00 0100000000000000 02 01 61 00"
        delta = "02 0b00 0100000000000000 0500 01 61 02 6262"
        gone = "03 0c00 0100000000000000"
        old = "04 0d00 0100000000000000 0500000000000000 01 01 61"
        first = "01000000 02000000 21000000 00000000" + anchor + delta
        second = "02000000 00000000 21000000 00000000" + gone + old
        slot = "c7010100 00000000 0100000000000000 6400000000000000 01000000 02000000 04000000"
        write(self.folder, status((slot,)), (first, second), "")
        self.assertEqual(self.relations(), [10, 11, 12, 13])

    def test_log_in_the_heap(self) -> None:
        """Of commits up to the last reclaim the archive has time and label alone."""
        write(self.folder, endless_status(), ENDLESS_EXTENTS, ARCHIVE + ROLL)
        log = files.read_log(self.folder)
        self.assertEqual(log.commits, [(100, 1, None), (110, 2, None), (120, 3, None), (130, 4, 1)])
        self.assertEqual((log.runs, log.reclaimed, log.relations), ([(0, 74, 2)], 120, {1}))
        self.assertEqual(self.relations(), [1])

    def test_log_in_the_heap_before_the_reclaim(self) -> None:
        """With a closed turn gate the log begins at the other root."""
        write(self.folder, endless_status(ENDLESS_STATUS.replace("c7000000", "00000000")), ENDLESS_EXTENTS, ARCHIVE)
        log = files.read_log(self.folder)
        self.assertEqual(log.commits, [(100, 1, 1), (110, 2, 1), (120, 3, 1), (130, 4, 1)])
        self.assertEqual((log.runs, log.reclaimed), ([(0, 74, 2)], 0))

    def test_log_in_the_heap_ends_at_a_closed_gate(self) -> None:
        extents = (*ENDLESS_EXTENTS[:1], "00" + ENDLESS_EXTENTS[1][2:], *ENDLESS_EXTENTS[2:])
        write(self.folder, endless_status("4e4f4f5645523031 04000000 40000000 00000000 01000000 00000000"), extents, "")
        self.assertEqual(files.read_log(self.folder), ([(100, 1, 1)], [], 0, {1}))

    def test_new_log_in_the_heap(self) -> None:
        """Nothing was committed; also where the heap lacks the extent in which the log begins."""
        for extents in ((), ("00",)):
            write(self.folder, endless_status("4e4f4f5645523031 04000000 40000000 00000000 01000000 00000000"), extents, "")
            self.assertEqual(files.read_log(self.folder), ([], [], 0, set()))
            self.assertEqual(self.relations(), [])

    def test_chains(self) -> None:
        """Groups of several commits, of which the first is not later than the reclaim; records of each kind, some with a part
        in each of two extents; anchors; rolls and runs of a base, and a run after it; floors."""
        key, commit = struct.Struct("<BHQ"), struct.Struct("<BQQH")
        large = key.pack(1, 20, 1) + b"\x10" + 16 * (b"\xff" + bytes(255))
        group = commit.pack(5, 8, 200, 1) + key.pack(3, 28, 1)
        group += b"".join(
            commit.pack(5, 7, time, 3) + large + key.pack(1, 21, time) + b"\x01\x00" + key.pack(3, 22, 1) for time in (300, 301, 302, 303)
        )
        group += commit.pack(5, 2**64 - 1, 304, 1) + key.pack(2, 23, 1) + bytes.fromhex("0500 0161 026262")
        anchors = key.pack(4, 24, 1) + struct.pack("<Q", 5) + b"\x01\x01a"
        archived, floor = struct.Struct("<BQQQQH"), struct.Struct("<BQH")
        base = struct.pack("<BQIII", 8, 200, 9, 1, 1) + struct.pack("<BQQBQQ", 9, 37, 16, 9, 90, 16)
        base += archived.pack(6, 100, 0, 37, 1, 0) + archived.pack(6, 200, 53, 37, 1, 0) + floor.pack(7, 100, 24) + floor.pack(7, 101, 25)
        extents = chain((6,), 8, base) | chain((8, 2, 1), 3, group) | chain((3,), 4, floor.pack(7, 120, 24))
        extents |= chain((4,), 7, archived.pack(6, 300, 106, 37, 1, 0)) | chain((5,), 0, b"") | chain((9,), 0, anchors)
        extents |= {7: "00", 9: "00" + extents[9][2:]}
        runs = [struct.pack("<HQQQ", relation, 1, 100, 200) + b"\x01\x01a" + bytes(8) for relation in (25, 26, 27)]
        names = [struct.pack("<QQ", *name) for name in ((8, 200), (9, 100))]
        archive = runs[0] + names[0] + runs[1] + names[1] + runs[2]
        status = endless_status("4e4f4f5645523031 04000000 40000000 00000000 06000000 05000000")
        write(self.folder, status, tuple(extents[number] for number in range(1, 10)), archive.hex())
        log = files.read_log(self.folder)
        named, whole = [(100, 9, None), (200, 8, 1)], [(time, 7, 3) for time in (300, 301, 302, 303)]
        self.assertEqual(log.commits, [*named, *whole, (304, 2**64 - 1, 1)])
        self.assertEqual(log.runs, [(0, 37, 1), (53, 37, 1), (106, 37, 1)])
        self.assertEqual((log.reclaimed, log.relations), (200, {20, 21, 22, 23, 24}))
        self.assertEqual(self.relations(), [20, 21, 22, 23, 24, 25, 26, 27])

    def test_profile(self) -> None:
        self.assertEqual([chains.has_chains(it) for it in (endless_status(), status(SLOTS), b"")], [True, False, False])
