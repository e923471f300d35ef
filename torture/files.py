#!/usr/bin/env python3
"""Files as a system has them: a full file system, rights that lack, what is no file or no folder,
files of other stores, growths up to the most slots, a long script.

files.py PROGRAM [--lines N]

Each refusal is the one that docs/USING.md names, with status 1, and leaves every file as it was.
As root the rights are tried as the user nobody, and a full and a read-only file system are
mounted. A script of N lines (200,000) takes the memory of one of 10,000. The status is 1 where a
check fails, and 3 where something is left out: who may not mount, or has no C compiler, is told
what.
"""
from __future__ import annotations

import fcntl
import itertools
import os
import random
import shutil
import stat
import subprocess
import sys
import tempfile
import termios
import threading
import time
from collections import Counter
from collections.abc import Callable
from typing import TextIO

import forged
import image
import machine
from machine import Machine
from program import (
    AREAS, Areas, Failure, Session, command, ended, format_store, read_areas, report, run,
    status_at_end, status_of, use_memory, words_of, write_areas
)
from scripts import check_left
from stops import CALLS_UNSEEN, Play
from torture import new_store, write_on
from wrong import left_out

# what a run may take more than another by chance, in KiB
SLACK = 256
SHORT = 10_000
# as the user nobody root tries what rights keep others from
NOBODY_ID = 65534
NOBODY = {"user": NOBODY_ID, "group": NOBODY_ID, "extra_groups": []}
COMMANDS = {
    "at": "at DIR 1 7 100", "between": "between DIR 1 7 0 101", "vacuum": "vacuum DIR 100",
    "grow": "grow DIR", "run": "run DIR", "dump": "dump DIR",
}
# they leave the store as it is
TEN_LINES = [
    "begin t", "put t 1 7 61 62 63", "get t 1 7", "abort t", "at 1 7 100", "between 1 7 0 101",
    "scan 1 100", "times 1", "redeem t", "flush",
]
SCRIPT = ["begin t", "put t 1 7 61", "submit t 1 100", "flush"]


class Files:
    def __init__(self, program: str, folder: str, lines: int) -> None:
        self.folder, self.lines = folder, lines
        os.chmod(folder, 0o755)
        self.program = shutil.copy(program, os.path.join(folder, "program"))
        os.chmod(self.program, 0o755)
        self.tried: Counter = Counter()
        self.left_out: list[str] = []

    def store(self) -> str:
        """A store with one commit, of whoever is to try it."""
        folder = tempfile.mkdtemp(dir=self.folder)
        format_store(self.program, folder, 16)
        status, said = run(self.program, folder, SCRIPT)
        if status:
            raise Failure(f"a script answers {said} with status {status}")
        if os.getuid() == 0:
            for path in (folder, *(os.path.join(folder, area) for area in AREAS)):
                os.chown(path, NOBODY_ID, NOBODY_ID)
        return folder

    def tells(self, words: str, folder: str, wanted: str, where: str) -> None:
        """A command that is refused so, or not at all where nothing is wanted; as one without
        rights."""
        given = [it.replace("DIR", folder) for it in words.split(" ")]
        as_one = NOBODY if os.getuid() == 0 else {}
        done = ended([self.program, *given], ["times 1"], cwd="/", **as_one)
        found, refused = (done.returncode, done.stdout), (1, f"refused: {wanted}\n")
        if found != refused if wanted else done.returncode:
            raise Failure(f"{where}: {words} answers {found}, and not {wanted or 'status 0'}")
        self.tried[where] += 1

    # ---- rights

    def rights(self) -> None:
        """Files and folders that may not be written or read."""
        cases = {
            "a read-only folder": ({"": 0o555}, {}),
            "read-only files": (
                dict.fromkeys(AREAS, 0o444), dict.fromkeys(COMMANDS, "device") | {"dump": ""}
            ),
            "a heap without rights": ({"heap": 0}, dict.fromkeys(COMMANDS, "device")),
            "a status file without rights": ({"status": 0}, dict.fromkeys(COMMANDS, "device")),
            "a folder without rights": ({"": 0}, dict.fromkeys(COMMANDS, "device")),
        }
        for where, (modes, wanted) in cases.items():
            folder = self.store()
            before = read_areas(folder)
            for name, mode in modes.items():
                os.chmod(os.path.join(folder, name), mode)
            for name, words in COMMANDS.items():
                self.tells(words, folder, wanted.get(name, ""), where)
            if wanted and os.getuid() == 0 and read_areas(folder) != before:
                raise Failure(f"{where}: a file has changed")
            os.chmod(folder, 0o755)
        empty = tempfile.mkdtemp(dir=self.folder)
        os.chmod(empty, 0o555)
        self.tells("format DIR", empty, "device", "format in a read-only folder")
        if os.listdir(empty):
            raise Failure("format has made a file in a read-only folder")

    # ---- what is no file or no folder

    def kinds(self) -> None:
        """A folder that is a file or is not there; files that are folders, devices or missing."""
        file = os.path.join(self.folder, "file")
        with open(file, "w", encoding="utf-8") as it:
            it.write("no folder\n")
        for name, words in {**COMMANDS, "format": "format DIR"}.items():
            self.tells(words, file, "device", "a folder that is a file")
            self.tells(
                words, os.path.join(self.folder, "absent"), "device", "a folder that is not there"
            )
            if name != "format":
                empty = tempfile.mkdtemp(dir=self.folder)
                os.chmod(empty, 0o777)
                self.tells(words, empty, "not a store", "an empty folder")
                if os.listdir(empty):
                    raise Failure(f"{words} has made a file in an empty folder")
        for area in AREAS:
            self.other_kind(area, "a file that is a folder", os.mkdir, "device")
            self.other_kind(
                area, "a file that is a device", lambda path: os.symlink("/dev/null", path),
                "device",
            )
            self.other_kind(area, "a file that is missing", lambda path: None, "not a store")
            self.other_kind(
                area, "a link to nothing", lambda path: os.symlink("/nowhere/at/all", path),
                "not a store",
            )

    def other_kind(
        self, area: str, where: str, make: Callable[[str], object], wanted: str
    ) -> None:
        folder = self.store()
        os.remove(os.path.join(folder, area))
        make(os.path.join(folder, area))
        others = [it for it in AREAS if it != area]
        before = {it: read_file(folder, it) for it in others}
        for name, words in COMMANDS.items():
            # dump reads the status file alone, and asks of the others only that they are there
            if name != "dump":
                self.tells(words, folder, wanted, where)
        if {it: read_file(folder, it) for it in others} != before:
            raise Failure(f"{where}: another file has changed")

    # ---- files of other stores

    def swapped(self, seeds: range) -> None:
        """Each mixture of the files of two stores, and each permutation of one's."""
        for seed in seeds:
            one, other = (self.played(random.Random(f"swapped {seed} {it}")) for it in range(2))
            mixed = [
                {area: (one, other)[which][area] for area, which in zip(AREAS, choice)}
                for choice in itertools.product((0, 1), repeat=3)
            ]
            mixed += [
                dict(zip(AREAS, (one[it] for it in order)))
                for order in itertools.permutations(AREAS)
            ]
            for areas in mixed:
                said = forged.check(
                    self.program, areas, f"files of two stores, of seed {seed}",
                    [(1, 0), (1, 1), (2, 0)],
                )
                self.tried[f"swapped files, {said}"] += 1

    def played(self, chance: random.Random) -> Areas:
        folder = tempfile.mkdtemp(dir=self.folder)
        small = new_store(self.program, folder, 64, chance.choice(machine.PROFILES))
        Play(self.program, chance, has_stops=False).play(folder, small, 100)
        return read_areas(folder)

    # ---- growths

    def growths(self) -> None:
        """Growths up to the most slots that a store has: its slots and profile, how often it is
        tried, and how many pieces it then has."""
        most, piece = machine.SLOTS_MOST, machine.PIECE
        for slots, profile, tries, pieces in (
            (most - piece, 3, 2, 1), (most - piece + 1, 3, 1, 0), (most, 2, 1, 0),
            (most - 2 * piece, 2, 3, 2), (16, 2, 2, 2), (16, 1, 1, 0),
        ):
            folder = tempfile.mkdtemp(dir=self.folder)
            format_store(self.program, folder, slots, profile)
            small = Machine(slots=slots, profile=profile)
            for _ in range(tries):
                self.grows(folder, small)
            found = image.pieces(read_areas(folder)["status"])
            if found != pieces:
                raise Failure(f"profile {profile}, {slots} slots: grows by {found}, not {pieces}")
            shutil.rmtree(folder)
        self.too_many_pieces()

    def grows(self, folder: str, small: Machine) -> None:
        wanted = small.growth()
        said = command(self.program, "grow", folder)
        if said != (status_of(wanted), wanted):
            raise Failure(f"grow answers {said}, and not {wanted}")
        check_left(self.program, read_areas(folder), small.front(), f"after grow answered {wanted}")
        self.tried["growths"] += 1

    def too_many_pieces(self) -> None:
        """A piece more than a store may have, in a file that has room for it."""
        areas = read_areas(self.store())
        status = bytearray(areas["status"].ljust(512 + 512 * (machine.SLOTS_MOST + 256), b"\0"))
        status[12:16] = machine.SLOTS_MOST.to_bytes(4, "little")
        for gate, wanted in ((0xC7, "not a store"), (0xC6, "opens")):
            status[image.GATES.start] = gate
            said = forged.check(
                self.program, {**areas, "status": bytes(status)}, "too many pieces", [(1, 7)], True
            )
            if said != wanted:
                raise Failure(f"a store of the most slots and a gate {gate} {said}, not {wanted}")
            self.tried["growths"] += 1

    # ---- file systems

    def mounted(self, options: str) -> str | None:
        place = tempfile.mkdtemp(dir=self.folder)
        if subprocess.run(
            ["mount", "-t", "tmpfs", "-o", options, "none", place], stderr=subprocess.DEVNULL,
            check=False,
        ).returncode:
            self.left_out = ["full and read-only file systems (no rights to mount)"]
            return None
        return place

    def full_disks(self, seeds: range) -> None:
        """A file system that gets full under a store; with room again all that was done is there,
        and it goes on."""
        for seed in seeds:
            chance = random.Random(f"full disk {seed}")
            place = self.mounted(f"size={4 * chance.randrange(11, 80)}k")
            if place is None:
                return
            try:
                self.full_disk(place, chance)
            finally:
                subprocess.run(["umount", place], check=True)
        self.read_only_disk()

    def full_disk(self, place: str, chance: random.Random) -> None:
        small = new_store(self.program, place, 64, chance.choice(machine.PROFILES))
        session = Session(self.program, place)
        try:
            small, front = write_on(session, small, chance)
            if front:
                session.expect("begin u", ["refused: failed"])
            session.end_well()
        finally:
            session.kill()
        self.tried["file systems filled" if front else "file systems with room"] += 1
        subprocess.run(["mount", "-o", "remount,size=4m", place], check=True)
        check_left(
            self.program, read_areas(place), front or small.front(), "after a full file system"
        )

    def read_only_disk(self) -> None:
        place = self.mounted("size=1m")
        if place is None:
            return
        try:
            write_areas(place, read_areas(self.store()))
            subprocess.run(["mount", "-o", "remount,ro", place], check=True)
            for name, words in COMMANDS.items():
                said = command(self.program, *words.replace("DIR", place).split(" "))
                if said[0] if name == "dump" else said != (1, ["refused: device"]):
                    raise Failure(f"on a read-only file system {words} answers {said}")
                self.tried["a read-only file system"] += 1
        finally:
            subprocess.run(["umount", place], check=True)

    def full_format(self) -> None:
        """A format without room is refused, and goes once there is room."""
        place = self.mounted("size=8k")
        if place is None:
            return
        try:
            said = command(self.program, "format", place, "--slots", "1024")
            if said != (1, ["refused: device"]):
                raise Failure(f"format without room answers {said}")
            said = command(self.program, "at", place, "1", "7", "100")
            if said != (1, ["refused: not a store"]):
                raise Failure(f"after a format without room at answers {said}")
            subprocess.run(["mount", "-o", "remount,size=4m", place], check=True)
            format_store(self.program, place, 1024)
            self.tried["formats without room"] += 1
        finally:
            subprocess.run(["umount", place], check=True)

    # ---- long scripts

    def most_memory(self, lines: int) -> int:
        """The most memory that a script of so many lines took, in KiB: transactions that end,
        queries and refused lines."""
        folder = self.store()
        some = "".join(f"{it}\n" for it in TEN_LINES) * 1000
        with subprocess.Popen(
            [self.program, "run", folder], stdin=subprocess.PIPE, stdout=subprocess.PIPE, text=True
        ) as process:
            reader = threading.Thread(target=lambda: drain(process.stdout))
            reader.start()
            for _ in range(lines // 10_000):
                process.stdin.write(some)
            process.stdin.flush()
            # the script is done when its input is read, and its answers are written before it
            # waits for more
            while int.from_bytes(
                fcntl.ioctl(process.stdin, termios.FIONREAD, bytes(4)), sys.byteorder
            ):
                time.sleep(0.01)
            time.sleep(0.1)
            with open(f"/proc/{process.pid}/status", encoding="ascii") as it:
                most = next(int(line.split()[1]) for line in it if line.startswith("VmHWM"))
            process.stdin.close()
            reader.join()
        if process.returncode:
            raise Failure(f"a script of {lines} lines ends with status {process.returncode}")
        return most

    def long_script(self) -> None:
        began = time.time()
        few, many = self.most_memory(SHORT), self.most_memory(self.lines)
        took = time.time() - began
        print(
            f"a script of {SHORT} lines takes {few} KiB, one of {self.lines} {many} KiB"
            f" and {took:.1f} s"
        )
        if many > few + SLACK:
            raise Failure(
                f"a script of {self.lines} lines takes {many - few} KiB more than one of {SHORT}"
            )
        self.tried["long scripts"] += 1


def drain(stream: TextIO) -> None:
    while stream.read(1 << 16):
        pass


def read_file(folder: str, area: str) -> bytes | None:
    path = os.path.join(folder, area)
    if not os.path.exists(path) or not stat.S_ISREG(os.stat(path).st_mode):
        return None
    with open(path, "rb") as it:
        return it.read()


def main() -> int:
    words = words_of(__doc__)
    words.add_argument("--lines", type=int, default=200_000, help="of the long script (200000)")
    given = words.parse_args()
    use_memory()
    began, bad = time.time(), 0
    with tempfile.TemporaryDirectory(prefix="files-") as folder:
        files = Files(os.path.abspath(given.program), folder, given.lines)
        checks = [
            files.rights, files.kinds, lambda: files.swapped(range(6)), files.growths,
            lambda: files.full_disks(range(18)), files.full_format, files.long_script,
        ]
        for check in checks:
            try:
                check()
            except Failure as why:
                report("files", why)
                bad += 1
    for what, count in files.tried.items():
        print(f"{what}: {count}")
    print(f"{sum(files.tried.values())} cases in {time.time() - began:.0f} s; {bad} failed")
    return status_at_end(bad, [*files.left_out, *left_out(CALLS_UNSEEN)])


if __name__ == "__main__":
    sys.exit(main())
