"""Calls of the system, and those that go wrong: a library (refuse.c) stands between the program
and the system, counts its calls, writes those of a store's files down, and lets one go wrong."""
from __future__ import annotations

import atexit
import functools
import os
import shutil
import struct
import subprocess
import tempfile
from dataclasses import dataclass

from program import AREAS

HERE = os.path.dirname(os.path.abspath(__file__))
CLASSES = ("growth", "input", "output", "read", "length", "write", "sync", "open", "lock")
ON_FILES = ("read", "length", "write", "sync", "open", "lock")
MOVES = ("before", "short", "interrupted")
# how a call of a class goes wrong
HOWS = {
    "growth": ("before",), "input": MOVES, "output": MOVES, "read": MOVES, "length": ("before",),
    "write": ("before", "part", "made", "short", "interrupted", "killed"),
    "sync": ("before", "made", "killed"), "open": ("before",), "lock": ("before",),
}
# nothing is refused: the program asks again for the rest
HARMLESS = ("short", "interrupted")
# what keeps a block of an archive, if there is memory for it; and what calls it, which stays a
# function of its own: no growth in it is another's
KEEPS, READS = "archive::cache::BlockCache::keep", "archive::blocks::BlockReader::read_missing"

# places in words of what refuse.c writes, how many calls it can write down, and its length in
# bytes
CAME, CALLS, WITHIN, FIRST = len(CLASSES), len(CLASSES) + 1, len(CLASSES) + 2, 16
SIZE = 1 << 20
MOST = (SIZE // 8 - FIRST) // 3

# no call goes wrong
NONE = ("", 0, "before")
What = tuple[str, int, str]


@dataclass(frozen=True)
class Call:
    """A read, write or sync of an area, from where to where."""

    kind: str
    area: str
    low: int = 0
    high: int = 0


class Wrong:
    """What is to go wrong, the counts of the calls, and those on a store's files. Of a program that
    is named it is traced whether a refused growth is one of the cache of archive blocks."""

    def __init__(self, folder: str, what: What = NONE, program: str = "") -> None:
        self.kind, self.at, self.how = what
        self.place = os.path.join(folder, "counts")
        with open(self.place, "wb") as it:
            it.truncate(SIZE)
        self.noted = 0
        self.environment = {
            "LD_PRELOAD": library(), "REFUSE_COUNTS": self.place, "REFUSE_CLASS": self.kind,
            "REFUSE_AT": str(self.at), "REFUSE_HOW": self.how,
        }
        if program and self.kind == "growth":
            places = places_of(program, KEEPS) or places_of(program, READS)
            self.environment["REFUSE_TRACED"] = places

    def words(self, first: int, count: int) -> tuple[int, ...]:
        with open(self.place, "rb") as it:
            it.seek(8 * first)
            return struct.unpack(f"<{count}Q", it.read(8 * count))

    def counts(self) -> dict[str, int]:
        return dict(zip(CLASSES, self.words(0, len(CLASSES))))

    def came(self) -> bool:
        return self.words(CAME, 1) == (1,)

    def was_in_cache(self) -> bool:
        """Whether what went wrong was a growth of the cache of archive blocks."""
        return self.words(WITHIN, 1) != (0,)

    def calls(self) -> list[Call]:
        """The calls on a store's files that were not told before."""
        before, (self.noted,) = self.noted, self.words(CALLS, 1)
        if self.noted == MOST:
            raise OverflowError("more calls than can be written down")
        words = iter(self.words(FIRST + 3 * before, 3 * (self.noted - before)))
        return [
            Call(CLASSES[what % 256], AREAS[what // 256 - 1], at, at + size)
            for what, at, size in zip(words, words, words)
        ]

    def __str__(self) -> str:
        return f"{self.kind} {self.at} {self.how}"


def cases_of(counts: dict[str, int]) -> list[What]:
    """Each call and how it goes wrong."""
    return [
        (kind, at + 1, how) for kind in CLASSES for how in HOWS[kind] for at in range(counts[kind])
    ]


def is_first(what: What) -> bool:
    """Whether it is one to try first: a call on the files that is not made."""
    return what[0] in ON_FILES and what[2] == "before"


@functools.cache
def places_of(program: str, function: str) -> str:
    """Where each instance of a function begins in a program, as refuse.c takes it; nothing where
    its names are not in it."""
    said = subprocess.run(
        ["nm", program], stdout=subprocess.PIPE, stderr=subprocess.DEVNULL, text=True, check=False
    ).stdout
    rows = (line.split(" ", 2) for line in said.splitlines())
    return " ".join(place for place, _, name in rows if name.split("::<")[0] == function)


def has_compiler() -> bool:
    """Whether there is one, and what reads the names of a program."""
    return all(shutil.which(it) for it in (os.environ.get("CC", "cc"), "nm"))


def left_out(*what: str) -> list[str]:
    """What is left out where there is no compiler: what needs `library`."""
    return [f"{' and '.join(what)} (no C compiler, or no nm)"] if what and not has_compiler() else []


@functools.cache
def library() -> str:
    """Where the library is, which is made once for a process."""
    folder = tempfile.mkdtemp(prefix="torture-refuse-")
    atexit.register(shutil.rmtree, folder, True)
    place = os.path.join(folder, "refuse.so")
    subprocess.run(
        [
            os.environ.get("CC", "cc"), "-O1", "-shared", "-fPIC", "-o", place,
            os.path.join(HERE, "refuse.c"),
        ],
        check=True,
    )
    return place
