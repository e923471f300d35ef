"""Reads from a store's files what the library's calls do not tell: labels by time, and which relations there are.

The library has opened the same files before, so they keep to the format; nothing is checked here.
"""

import struct
from pathlib import Path

from . import chains, slots
from .records import RELATION, Log

PLACE = struct.Struct("<Q")  # of a record in a run


def read_log(folder: Path) -> Log:
    """The log of a store."""
    with open(folder / "status", "rb") as status:
        has_chains = chains.has_chains(status.read(slots.HEADER_BYTES))
    return chains.read_log(folder) if has_chains else slots.read_log(folder)


def relations(folder: Path, log: Log) -> list[int]:
    """The relations of which the store has a version, rising."""
    found = set(log.relations)
    with open(folder / "archive", "rb") as archive:
        for run in log.runs:
            archive.seek(run.start)
            found |= _run_relations(archive.read(run.length), run.records)
    return sorted(found)


def _run_relations(run: bytes, records: int) -> set[int]:
    index = len(run) - PLACE.size * records
    places = (PLACE.unpack_from(run, index + PLACE.size * number)[0] for number in range(records))
    return {RELATION.unpack_from(run, place)[0] for place in places}
