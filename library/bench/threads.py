"""Threads over one store, beside raw groups, SQLite and LMDB: threads.py OUT FOLDER [ROUNDS [SECONDS]].

OUT is the folder of libtimestore.a, FOLDER one on the file system that is meant. In each round all are measured one behind
the other, so that what else the machine does meets all alike; each number is the median of the rounds. What cannot be built
here is left out. bench/peers/slow_sync.c, preloaded, makes syncs that take the same time each.
"""

import os
import platform
import subprocess
import sys
import tempfile
from pathlib import Path
from statistics import median

HERE = Path(__file__).resolve().parent
WRITERS = (1, 2, 4, 8, 16, 32, 64)
READERS = (1, 2, 3, 4)
GROUP_MOST = 16
LIBRARIES = {"timestore": "shared", "SQLite": "sqlite", "LMDB": "lmdb"}
LINKED = {"sqlite": ["-lsqlite3"], "lmdb": ["-llmdb"]}


def built(out: Path, base: str) -> dict[str, str]:
    """The programs of those that can be built here."""
    programs = {}
    for name, source in LIBRARIES.items():
        linked = [str(out / "libtimestore.a")] if source == "shared" else LINKED[source]
        program = f"{base}/{source}"
        command = ["cc", "-O2", "-pthread", f"-I{HERE.parent / 'include'}", HERE / "threads.c", HERE / f"threads_{source}.c", "-o", program, *linked]
        if subprocess.run(command, stderr=None if source == "shared" else subprocess.DEVNULL).returncode == 0:
            programs[name] = program
    subprocess.run(["cc", "-O2", HERE / "threads_raw.c", "-o", f"{base}/raw"], check=True)
    return programs


def told(base: str, program: str, *words: object) -> list[float]:
    """The numbers of a program over a new folder."""
    with tempfile.TemporaryDirectory(dir=base) as folder:
        ran = subprocess.run([program, folder, *map(str, words)], stdout=subprocess.PIPE, text=True, check=True)
    return [float(word) for word in ran.stdout.split()]


def shown(number: float) -> str:
    return f"{number:,.0f}"


def writing(programs: dict[str, str], base: str, rounds: int, seconds: float) -> None:
    """Commits of one record by so many threads."""
    found: dict[tuple[int, str], list[float]] = {}
    for _ in range(rounds):
        for count in WRITERS:
            found.setdefault((count, "raw"), []).append(told(base, f"{base}/raw", min(count, GROUP_MOST), seconds)[0])
            for name, program in programs.items():
                found.setdefault((count, name), []).append(told(base, program, count, 0, seconds)[0])
    others = [name for name in programs if name != "timestore"]
    heads = ["threads", "timestore, commits/s", "raw groups", "of raw", *(f"{name}" for name in others), *(f"times {name}" for name in others)]
    print(f"\n| {' | '.join(heads)} |\n{'|---' * len(heads)}|")
    for count in WRITERS:
        of = {name: median(found[count, name]) for name in ("raw", *programs)}
        ratios = [f"{median(ours / its for ours, its in zip(found[count, 'timestore'], found[count, name])):.2f}" for name in others]
        cells = [str(count), shown(of["timestore"]), shown(of["raw"]), f"{of['timestore'] / of['raw']:.2f}", *(shown(of[name]) for name in others), *ratios]
        print(f"| {' | '.join(cells)} |", flush=True)


def reading(programs: dict[str, str], base: str, rounds: int, seconds: float) -> None:
    """Values that stand now, asked by so many threads beside one that commits."""
    found: dict[tuple[int, str], list[list[float]]] = {}
    for _ in range(rounds):
        for count in READERS:
            for name, program in programs.items():
                found.setdefault((count, name), []).append(told(base, program, 1, count, seconds))
    heads = ["readers", *(f"{name}, values/s" for name in programs), *(f"its writer, commits/s ({name})" for name in programs)]
    print(f"\n| {' | '.join(heads)} |\n{'|---' * len(heads)}|")
    for count in READERS:
        values = [shown(median(it[1] for it in found[count, name])) for name in programs]
        commits = [shown(median(it[0] for it in found[count, name])) for name in programs]
        print(f"| {' | '.join([str(count), *values, *commits])} |", flush=True)


def main(out: Path, folder: str, rounds: int = 5, seconds: float = 1.0) -> None:
    with tempfile.TemporaryDirectory(dir=folder) as base:
        programs = built(out, base)
        kind = subprocess.run(["stat", "-f", "-c", "%T", base], stdout=subprocess.PIPE, text=True, check=True).stdout.strip()
        load = ", ".join(f"{it:.1f}" for it in os.getloadavg())
        print(f"{os.cpu_count()} cores, Linux {platform.release()}, {kind}, load {load} at the beginning; medians of {rounds} rounds of {seconds:g} s")
        writing(programs, base, rounds, seconds)
        reading(programs, base, rounds, seconds)


if __name__ == "__main__":
    main(Path(sys.argv[1]), sys.argv[2], *(kind(word) for kind, word in zip((int, float), sys.argv[3:])))
