#!/usr/bin/env python3
"""The time of a growth of the status area beside a raw write and sync of its bytes, and of a dump of the greatest
store beside a plain read of its status area.

    bench/status_growth.py PROGRAM [--folder FOLDER]

FOLDER is where the stores are made (a temporary folder if left out). A growth is the script `grow`, `finish`
without the time of a run with no script, in a store of 16 slots. Beside it, in turns, 16 writes of 8,192 zeros to
the end of a file of as many bytes as that store's status area, a sync, a write of one byte in its header, and a
sync. Medians. The status is 0 where all answers are right; nothing is asked of the times.
"""
import argparse
import os
import shutil
import statistics
import subprocess
import sys
import tempfile
import time

from program import run

ROUNDS = 41
DUMPS = 9
# Bytes of a slot and of one write of zeros; slots of a piece of the area; the most slots, and those of a new store.
SLOT, ZEROS, PIECE, MOST, FEW = 512, 8_192, 256, 65_536, 16
GROWN = "started\n" + "wrote zeros\n" * 16 + "zeros synced\ngate written\njob done\n"


def seconds(call):
    start = time.perf_counter()
    call()
    return time.perf_counter() - start


def formatted(program, folder, slots):
    os.mkdir(folder)
    status, _, said = run(program, ["format", folder, "--slots", str(slots)])
    assert status == 0, said


def grow(program, folder):
    script = "grow\n" + "job\n" * 19
    status, out, said = run(program, ["run", folder], script)
    assert (status, out) == (0, GROWN), (out, said)


def open_alone(program, folder):
    assert run(program, ["run", folder])[0] == 0


def raw_growth(path, slots):
    """Writes and syncs what a growth does, to a file of the length of a status area."""
    at = SLOT + slots * SLOT
    with open(path, "wb") as file:
        file.write(bytes(at))
        file.flush()
        os.fsync(file.fileno())
    file = os.open(path, os.O_RDWR)
    try:
        def calls():
            for i in range(PIECE * SLOT // ZEROS):
                os.pwrite(file, bytes(ZEROS), at + i * ZEROS)
            os.fdatasync(file)
            os.pwrite(file, b"\xc7", 16)
            os.fdatasync(file)
        return seconds(calls)
    finally:
        os.close(file)


def measured_growth(program, base):
    """Medians in seconds: of a growth's script without that of none, and of the raw calls."""
    grown, raw = [], []
    for i in range(ROUNDS):
        folder = os.path.join(base, f"few{i}")
        formatted(program, folder, FEW)
        alone = seconds(lambda: open_alone(program, folder))
        grown.append(seconds(lambda: grow(program, folder)) - alone)
        raw.append(raw_growth(os.path.join(base, "raw"), FEW))
        shutil.rmtree(folder)
    return statistics.median(grown), statistics.median(raw)


def filled(program, folder):
    """Makes the greatest store, grown to its last piece, of as many commits of one record as it takes. Gives their
    number."""
    formatted(program, folder, MOST - PIECE)
    grow(program, folder)
    commits = ("begin t", "put t 1 {0} {1}", "submit t 1 {0}", "flush", "redeem t")
    lines = [line.format(time_of, "ab" * 16) for time_of in range(1, MOST) for line in commits]
    done = subprocess.run([program, "run", folder], input="\n".join([*lines, ""]).encode(), stdout=subprocess.PIPE, check=True)
    return done.stdout.count(b"queued")


def dump(program, folder):
    return subprocess.run([program, "dump", folder], stdout=subprocess.PIPE, check=True).stdout


def read_status(folder):
    with open(os.path.join(folder, "status"), "rb") as file:
        while file.read(1 << 20):
            pass


def main():
    words = argparse.ArgumentParser(description=__doc__, formatter_class=argparse.RawDescriptionHelpFormatter)
    words.add_argument("program", type=os.path.abspath)
    words.add_argument("--folder")
    given = words.parse_args()
    with tempfile.TemporaryDirectory(dir=given.folder) as base:
        grown, raw = measured_growth(given.program, base)
        print(f"a growth: {grown * 1e3:.2f} ms; its {PIECE * SLOT:,} bytes and its gate written and synced raw: {raw * 1e3:.2f} ms")
        folder = os.path.join(base, "greatest")
        queued = filled(given.program, folder)
        text = dump(given.program, folder)
        last = text.decode().splitlines()[-1]
        assert last == f"used {queued} of {MOST}", last
        taken = statistics.median(seconds(lambda: dump(given.program, folder)) for _ in range(DUMPS))
        reading = statistics.median(seconds(lambda: read_status(folder)) for _ in range(DUMPS))
        print(f"a dump of {MOST:,} slots, {queued:,} used, {len(text):,} bytes of text: {taken * 1e3:.1f} ms; "
              f"its status area of {os.path.getsize(os.path.join(folder, 'status')):,} bytes read: {reading * 1e3:.1f} ms")
    return 0


if __name__ == "__main__":
    sys.exit(main())
