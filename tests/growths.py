#!/usr/bin/env python3
"""Counts the growths of memory that a view and a transaction ask for, at 16 keys and at 1,024.

    tests/growths.py PROGRAM

PROGRAM is the built program. A line `at` takes a view, asks it and ends it; `begin` and `abort` are a
transaction. Of a thousand of each `valgrind` counts the calls of malloc, beside those of a hundred, in a
store of 16 keys and in one of 1,024. The status is 1 where the counts differ.
"""
import os
import re
import subprocess
import sys
import tempfile

KEYS = (16, 1_024)
FEW, MANY = 100, 1_100
KINDS = {"view, query, end": ["at 1 7 100"], "begin, abort": ["begin t", "abort t"]}


def made(program, folder, keys):
    """Makes a store with this many keys, of one commit."""
    os.mkdir(folder)
    subprocess.run([program, "format", folder, "--slots", "64"], check=True, stdout=subprocess.DEVNULL)
    lines = ["begin t", *(f"put t 1 {record} 61" for record in range(keys)), "submit t 1 100", "flush"]
    script = "".join(f"{line}\n" for line in lines)
    subprocess.run([program, "run", folder], input=script.encode(), check=True, stdout=subprocess.DEVNULL)


def growths(program, folder, lines):
    """How many growths a script asks for."""
    script = "".join(f"{line}\n" for line in lines)
    done = subprocess.run(["valgrind", program, "run", folder], input=script.encode(), check=True, stdout=subprocess.DEVNULL, stderr=subprocess.PIPE)
    return int(re.search(rb"total heap usage: ([\d,]+) allocs", done.stderr)[1].replace(b",", b""))


def main():
    program, differ = os.path.abspath(sys.argv[1]), False
    with tempfile.TemporaryDirectory() as base:
        for keys in KEYS:
            made(program, os.path.join(base, str(keys)), keys)
        for kind, lines in KINDS.items():
            counts = []
            for keys in KEYS:
                few, many = (growths(program, os.path.join(base, str(keys)), lines * count) for count in (FEW, MANY))
                counts.append(many - few)
            found = ", ".join(f"{count:,} at {keys:,} keys" for count, keys in zip(counts, KEYS))
            print(f"{kind}: growths of {MANY - FEW:,}: {found}")
            differ |= len(set(counts)) > 1
    return 1 if differ else 0


if __name__ == "__main__":
    sys.exit(main())
