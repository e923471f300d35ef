#!/usr/bin/env python3
"""Makes the small stores that docs/FORMAT.md shows, and compares them with the page byte by byte.

tests/format_test.py PROGRAM [PAGE]
"""

import pathlib
import re
import subprocess
import sys
import tempfile

COMMITS = [("put k 1 7 61", 1, 100), ("put k 1 7 62", 2, 110), ("del k 1 7", 3, 120), ("put k 1 7 63", 4, 130)]
# Each store: the heading of what the page shows of it, how it is formatted, and the jobs behind the commits.
STORES = [
    ("## A small store, whole", ["--slots", "16"], ["archive 120", "reclaim", "floorof 1 120"]),
    ("## A small store of profile 4", ["--profile", "4", "--extents", "64"], ["archive 120", "reclaim"]),
]


def script(jobs):
    """Returns the lines that make a store."""
    lines = []
    for write, label, time in COMMITS:
        lines += ["begin k", write, f"submit k {label} {time}", "flush", "redeem k"]
    for job in jobs:
        lines += [job, "finish"]
    return "\n".join(lines) + "\n"


def shown(page, heading):
    """Returns each file that the page shows under a heading: its name, its length, and its bytes by their places."""
    part = page.partition(heading + "\n")[2].partition("\n## ")[0]
    for table in re.split(r"\n\n(?=\| Place in)", part)[1:]:
        head = re.match(r"\| Place in `(\w+)` \(([\d,]+) bytes\)", table)
        places = {}
        for place, content in re.findall(r"(?m)^\| ([\d,]+) \| ((?:`[0-9a-f ]+` ?)+) \|", table):
            places[int(place.replace(",", ""))] = bytes.fromhex("".join(re.findall(r"`([^`]*)`", content)))
        yield head[1], int(head[2].replace(",", "")), places


def as_shown(length, places):
    """Returns the bytes of a file that is zero but for these."""
    whole = bytearray(length)
    for place, content in places.items():
        whole[place : place + len(content)] = content
    return bytes(whole)


def differs(program, page, heading, words, jobs):
    """Returns whether a store is not as the page shows it, and says where."""
    with tempfile.TemporaryDirectory() as folder:
        subprocess.run([program, "format", folder, *words], check=True, stdout=subprocess.DEVNULL, stderr=subprocess.DEVNULL)
        ran = subprocess.run([program, "run", folder], input=script(jobs), text=True, check=True, stdout=subprocess.PIPE)
        refused = [line for line in ran.stdout.split("\n") if line.startswith("refused")]
        files = {name: pathlib.Path(folder, name).read_bytes() for name in ("status", "heap", "archive")}
    pages = {name: as_shown(length, places) for name, length, places in shown(pathlib.Path(page).read_text(), heading)}
    differ = [name for name in files if files[name] != pages.get(name)]
    for name in differ:
        at = next((n for n, (a, b) in enumerate(zip(files[name], pages.get(name, b""))) if a != b), "its end")
        print(f"{name}: not as the page shows it, at {at}")
    print(f"{page}, {heading}: {len(files) - len(differ)} of {len(files)} files as shown, {len(refused)} lines refused")
    return bool(differ or refused)


def main(program, page="docs/FORMAT.md"):
    return any([differs(program, page, *store) for store in STORES])


if __name__ == "__main__":
    sys.exit(main(*sys.argv[1:]))
