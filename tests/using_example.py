#!/usr/bin/env python3
"""A session over pipes: using_example.py PROGRAM FOLDER."""
import subprocess
import sys
import time

session = subprocess.Popen([sys.argv[1], "run", sys.argv[2]], stdin=subprocess.PIPE, stdout=subprocess.PIPE, text=True)


def ask(line):
    """Writes a line and gives its answer: one line, or the rows before `rows N`."""
    print(line, file=session.stdin, flush=True)
    rows = []
    while answer := session.stdout.readline().rstrip("\n"):
        if answer.startswith(("refused: ", "line ")):
            raise RuntimeError(f"{line}: {answer}")
        if not line.startswith(("between", "scan")):
            return answer
        if answer.startswith("rows "):
            return rows
        rows.append(answer)
    raise EOFError(f"{line}: the program has ended")


def put(label, relation, record, *texts):
    """Commits one value and gives its time."""
    fields = " ".join(text.encode().hex() or "-" for text in texts)
    for line in ("begin t", f"put t {relation} {record} {fields}", f"submit t {label} {int(time.time() * 1e6)}", "flush"):
        ask(line)
    return int(ask("redeem t").removeprefix("done "))


first = put(1, 1, 7, "Ada", "London")
second = put(2, 1, 7, "Ada", "Turin")
print(ask(f"at 1 7 {second - 1}") == f"value {b'Ada'.hex()} {b'London'.hex()}", len(ask(f"between 1 7 {first} {second + 1}")))
session.communicate()
