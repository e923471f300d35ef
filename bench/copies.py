#!/usr/bin/env python3
"""Counts how often a field's bytes are copied on their way to the disk, or into an answer.

    bench/copies.py TIMESTORE [--fields 16] [--bytes 255] [--query]

TIMESTORE is the built program. It commits one record of so many fields of so many bytes, 10 times and 110 times,
with each copy of memory counted (bench/copies.c, by the C compiler), and prints what a commit copies: a line for
each length. The text of the line, two digits a byte, is copied too, where it is read. With --query it asks for the
value of one record so often, and prints what an `at` copies.
"""
import argparse
import os
import subprocess
import sys
import tempfile

HERE = os.path.dirname(os.path.abspath(__file__))


def commits_of(count, fields, size):
    """So many commits of one record each, and the end of what is answered."""
    value = " ".join((bytes([index + 1]) * size).hex() for index in range(fields))
    lines = (f"begin t\nput t 1 {number} {value}\nsubmit t {number} {number}\nflush\nredeem t\n" for number in range(1, count + 1))
    return "".join(lines), f"done {count}\n"


def queries_of(count, fields, size):
    """A commit of one record, and so many questions for its value; and the end of what is answered."""
    value = " ".join((bytes([index + 1]) * size).hex() for index in range(fields))
    return commits_of(1, fields, size)[0] + count * "at 1 1 1\n", f"value {value}\n"


def counted(program, counter, script, end):
    """How often the program copied memory of each length."""
    with tempfile.TemporaryDirectory() as folder:
        subprocess.run([program, "format", folder], check=True, stdout=subprocess.DEVNULL)
        ran = subprocess.run([program, "run", folder], input=script, text=True, capture_output=True,
                             check=True, env={**os.environ, "LD_PRELOAD": counter})
        assert ran.stdout.endswith(end), ran.stdout[-200:]
        return dict(map(int, line.split()) for line in ran.stderr.splitlines())


def main():
    parser = argparse.ArgumentParser(description=__doc__, formatter_class=argparse.RawDescriptionHelpFormatter)
    parser.add_argument("program")
    parser.add_argument("--fields", type=int, default=16)
    parser.add_argument("--bytes", type=int, default=255)
    parser.add_argument("--query", action="store_true")
    asked = parser.parse_args()
    lines_of = queries_of if asked.query else commits_of
    with tempfile.TemporaryDirectory() as folder:
        counter = os.path.join(folder, "copies.so")
        built = ["cc", "-O1", "-fno-builtin", "-shared", "-fPIC", os.path.join(HERE, "copies.c"), "-o", counter]
        subprocess.run(built, check=True)
        few, many = (counted(os.path.abspath(asked.program), counter, *lines_of(count, asked.fields, asked.bytes)) for count in (10, 110))
    for length in sorted(many):
        each = (many[length] - few.get(length, 0)) / 100
        if each >= 0.5:
            print(f"{length} bytes: {each:.2f} times {'a query' if asked.query else 'a commit'}")


if __name__ == "__main__":
    sys.exit(main())
