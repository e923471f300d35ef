#!/usr/bin/env python3
"""The words of the command line as a shell sees them: help on standard output with status 0, what is no command on
standard error with status 2, and a time that is none refused with status 1.

    tests/command_line.py PROGRAM
"""
import csv
import io
import json
import os
import sys
import tempfile
from datetime import datetime, timedelta, timezone
from time import time_ns

from trial import run

COMMANDS = ("format", "run", "at", "between", "dump", "get", "scan", "history", "times", "put", "del", "floor", "info")
LIMITS = ("What to do:", "mkdir DIR && timestore format DIR", "16 to 65536", "65536 extents of 8 KiB", "1 to 1024 keys", "1 to 16 fields of 0 to 255 bytes",
          "1 to 9223372036854775807", "status full", "heap full", "Exit status: 0 done, 1 refused, 2 words that are no command")
LINES = ("begin NAME", "put NAME REL REC F..", "del NAME REL REC", "get NAME REL REC", "submit NAME LABEL TIME", "abort NAME",
         "pump", "flush", "redeem NAME", "at REL REC TIME", "between REL REC TIME TIME", "scan REL TIME", "times LABEL",
         "archive TIME", "reclaim", "floor TIME", "job", "finish", "reopen")


def helps(program):
    for words in (["--help"], ["-h"], ["help"]):
        status, said, told = run(program, words)
        assert (status, told) == (0, ""), (words, status, told)
        missing = [it for it in LIMITS if it not in said] + [it for it in COMMANDS if f"\n  {it} " not in said]
        assert not missing, (words, missing)
    for command in COMMANDS:
        assert run(program, ["help", command]) == run(program, [command, "--help"])
        status, said, told = run(program, [command, "--help"])
        assert (status, told) == (0, "") and "<DIR>" in said, (command, status, told)
    missing = [it for it in LINES if it not in run(program, ["run", "--help"])[1]]
    assert not missing, missing


def no_commands(program, folder):
    """Nothing is said on standard output, and no file is made or changed."""
    for words in (["forget", folder], ["format"], ["format", folder, "--slots", "4294967296"], ["format", folder, "--slots", "many"],
                  ["format", folder, "--profile", "2"], ["format", folder, "--profile", "5"], ["format", folder, "--extents", "many"],
                  ["run"], ["run", folder, "more"], ["at", folder, "1", "7"], ["at", folder, "65536", "7", "1"],
                  ["at", folder, "1", "18446744073709551616", "1"], ["at", folder, "1", "-7", "1"],
                  ["between", folder, "1", "7", "0"], ["dump"], ["dump", folder, "more"], ["--slots", "16"], ["get", folder, "1"],
                  ["scan", folder, "1", "2", "3"], ["history", folder, "65536", "7"], ["times", folder], ["put", folder, "1", "7"],
                  ["put", folder, "1", "7"] + ["-"] * 17, ["del", folder, "1", "7", "--label", "-1"],
                  ["at", folder, "1", "7", "1", "--json"], ["get", folder, "1", "7", "--instants"], ["get", folder, "1", "7", "--json", "--json"],
                  ["floor", folder, "1"], ["floor", folder, "65536", "1"], ["info"], ["info", folder, "--text"]):
        status, said, told = run(program, words)
        assert (status, said) == (2, ""), (words, status, said)
        assert told.startswith("error: ") and told.endswith("\n"), (words, told)
    assert os.listdir(folder) == []


def no_times(program, folder):
    for time in ("soon", "-1", "", "2001-02-29T00:00:00Z", "2001-09-09T01:46:60Z", "18446744073709551616", "000000000000000000007"):
        for words in (["at", folder, "1", "7", "--", time], ["between", folder, "1", "7", "--", time, "9"],
                      ["between", folder, "1", "7", "--", "0", time], ["get", folder, "1", "7", "--", time], ["scan", folder, "1", "--", time],
                      ["history", folder, "1", "7", "--", time], ["history", folder, "1", "7", "--", "0", time], ["floor", folder, "1", "--", time]):
            # (what takes a time with an offset reads a leap second as the second before)
            if words[0] in ("at", "between") or ":60" not in time:
                assert run(program, words)[:2] == (1, "refused: bad time\n"), words
    assert os.listdir(folder) == []


def tips(program, folder):
    """What a new user trips over: beside the answer, standard error says what to do."""
    numbers = "timestore: REL is a number from 0 to 65535, REC and LABEL one from 0 to 18446744073709551615\n"
    more = "\n\nFor more information, try '--help'.\n"
    for words, why in ((["get", folder, "users", "7"], "'users' for '<REL>': invalid digit found in string"),
                       (["get", folder, "1", "Ada"], "'Ada' for '<REC>': invalid digit found in string"),
                       (["scan", folder, "65536"], "'65536' for '<REL>': 65536 is not in 0..=65535")):
        assert run(program, words) == (2, "", f"error: invalid value {why}{more}{numbers}"), (words, run(program, words))
    told = run(program, ["format", folder, "--slots", "many"])[2]
    assert told == f"error: invalid value 'many' for '--slots <N>': invalid digit found in string{more}", told
    when = "timestore: a TIME is {}microseconds since 1970, YYYY-MM-DD, or YYYY-MM-DDTHH:MM:SS with Z or an offset as +01:00\n"
    script = "timestore: a TIME is microseconds since 1970, or YYYY-MM-DDTHH:MM:SSZ\n"
    for words, tip in ((["get", folder, "1", "7", "soon"], when.format("`now`, ")), (["scan", folder, "1", "soon"], when.format("`now`, ")),
                       (["history", folder, "1", "7", "0", "soon"], when.format("`now`, ")), (["floor", folder, "1", "now"], when.format("")),
                       (["at", folder, "1", "7", "2026-11-23"], script), (["between", folder, "1", "7", "0", "now"], script),
                       (["vacuum", folder, "soon"], script)):
        assert run(program, words) == (1, "refused: bad time\n", tip), (words, run(program, words))
    for words, answer, tip in ((["--slots", "8"], "bad slots", "--slots is 16 to 65536, and --extents a multiple of 16 from 64 to 1048576"),
                               (["--extents", "64"], "wrong profile", "--slots is of profile 3, and --extents of --profile 4")):
        assert run(program, ["format", folder, *words]) == (1, f"refused: {answer}\n", f"timestore: {tip}\n"), words
    none = os.path.join(folder, "none")
    absent = (f"timestore: {none}: No such file or directory (os error 2)\n"
              "timestore: there is no such folder; `mkdir DIR` makes one, and `timestore format DIR` a store in it\n")
    for words in (["format", none], ["run", none], ["get", none, "1", "7"], ["info", none], ["put", none, "1", "7", "61"]):
        assert run(program, words) == (1, "refused: device\n", absent), (words, run(program, words))
    status, said, told = run(program, ["get", folder, "1", "7"])
    assert (status, said) == (1, "refused: not a store\n") and told.endswith(
        "\ntimestore: no store was made in this folder; `timestore format DIR` makes one\n"), told
    assert os.listdir(folder) == []


def hexadecimal(program, folder):
    """Text where hexadecimal is meant, in a store that is there."""
    tip = "timestore: a FIELD is in lower-case hexadecimal, two digits a byte, `-` if empty; with --text it is text\n"
    for fields in (["Ada", "London"], ["61", "6"], ["6A"], [""]):
        assert run(program, ["put", folder, "1", "7", *fields]) == (1, "refused: bad value\n", tip), fields
    assert run(program, ["put", folder, "1", "7", "61" * 256]) == (1, "refused: bad value\n", "")
    assert run(program, ["put", folder, "1", "7", "Ada", "\\q", "--text"]) == (1, "refused: bad value\n", "")


def says_version(program):
    assert run(program, ["--version"]) == run(program, ["-V"]) == (0, "timestore 3\n", "")


def one_record(program, folder):
    """A write has the clock's time, and what was written is asked for with and without a time."""
    assert run(program, ["format", folder])[0] == 0
    before = time_ns() // 1000
    times = []
    for words in (["put", folder, "1", "7", "61", "-", "--label", "3"], ["put", folder, "1", "7", "62"], ["del", folder, "1", "7"]):
        status, said, told = run(program, words)
        assert (status, told) == (0, "") and said.startswith("done "), (words, status, said, told)
        times.append(int(said.removeprefix("done ")))
    assert before <= times[0] < times[1] < times[2] <= time_ns() // 1000 + 3
    answers = {("get",): "none\n", ("get", "now"): "none\n", ("get", str(times[0])): "value 61 -\n",
               ("history",): f"{times[0]} {times[1]} 61 -\n{times[1]} {times[2]} 62\nrows 2\n",
               ("history", str(times[1])): f"{times[1]} {times[2]} 62\nrows 1\n"}
    for (command, *more), answer in answers.items():
        assert run(program, [command, folder, "1", "7", *more]) == (0, answer, ""), (command, more)
    assert run(program, ["scan", folder, "1", str(times[1])]) == (0, "7 62\nrows 1\n", "")
    assert run(program, ["times", folder, "3"]) == (0, f"times {times[0]}\n", "")
    assert run(program, ["del", folder, "1", "7"]) == (1, "refused: missing\n", "")


def tables(program, folder):
    """CSV, as a reader of another making has it; a field that is no text is in hexadecimal."""
    store = os.path.join(folder, "tables")
    os.mkdir(store)
    assert run(program, ["format", store, "--slots", "16"])[0] == 0
    for record, fields in (("8", ["a,b", "\"", ""]), ("9", ["\\\\x61", "c\\r\\nd"])):
        assert run(program, ["put", store, "2", record, "--text", *fields])[0] == 0
    read = {}
    for words in (["get", "2", "8"], ["scan", "2"], ["history", "2", "9"], ["history", "2", "10"], ["times", "7"]):
        status, said, told = run(program, [words[0], store, *words[1:], "--csv"])
        assert (status, told) == (0, "") and said.replace("\r\n", "").count("\r") == 0, (words, said)
        read[tuple(words)] = list(csv.reader(io.StringIO(said, newline=""), strict=True))
    names = ["fields", "field1", "field2", "field3"]
    assert read["get", "2", "8"] == [names, ["3", "a,b", "\"", ""]], read
    assert read["scan", "2"] == [["record", *names], ["8", "3", "a,b", "\"", ""], ["9", "2", "\\x5c783631", "c\r\nd", ""]], read
    (*head, _, _, _), (begin, end, *row) = read["history", "2", "9"]
    assert head == ["from", "to"] and int(begin) + 1 == int(end) and row == ["2", "\\x5c783631", "c\r\nd"], read
    assert (read["history", "2", "10"], read["times", "7"]) == ([["from", "to", "fields"]], [["time"]]), read
    status, said, _ = run(program, ["get", store, "2", "8", "2300-01-01", "--csv"])
    assert status == 1 and said.startswith("refused: not yet "), (status, said)
    assert run(program, ["put", store, "2", "8", "61", "--csv"])[0] == 2


def forms(program, folder):
    """Fields as text and in JSON, those that are no text too; times as instants; what the log tells."""
    store = os.path.join(folder, "forms")
    os.mkdir(store)
    assert run(program, ["format", store, "--slots", "16"])[0] == 0
    fields = ["Ada", "\u00e9\\n\\\\", "", "\\x00ff", "-", "a b"]
    assert run(program, ["put", store, "1", "7", "--text", "--", *fields])[0] == 0
    value = "416461 c3a90a5c - 00ff 2d 612062"
    assert run(program, ["get", store, "1", "7"]) == (0, f"value {value}\n", "")
    assert run(program, ["get", store, "1", "7", "--text"]) == (0, "\t".join(["value", *fields]) + "\n", "")
    assert run(program, ["scan", store, "1", "--text"]) == (0, "\t".join(["7", *fields]) + "\nrows\t1\n", "")
    whole = ["Ada", "\u00e9\n\\", "", {"hex": "00ff"}, "-", "a b"]
    for command, more, key in (("get", ["1", "7"], None), ("scan", ["1"], "record"), ("history", ["1", "7"], "from")):
        status, said, told = run(program, [command, store, *more, "--json"])
        assert (status, told, json.loads(said)["value"]) == (0, "", whole) and (key is None or key in json.loads(said)), said
    status, said, told = run(program, ["times", store, "0", "--json", "--instants"])
    time = datetime.fromisoformat(json.loads(said)["time"])
    assert abs(datetime.now(timezone.utc) - time) < timedelta(minutes=5), said
    for wrong in ("\\q", "\\", "\\x0", "\\xg0"):
        assert run(program, ["put", store, "1", "7", "--text", wrong])[:2] == (1, "refused: bad value\n"), wrong
    told = dict(line.split(" ", 1) for line in run(program, ["info", store])[1].splitlines())
    assert (told["profile"], told["slots"], told["used"], told["commits"]) == ("3", "16", "1", "1"), told
    last = int(told["last"])
    for time in ("2000-01-01", "2000-01-01T00:00:00+01:00"):
        assert run(program, ["get", store, "1", "7", time]) == (0, "none\n", ""), time
    assert run(program, ["get", store, "1", "7", "2300-01-01"])[:2] == (1, f"refused: not yet {last}\n")
    assert run(program, ["floor", store, "1", str(last)]) == (0, f"floor {last}\n", "")
    assert json.loads(run(program, ["info", store, "--json"])[1])["floors"] == [{"relation": 1, "floor": last}]
    empty = os.path.join(folder, "empty")
    os.mkdir(empty)
    assert run(program, ["info", empty])[:2] == (1, "refused: not a store\n")
    assert run(program, ["info", os.path.join(folder, "none")])[:2] == (1, "refused: device\n")


def shown(program, store):
    """The log of a store of profile 4 that has commits at 100 and at 200, and an archive and a floor between: what is shown of it, and up to a
    damaged chain."""
    front = "header extents 64 root 1\nchain 1 commits extents 1\nmember 5 100 1 1970-01-01T00:00:00Z\n"
    log = front + "chain 2 archived 100 0 0 0 0\nchain 3 floor 100 relation 2\nchain 4 commits extents 1\nmember 6 200 2 1970-01-01T00:00:00Z\n"
    log += "next 5\nused 4 of 64\n"
    facts = {"profile": 4, "heap": 64, "extents": 4, "log": 5, "free": 27, "commits": 2, "last": 200, "archived": 100, "archive": 0, "reclaimed": 0}
    assert run(program, ["dump", store]) == (0, log, "")
    assert run(program, ["info", store]) == (0, "".join(f"{name} {number}\n" for name, number in facts.items()) + "floor 2 100\n", "")
    assert json.loads(run(program, ["info", store, "--json"])[1]) == {**facts, "floors": [{"relation": 2, "floor": 100}]}
    with open(os.path.join(store, "heap"), "r+b") as heap:
        heap.seek(8192 + 12)
        used = heap.read(1)
        for byte, told in ((b"\0", (1, front + "refused: damaged heap 2\n", "")), (used, (0, log, ""))):
            heap.seek(8192 + 12)
            heap.write(byte)
            heap.flush()
            assert run(program, ["dump", store]) == told, told
            assert run(program, ["info", store])[0] == told[0]


def endless(program, folder):
    """A store of profile 4, which is still being built: format says so, what is done stays and is shown, and floors of all and growth are refused."""
    store = os.path.join(folder, "endless")
    os.mkdir(store)
    for words in (["--profile", "4", "--slots", "64"], ["--extents", "64"], ["--profile", "3", "--extents", "64"]):
        assert run(program, ["format", store, *words])[:2] == (1, "refused: wrong profile\n"), words
    for extents in ("63", "48", "72", "1048592"):
        assert run(program, ["format", store, "--profile", "4", "--extents", extents])[:2] == (1, "refused: bad slots\n"), extents
    assert os.listdir(store) == []
    status, said, told = run(program, ["format", store, "--profile", "4", "--extents", "64"])
    assert (status, said, told.count("\n")) == (0, "formatted 64\n", 1) and "profile 4" in told, (status, said, told)
    for words in ([], ["--profile", "4"]):
        assert run(program, ["format", store, *words])[:2] == (1, "refused: occupied\n"), words
    script = "begin t\nput t 1 7 61\nsubmit t 5 100\nflush\nredeem t\nreopen\nat 1 7 100\nreclaim\nfloor 100\ngrow\nfinish\n"
    script += "archive 100\nfinish\nfloorof 2 100\nfinish\n"
    answers = "snapshot 0\nok\nqueued\nidle\ndone 100\nlast 100 floors 0\nvalue 61\nrefused: nothing to do\nrefused: wrong profile\n"
    answers += "refused: not growable\nidle\nstarted\nidle\nstarted\nidle\n"
    assert run(program, ["run", store], script) == (0, answers, "")
    assert run(program, ["run", store], "begin t\ndel t 1 7\nput t 1 8 62 -\nsubmit t 6 200\nflush\nredeem t\n")[:2] == (
        0, "snapshot 100\nok\nok\nqueued\nidle\ndone 200\n")
    for words, answer in ((["at", "1", "7", "100"], "value 61\n"), (["at", "1", "7", "200"], "none\n"), (["get", "1", "8"], "value 62 -\n"),
                          (["between", "1", "7", "1", "201"], "100 200 61\nrows 1\n"), (["scan", "1"], "8 62 -\nrows 1\n"),
                          (["scan", "1", "100"], "7 61\nrows 1\n"), (["history", "1", "7"], "100 200 61\nrows 1\n"), (["times", "5"], "times 100\n")):
        assert run(program, [words[0], store, *words[1:]]) == (0, answer, ""), words
    shown(program, store)
    status, said, told = run(program, ["put", store, "1", "7", "Ada", "--text"])
    assert (status, told) == (0, "") and said.startswith("done "), (status, said, told)
    assert run(program, ["get", store, "1", "7", "--json"])[1].endswith('"value":["Ada"]}\n')
    assert run(program, ["del", store, "1", "7"])[0] == 0 and run(program, ["get", store, "1", "7"]) == (0, "none\n", "")
    assert run(program, ["vacuum", store, "200"]) == (0, "archived 1\nreclaimed 1\n", "")
    assert run(program, ["vacuum", store, "200"])[:2] == (1, "refused: nothing to do\n")
    assert run(program, ["at", store, "1", "7", "100"]) == (0, "value 61\n", "")
    assert "archived 200\narchive 69\nreclaimed 200\n" in run(program, ["info", store])[1]
    assert run(program, ["grow", store])[:2] == (1, "refused: not growable\n")
    assert run(program, ["floor", store, "1", "200"]) == (0, "floor 200\n", "")
    assert run(program, ["floor", store, "1", "200"])[:2] == (1, "refused: nothing to do\n")
    assert run(program, ["at", store, "1", "8", "199"])[:2] == (1, "refused: before kept 200\n")
    assert run(program, ["at", store, "1", "8", "200"]) == (0, "value 62 -\n", "")


def main():
    program = os.path.abspath(sys.argv[1])
    with tempfile.TemporaryDirectory() as folder:
        helps(program)
        no_commands(program, folder)
        no_times(program, folder)
        tips(program, folder)
        says_version(program)
        one_record(program, folder)
        hexadecimal(program, folder)
        forms(program, folder)
        tables(program, folder)
        endless(program, folder)
    print("command line: ok")


if __name__ == "__main__":
    main()
