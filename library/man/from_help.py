#!/usr/bin/env python3
"""The man page and the words that bash completes, from what the program says of itself.

usage: library/man/from_help.py PROGRAM [--write]

Both are committed, library/man/timestore.1 and library/completions/timestore.bash, since a library is installed where no program is built. Without
--write they are compared with what the program's help gives, and the status is 1 where they differ.
"""
import os
import re
import subprocess
import sys

TOP = os.path.dirname(os.path.dirname(os.path.realpath(__file__)))
EXAMPLE = r"""mkdir reg
timestore format reg
timestore put reg 1 7 Ada London --text
timestore get reg 1 7 --text
printf 'begin t\nput t 1 7 61\nsubmit t 9 0\nflush\nredeem t\n' | timestore run reg
timestore history reg 1 7 --json --instants"""


def said(program, *words):
    return subprocess.run([program, *words], capture_output=True, text=True, check=True).stdout.rstrip("\n")


def parts(text):
    """The paragraphs of help: what the command is for, its usage, its arguments and options, and the rest."""
    about, usage, *rest = text.split("\n\n")
    lists = [it for it in rest if it.startswith(("Arguments:", "Options:", "Commands:"))]
    return about, usage.removeprefix("Usage: "), lists, [it for it in rest if it not in lists]


def commands(text):
    """The names of the commands, in the order of help."""
    listed = next(it for it in parts(text)[2] if it.startswith("Commands:"))
    return [it for it in re.findall(r"^  ([a-z]+) ", listed, re.M) if it != "help"]


def typed(text):
    """Text as a man page has it, line by line."""
    out = []
    for line in text.replace("\\", "\\e").replace("-", "\\-").split("\n"):
        out.append("\\&" + line if line.startswith((".", "'")) else line)
    return "\n".join(out)


def block(text):
    return f".nf\n{typed(text)}\n.fi"


def page(program):
    top = said(program, "--help")
    about, _, lists, rest = parts(top)
    names = commands(top)
    helps = {it: parts(said(program, it, "--help")) for it in names}
    options = next(it for it in lists if it.startswith("Options:")).split("\n", 1)[1]
    limits = "\n\n".join(rest)
    body, status = limits.split("Exit status: ")
    out = ['.TH TIMESTORE 1 "" "timestore @VERSION@" "User Commands"', ".SH NAME", "timestore \\- a store of records that keeps every version"]
    out += [".SH SYNOPSIS", block("\n".join([helps[it][1] for it in names] + ["timestore"]))]
    out += [".SH DESCRIPTION", typed(about + "."), ".PP", "A store is a folder of three files: status, heap and archive."]
    out += [".PP", block(body.rstrip("\n")), ".SH COMMANDS"]
    for name in names:
        about, usage, lists, rest = helps[name]
        out += [f'.SS "{typed(usage)}"', typed(about + "."), ".PP", block("\n\n".join(lists + rest))]
    out += [".SH OPTIONS", block(options), ".SH EXIT STATUS", block(status), ".SH EXAMPLE", block(EXAMPLE)]
    return "\n".join(out) + "\n"


def completions(program):
    names = commands(said(program, "--help"))
    flags = {it: re.findall(r"^ +(?:-[a-z], )?(--[a-z]+)", "\n".join(parts(said(program, it, "--help"))[2]), re.M) for it in names}
    words = " ".join(names)
    cases = [f"    {it}:-*) mapfile -t COMPREPLY < <(compgen -W \"{' '.join(flags[it])}\" -- \"$word\") ;;" for it in names if len(flags[it]) > 1]
    return f"""# Completes the words of timestore in bash. Made from the program's help by library/man/from_help.py.
_timestore() {{
    local word=${{COMP_WORDS[COMP_CWORD]}} command=${{COMP_WORDS[1]}}
    COMPREPLY=()
    if [ "$COMP_CWORD" -eq 1 ]; then
        mapfile -t COMPREPLY < <(compgen -W "{words} help --help --version" -- "$word")
        return
    fi
    case $command:$word in
{chr(10).join(cases)}
    *:-*) mapfile -t COMPREPLY < <(compgen -W "--help" -- "$word") ;;
    help:*) mapfile -t COMPREPLY < <(compgen -W "{words}" -- "$word") ;;
    stress:*) ;;
    *) if [ "$COMP_CWORD" -eq 2 ]; then mapfile -t COMPREPLY < <(compgen -d -- "$word"); fi ;;
    esac
}}
complete -o filenames -F _timestore timestore
"""


def main():
    program = os.path.abspath(sys.argv[1])
    made = {f"{TOP}/man/timestore.1": page(program), f"{TOP}/completions/timestore.bash": completions(program)}
    differ = []
    for path, text in made.items():
        if "--write" in sys.argv[2:]:
            with open(path, "w", encoding="utf-8") as file:
                file.write(text)
        elif open(path, encoding="utf-8").read() != text:
            differ.append(os.path.relpath(path, os.path.dirname(TOP)))
    if differ:
        sys.exit(f"{' and '.join(differ)}: not what the program's help gives; library/man/from_help.py PROGRAM --write makes them")
    print("man page and completions: ok")


if __name__ == "__main__":
    main()
