#!/usr/bin/env python3
"""Prints each wrong body of the crates, the function that it changes and that function's clauses: those that `rt ci` tries
(crates/NAME/must-fail), and the others (crates/NAME/more-edits).

usage: docs/wrong_bodies.py [NAME ..]      (no name: all crates)
"""
import os
import re
import sys

root = os.path.join(os.path.dirname(os.path.abspath(__file__)), "..")
FUNCTION = re.compile(r"^( *)(?:pub(?:\([a-z]+\))? )?(?:const )?(?:extern \"C\" )?fn (\w+)", re.M)
BLOCK = re.compile(r"^(?:impl|pub trait|trait|pub\(crate\) trait)\b(.*)$", re.M)


def places(path):
    """The files that an edit changes, each with a text that it takes away."""
    found, name = [], ""
    for line in open(path, encoding="utf-8"):
        word, _, rest = line.rstrip("\n").partition(": ")
        if word == "file":
            name = rest
        elif word == "old" and not rest.startswith("use "):
            found.append((name, rest))
    return found


def owner(code, at):
    """The type whose block the place is in, and the trait if the block is one of a trait."""
    last = None
    for block in BLOCK.finditer(code, 0, at):
        last = block
    if last is None or re.search(r"^\}", code[last.end():at], re.M):
        return "", ""
    words = re.sub(r"<[^<>]*>", "", re.sub(r"<[^<>]*>", "", last.group(1))).replace("{", "").split()
    if "for" in words:
        return words[words.index("for") + 1], words[words.index("for") - 1]
    return (words[0] if words else ""), ""


def function_at(crate, path, name, old):
    """The function that holds the text, with its clauses."""
    code = open(os.path.join(root, "crates", crate, name), encoding="utf-8").read()
    at = code.find(old)
    assert at >= 0, f"{path}: {name} has no such text"
    end = code.find("\n", at + len(old))
    function = None
    for found in FUNCTION.finditer(code, 0, end):
        function = found
    if function is None or (not function.group(1) and re.search(r"^\}", code[function.end():at], re.M)):
        return f"a constant in `{name}`"
    head = code[function.end():code.index("{", function.end())]
    if re.search(r"\b(requires|ensures)\b", head):
        head = code[function.end():code.find("\n" + function.group(1) + "{", function.end())]
    clauses = re.findall(r"ensures (\w+) \{", head)
    kind, trait = owner(code, function.start()) if function.group(1) else ("", "")
    said = f"`{kind}::{function.group(2)}`" if kind else f"`{function.group(2)}`"
    said += f" in `{name}`"
    if clauses:
        return said + ", " + ("clauses " if len(clauses) > 1 else "clause ") + ", ".join(f"`{it}`" for it in clauses)
    if trait and "ensures" not in head:
        return said + f", the clauses of `{trait}`"
    return said


def changed(crate, path):
    """The functions that an edit changes."""
    return "; ".join(dict.fromkeys(function_at(crate, path, name, old) for name, old in places(path)))


def edits(crate, folder):
    folder = os.path.join(root, "crates", crate, folder)
    names = sorted(os.listdir(folder)) if os.path.isdir(folder) else []
    return [(it[:-5].replace("_", " "), os.path.join(folder, it)) for it in names if it.endswith(".edit")]


for crate in sys.argv[1:] or sorted(os.listdir(os.path.join(root, "crates"))):
    for folder, title in (("must-fail", crate), ("more-edits", f"{crate}, more edits")):
        found = edits(crate, folder)
        if found:
            print(f"## {title}: {len(found)}\n")
            print("\n".join(f"- {name}: {changed(crate, path)}" for name, path in found) + "\n")
