#!/usr/bin/env python3
"""Checks pages and lines: each example of crates/NAME/CALLING.md is a test of the repository, word for word; the pages
have no more words than they may, each and all together; each crate has a page of its own, of few lines; no line of code or
proof is too long; the table of wrong bodies has those that there are; and what programs call has no `requires`, as
docs/DECISIONS.md says. Is called at the top of the repository."""
import glob
import os
import re
import sys

TESTS = ["crates/test_calls/src/*.rt", "crates/test_storage/src/*.rt"]
# The most words of a page. The bars of a table are no words.
MOST_WORDS = {
    "README.md": 620,
    "CONTRIBUTING.md": 400,
    "CHANGELOG.md": 700,
    "bench/README.md": 350,
    "bench/RESULTS.md": 900,
    "docs/ARCHITECTURE.md": 980,
    "docs/DECISIONS.md": 1_350,
    "docs/FORMAT.md": 2_850,
    "docs/GLOSSARY.md": 750,
    "docs/LIBRARY.md": 1_450,
    "docs/PROVED.md": 500,
    "docs/TORTURE.md": 560,
    "docs/TUTORIAL.md": 500,
    "docs/USING.md": 2_400,
    "docs/WRONG_BODIES.md": 780,
}
# The most words of all these pages together.
ALL_WORDS = 15_000
# The most lines of crates/NAME/README.md, and the most characters of a line of code or proof.
MOST_LINES = 40
MOST_CHARACTERS = 160
# Crates that programs call: none of their public functions asks for anything.
CALLED = ["any_store", "run", "session", "c_exports"]


def read(path: str) -> str:
    """The text of a file."""
    with open(path, encoding="utf-8") as file:
        return file.read()


def missing_examples(page: str, tests: list[str]) -> int:
    """How many examples of a page are no test; each is named. A page without an example lacks one."""
    missing = 0
    for example in re.findall(r"```rust\n(.*?)```", read(page), re.DOTALL) or [None]:
        if example is None or not any("#[test]\n" + example in text for text in tests):
            print(f"{page}: its example is no test")
            missing += 1
    return missing


def word_count(page: str) -> int:
    """How many words a page has. The bars and rules of its tables are none."""
    return sum(not re.fullmatch(":?-+:?", word) for word in re.split(r"[\s|]+", read(page).strip("| \n")))


def is_too_long(page: str, most: int) -> bool:
    """Whether a page has more words than it may; says how many it has."""
    words = word_count(page)
    print(f"{page}: {words} of {most} words" + (", so it is too long: shorten it" if words > most else ""))
    return words > most


def are_too_long() -> bool:
    """Whether all pages together have more words than they may; says how many they have."""
    words = sum(word_count(page) for page in MOST_WORDS)
    print(f"all pages: {words} of {ALL_WORDS} words" + (", so they are too long: shorten one" if words > ALL_WORDS else ""))
    return words > ALL_WORDS


def lacks_page(crate: str) -> bool:
    """Whether a crate has no page, or one of too many lines; says which."""
    page = f"crates/{crate}/README.md"
    lines = len(read(page).splitlines()) if os.path.isfile(page) else None
    if lines is None or lines > MOST_LINES:
        print(f"{page}: " + ("is missing" if lines is None else f"{lines} lines, and {MOST_LINES} are the most"))
    return lines is None or lines > MOST_LINES


def long_lines() -> int:
    """How many lines of code and proofs are too long; each is named."""
    found = 0
    for folder in ("src", "specs", "proofs"):
        for path in sorted(glob.glob(f"crates/*/{folder}/**/*.*", recursive=True)):
            for number, line in enumerate(read(path).split("\n") if path.endswith((".rt", ".antt")) else [], 1):
                if len(line) > MOST_CHARACTERS:
                    print(f"{path}:{number}: {len(line)} characters, and {MOST_CHARACTERS} are the most")
                    found += 1
    return found


def untold_edits() -> int:
    """How many edits of crates/NAME/must-fail the table of docs/WRONG_BODIES.md lacks, or has and there are not; each is named."""
    told = set(re.findall(r"`(\w+/\w+)`", read("docs/WRONG_BODIES.md"))) - {f"crates/{name}" for name in os.listdir("crates")}
    there = {f"{path.split('/')[1]}/{path.split('/')[3].removesuffix('.edit')}" for path in glob.glob("crates/*/must-fail/*.edit")}
    for name in sorted(told ^ there):
        print(f"docs/WRONG_BODIES.md: {name} is " + ("not in the table" if name in there else "no edit"))
    return len(told ^ there)


def has_condition(lines: list[str], start: int, indent: str) -> bool:
    """Whether the function whose head begins in this line has a `requires`."""
    for line in lines[start:]:
        if line.strip().startswith("requires"):
            return True
        if line in (f"{indent}{{", f"{indent}{{}}") or line.endswith((" {", "{}", ";")):
            return False
    return False


def conditions() -> int:
    """How many public functions of the crates that programs call have a `requires`; each is named."""
    found = 0
    for path in sorted(path for crate in CALLED for path in glob.glob(f"crates/{crate}/src/**/*.rt", recursive=True)):
        lines = read(path).split("\n")
        for number, line in enumerate(lines):
            head = re.match(r'( *)pub (?:extern "C" )?fn (\w+)', line)
            if head and has_condition(lines, number, head[1]):
                print(f"{path}:{number + 1}: {head[2]} has a `requires`, and programs call this crate")
                found += 1
    return found


def main() -> int:
    """The exit status: 0 where every example is a test, each crate has its page, neither a page, all pages nor a line is too long,
    each edit is told, and what programs call asks for nothing."""
    tests = [read(path) for pattern in TESTS for path in glob.glob(pattern)]
    pages = sorted(glob.glob("crates/*/CALLING.md"))
    missing = sum(missing_examples(page, tests) for page in pages)
    print(f"{len(pages)} pages, {missing} examples that are no test")
    long = [page for page, most in MOST_WORDS.items() if is_too_long(page, most)]
    all_long = are_too_long()
    crates = [line.split(":")[0].split()[0] for line in read("crates.txt").splitlines() if ":" in line.split("#")[0]]
    without = [crate for crate in crates if lacks_page(crate)]
    lines, edits, asked = long_lines(), untold_edits(), conditions()
    print(f"{len(crates)} crates, {len(without)} without a page of {MOST_LINES} lines or fewer; {lines} lines that are too long")
    return 1 if missing or not pages or long or all_long or without or lines or edits or asked else 0


if __name__ == "__main__":
    sys.exit(main())
