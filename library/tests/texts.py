"""One list of codes and texts: those of the headers are those of the proved part, of the program, and of the
languages over them. texts.py, with the module and the library where `import timestore` finds them."""

import re
from pathlib import Path

import timestore
from timestore import _native, _refused

TOP = Path(__file__).resolve().parents[2]
# What the program's scripts have no answer for.
OWN = {"TS_PENDING", "TS_CLOSED", "TS_UNKNOWN", "TS_SMALL", "TS_LOCKED", "TS_CACHED", "TS_ALREADY_OPEN"}
# What the library has no call for.
PROGRAMS_ALONE = {"name", "bad time"}
ANSWERS = {"TS_OK", "TS_NONE", "TS_READ_ONLY", "TS_SMALL"}
AREAS = ("status", "heap", "archive")


def numbers(path: str, pattern: str) -> dict[str, int]:
    return {name: int(number) for name, number in re.findall(pattern, (TOP / path).read_text(), re.M)}


def cased(name: str) -> str:
    """TS_NOT_YET as NotYet."""
    return "".join(word.capitalize() for word in name.removeprefix("TS_").split("_"))


def listed(name: str, last: str) -> dict[str, int]:
    """The numbers of an enumeration of a header, by its first and last names."""
    header = "".join((TOP / "library/include" / file).read_text() for file in ("timestore.h", "timestore_file.h"))
    found = re.search(rf"enum \{{\s*{name} =.*?{last} =[^}}]*", header, re.S)
    assert found, name
    return {name: int(number) for name, number in re.findall(r"(TS_\w+) = (-?\d+)", found[0])}


def text(code: int) -> str:
    return _native.library.ts_text(code).decode()


def program_texts() -> set[str]:
    source = "".join((TOP / "crates/session/src" / file).read_text() for file in ("text.rt", "reply.rt"))
    return {words.split(" {")[0].removeprefix("refused: ") for words in re.findall(r'"((?:[^"\\]|\\.)*)"', source)}


def refusals_of_program() -> set[str]:
    source = (TOP / "crates/session/src/text.rt").read_text()
    said = re.findall(r'(?:write_refused(?:_number)?\(output,|Fault::\w+ =>) "([^"]+)"', source)
    return {*said, "conflict"}


def main() -> None:
    store, host = listed("TS_OK", "TS_NOT_GROWABLE"), listed("TS_SYSTEM", "TS_ALREADY_OPEN")
    proved = numbers("crates/c_engine/src/code.rt", r"Code::(\w+) => (-?\d+)")
    assert {cased(name): code for name, code in store.items()} == proved, (store, proved)

    codes, program = store | host, program_texts()
    for name, code in codes.items():
        said = text(code)
        assert said != text(12345), name
        if name == "TS_DAMAGED":
            assert {f"{said} {area}" for area in AREAS} <= program, said
        elif name not in OWN:
            assert said in program, (name, said)
    said = {text(code) for code in codes.values()}
    said |= {f"{text(codes['TS_DAMAGED'])} {area}" for area in AREAS}
    assert refusals_of_program() - said == PROGRAMS_ALONE, refusals_of_program() - said

    named = {cased(name): code for name, code in codes.items() if name not in ANSWERS}
    assert {fault.__name__: code for code, fault in _refused.FAULTS.items()} == named
    rust = numbers("library/rust/src/error.rs", r"^    (\w+) = (-?\d+),")
    rust |= {cased(name): code for name, code in numbers("library/rust/src/error.rs", r"^(?:pub\(crate\) )?const (\w+): i32 = (-?\d+)").items()}
    handled = {"Pending"}  # which a store that is open in Rust never answers
    assert rust == {name: code for name, code in named.items() if name not in handled}, rust

    versions = re.findall(r'TIMESTORE_VERSION "(.+?)"', (TOP / "library/include/timestore.h").read_text())
    versions += re.findall(r'^version = "(.+?)"', (TOP / "library/rust/Cargo.toml").read_text(), re.M)
    assert versions == [timestore.__version__] * 2, versions

    steps = listed("TS_IDLE", "TS_TURN_WRITTEN")
    assert {f"TS_{step.name}": step.value for step in timestore.Step} == steps
    rust_steps = re.findall(r"(\d+) => Step::(\w+)", (TOP / "library/rust/src/store.rs").read_text())
    assert {name: int(code) for code, name in rust_steps} == {cased(name): code for name, code in steps.items() if code > 0}


if __name__ == "__main__":
    main()
