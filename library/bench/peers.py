"""The library beside the program's store, SQLite and LMDB, on the same workloads: peers.py OUT FOLDER [ROUNDS [SHARE]].

OUT is the folder of libtimestore.a, FOLDER one on the file system that is meant. The workloads are those of
bench/store_bench.py, whose values are the median of the rounds; what cannot be built here is left out.
"""

import subprocess
import sys
import tempfile
from pathlib import Path

HERE = Path(__file__).resolve().parent
TOP = HERE.parents[1]
sys.path.insert(0, str(TOP / "bench"))
import store_bench  # noqa: E402

NAME = "library"


def built_library(out: Path, base: str) -> str:
    """The workloads over the library."""
    program = f"{base}/library"
    sources = [TOP / "bench/peers/workloads.c", HERE / "peer.c"]
    folders = [f"-I{TOP / 'bench/peers'}", f"-I{TOP / 'library/include'}"]
    subprocess.run(["cc", "-O2", *folders, *sources, "-o", program, out / "libtimestore.a"], check=True)
    return program


def main(out: Path, folder: str, rounds: int = 3, share: float = 1.0) -> None:
    with tempfile.TemporaryDirectory(dir=folder) as base:
        contenders = {NAME: built_library(out, base)}
        store = TOP / "crates/bench/out/bench"
        if store.exists():
            contenders["program's store"] = str(store)
        contenders.update(store_bench.built_peers(base))
        print(f"{store_bench.medium(base)}, load {store_bench.load()}, medians of {rounds} rounds")
        found = store_bench.all_rounds(contenders, list(store_bench.VERBS), share, rounds, base)
        print("".join(f"| {head} " for head in ("", *contenders)) + "|")
        print("|---" * (1 + len(contenders)) + "|")
        for verb, (what, _) in store_bench.VERBS.items():
            values = (store_bench.value(found[name, verb]) for name in contenders)
            print("".join(f"| {cell} " for cell in (what, *values)) + "|", flush=True)


if __name__ == "__main__":
    main(Path(sys.argv[1]), sys.argv[2], *(kind(word) for kind, word in zip((int, float), sys.argv[3:])))
