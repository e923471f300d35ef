#!/usr/bin/env python3
"""Builds the proved part over the libraries that `rt ci` has just left in crates/*/out: proved_core.py KIT CRATE.

`rt lib` would prove each of them again, since `rt ci` leaves no stamp there. Only the crate itself is proved here.
"""

import os
import sys
from pathlib import Path


def main(kit: str, folder: str) -> int:
    crate_folder = Path(folder).resolve()
    os.chdir(crate_folder)
    sys.path.insert(0, f"{kit}/bin")
    sys.dont_write_bytecode = True
    import rtlib

    crate = rtlib.Crate(str(crate_folder), str(crate_folder.parents[1]), {})
    # (a run that was ended leaves folders with nothing in them)
    missing = [it.name for it in crate.below() if not os.path.isfile(f"{it.rlib}/format")]
    if missing:
        print(f"`rt ci` left no library of {', '.join(missing)}", file=sys.stderr)
        return 1
    os.makedirs("out", exist_ok=True)
    return crate.build_static([])


if __name__ == "__main__":
    sys.exit(main(*sys.argv[1:]))
