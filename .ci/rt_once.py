#!/usr/bin/env python3
"""The kit's command rt, which lists the crates below a crate once. The kit makes that list anew for each way that leads to a crate, and there are
millions of ways here. Nothing else is changed. Usage as that of rt: .ci/rt_once.py ci
"""
import importlib.machinery
import importlib.util
import os
import subprocess
import sys


def listed_once(below):
    """The method below of the kit's crates, which remembers what it answered. A crate's own list is whole before the kit first asks for it."""

    def once(crate):
        if not hasattr(crate, "listed_below"):
            crate.listed_below = below(crate)
        return list(crate.listed_below)

    return once


def kit():
    """The kit's command rt as a module."""
    sys.dont_write_bytecode = True
    page = subprocess.run(["rt", "doc"], capture_output=True, text=True, check=True).stdout.strip()
    loader = importlib.machinery.SourceFileLoader("rt", f"{os.path.dirname(page)}/bin/rt")
    made = importlib.util.module_from_spec(importlib.util.spec_from_loader("rt", loader))
    loader.exec_module(made)
    made.rtlib.Crate.below = listed_once(made.rtlib.Crate.below)
    return made


if __name__ == "__main__":
    sys.exit(kit().main(sys.argv[1:]))
