#!/usr/bin/env python3
"""Builds the static library crates/autolock_c/out/libautolock_c.a over the libraries below it that were proved last: by
the gate, or by `./autolock --build`. Its own crate is proved on the way.

    script/library.py

`rt lib` does the same, but takes no library that `rt ci` left, and so proves all of them once more. script/README.md says
what is used of the toolchain.
"""
import os
import pathlib
import shutil
import sys

sys.dont_write_bytecode = True
from build import load_to_build

CRATE = pathlib.Path(__file__).resolve().parent.parent / "crates" / "autolock_c"


def main():
    found = shutil.which("rt")
    if not found:
        print("script/library.py: this needs the command rt of the Rattle toolchain in the path", file=sys.stderr)
        return 3
    rtlib = load_to_build(os.path.dirname(os.path.realpath(found))).rtlib
    os.chdir(CRATE)
    crate = rtlib.Crate(os.getcwd(), rtlib.root_above(os.getcwd()), {})
    missing = [it.name for it in crate.below() if not os.path.isdir(it.rlib)]
    if missing:
        print(f"script/library.py: ./autolock --build first: not built are {', '.join(missing)}", file=sys.stderr)
        return 3
    os.makedirs("out", exist_ok=True)
    status = crate.build_static(["--jobs", "2"])
    if not status:
        print(f"{CRATE}/out/libautolock_c.a")
    return status


if __name__ == "__main__":
    sys.exit(main())
