#!/usr/bin/env python3
"""Runs `rt ci`, with the words that it is given: the same in every respect, but for how often it asks what lies below a crate.

The toolchain follows each way down through the crates for the list of those below one, and some versions for a crate's sum
of files. Together there are 200,000 such ways; the sums took half an hour of one processor in a whole gate, the lists a
minute. Here each is found once. Its last lines on standard error are the seconds of each crate's proof, beside others, the
longest first. script/README.md says what is used of the toolchain, and what happens where it isn't there.
"""
import os
import shutil
import sys
import time

sys.dont_write_bytecode = True
from build import list_below_once, load, sum_once


def time_each(crate_type):
    """Has the seconds of each crate's proof noted, and of that of its tests, in the list that it returns."""
    prove, times = crate_type.ci, []

    def timed(crate, flags, tests):
        begun = time.monotonic()
        try:
            return prove(crate, flags, tests)
        finally:
            times.append((time.monotonic() - begun, crate.name + ", its tests" * bool(tests)))

    crate_type.ci = timed
    return times


def main():
    found = shutil.which("rt")
    if not found:
        print("script/ci.py: this needs the command rt of the Rattle toolchain in the path", file=sys.stderr)
        return 3
    try:
        rt = load(os.path.dirname(os.path.realpath(found)))
        run = rt.main
        list_below_once(rt.rtlib.Crate)
        times = time_each(rt.Crate)
        if not hasattr(rt, "share_work"):
            sum_once(rt.rtlib.Crate)
    except (ImportError, OSError, AttributeError, SyntaxError):
        os.execvp("rt", ["rt", "ci", *sys.argv[1:]])
    status = run(["ci", *sys.argv[1:]])
    for seconds, name in sorted(times, reverse=True):
        print(f"{seconds:6.0f} s {name}", file=sys.stderr)
    return status


if __name__ == "__main__":
    sys.exit(main())
