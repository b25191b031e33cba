#!/usr/bin/env python3
"""Runs tools/stress.py over the examples and random programs, and checks that a changed history is found out.

    tests/stress.py BIN [--seed N] [--count N] [--jobs N] [FILE ..]

BIN is the built program. Each FILE, by default those of examples/, and `--count` random programs (by default 200) are called by
2 to 16 threads, compiled by gcc -O2 or by clang -fsanitize=thread in turn: `replay --open` has to say `same`. Where a call
returned a number, that number is changed in the history: `replay --open` has to say that this line differs. A program that is
refused and a run that spins for ever are left out. The last line is 'N passed, M failed'; exit status 1 where M is not 0.
"""

import argparse
import multiprocessing
import os
import pathlib
import re
import subprocess
import sys
import tempfile

from helper_programs import drawn

TOP = pathlib.Path(__file__).resolve().parent.parent
sys.path.insert(0, str(TOP / "tools"))
from stress import Refused, Stress  # noqa: E402

COMPILERS = ["gcc -O2", "clang -O1 -g -fsanitize=thread"]
RETURNED = re.compile(rb"^(call .*\) returns )(-?\d+)$")
LEFT_OUT = re.compile(r"^\S+:\d+:\d+: E\d\d |^the program has no section$")
SECONDS = 20


def changed_line(history):
    """The history with the middle one of the numbers that calls returned changed, and the line of it, or nothing."""
    lines = history.read_bytes().split(b"\n")
    found = [k for k, line in enumerate(lines) if RETURNED.match(line)]
    if not found:
        return None
    k = found[len(found) // 2]
    head, number = RETURNED.match(lines[k]).groups()
    lines[k] = head + str(int(number) ^ 1).encode()
    history.write_bytes(b"\n".join(lines))
    return k + 1


def try_one(part):
    """The name, what came of it ("same", "refused", "spins"), and what is wrong."""
    binary, name, text, number = part
    with tempfile.TemporaryDirectory() as folder:
        source = os.path.join(folder, "program.al")
        pathlib.Path(source).write_bytes(text)
        try:
            stress = Stress(binary, source, folder, COMPILERS[number % len(COMPILERS)])
            history = stress.run(2 + number * 5 % 15, 100, number + 1, SECONDS)
        except Refused as refused:
            return name, "refused", None if LEFT_OUT.search(str(refused)) else str(refused)
        except subprocess.TimeoutExpired:
            return name, "spins", None
        except RuntimeError as error:
            return name, "", str(error)
        verdict = stress.judged(history)
        if verdict.startswith("unsettled"):
            return name, "spins", None
        if verdict != "same\n":
            return name, "", verdict
        line = changed_line(history)
        if line is not None and stress.judged(history).partition("\n")[0] != f"differs at line {line}":
            return name, "", f"line {line} changed, but {stress.judged(history)}"
        return name, "same", None


def programs_of(told):
    files = told.files or sorted(str(file) for file in (TOP / "examples").glob("*.al"))
    for file in files:
        yield file, pathlib.Path(file).read_bytes()
    for seed in range(told.seed, told.seed + (0 if told.files else told.count)):
        yield f"seed-{seed}", "\n".join(drawn(seed, lists=seed % 2 == 1)).encode("latin-1")


def main():
    words = argparse.ArgumentParser(description=__doc__.splitlines()[0])
    words.add_argument("binary")
    words.add_argument("files", nargs="*")
    words.add_argument("--seed", type=int, default=1)
    words.add_argument("--count", type=int, default=200)
    words.add_argument("--jobs", type=int, default=os.cpu_count())
    told = words.parse_args()
    binary = os.path.realpath(told.binary)
    parts = [(binary, name, text, number) for number, (name, text) in enumerate(programs_of(told))]
    came, failed = {"same": 0, "refused": 0, "spins": 0}, 0
    with multiprocessing.Pool(told.jobs) as pool:
        for name, what, wrong in pool.imap_unordered(try_one, parts):
            if wrong:
                failed += 1
                print(f"{name}: {wrong}")
            else:
                came[what] += 1
    if came["same"] * 2 < len(parts):
        failed += 1
        print(f"only {came}")
    print(f"{came['refused']} refused, {came['spins']} spin")
    print(f"{came['same']} passed, {failed} failed")
    return 1 if failed else 0


if __name__ == "__main__":
    sys.exit(main())
