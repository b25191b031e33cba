#!/usr/bin/env python3
"""Two built programs side by side: what one answers, the other has to answer byte for byte.

    tests/side_by_side.py BIN OTHER [--seed N] [--count N] [--jobs N] [FILE ..]

BIN and OTHER are built programs, before and after a change that is to keep the answers of what was accepted or refused before.
Each of `--count` random programs with helpers (10,000 by default, those of the seeds from N on, 1 by default), each FILE, by
default those of examples/, and each program of tests/rows.json is given to both, with the commands below. Commands that draw
get a seed. Compared are the exit status and both streams.

No part of the gate, which has one program. The last line is 'N programs, M differ'; exit status 1 where M is not 0.
"""
import argparse
import multiprocessing
import pathlib
import random
import subprocess
import sys
import tempfile

from helper_programs import drawn, laid_out
from rows import rows
from schedules import drawn as drawn_steps
from written_out import tokens_of

TOP = pathlib.Path(__file__).resolve().parent.parent
COMMANDS = [["check"], ["check", "--source"], ["explain"], ["explain", "--json"], ["format"], ["order"], ["listing"], ["emit"]]
COMMANDS += [["serial", "--turns", "1000"], ["schedule", "--seed", "1"]]
COMMANDS += [["outcomes", "--turns", "1000", "--count", "100", "--seed", "1"]]
WITH_STEPS = [["simulate"], ["trace"]]


def answers(binary, room):
    """What a program answers to each command line over the files of a folder."""
    lines = [*(words + ["F"] for words in COMMANDS), *(words + ["F", "T"] for words in WITH_STEPS)]
    for words in lines:
        done = subprocess.run([binary, *words], cwd=room, capture_output=True, stdin=subprocess.DEVNULL, timeout=300)
        yield " ".join(words), (done.returncode, done.stdout, done.stderr)


def compare(part):
    """The command lines that two programs answer differently for a text."""
    (one, other), name, text, seed = part
    with tempfile.TemporaryDirectory() as room:
        (pathlib.Path(room) / "F").write_bytes(text)
        (pathlib.Path(room) / "T").write_text(drawn_steps(random.Random(seed), 3))
        pairs = zip(answers(one, room), answers(other, room))
        return name, [words for (words, first), (_, second) in pairs if first != second]


def texts(arguments):
    """The name, the text and the seed of each program that is compared."""
    for path in arguments.files or sorted((TOP / "examples").glob("*.al")):
        yield str(path), pathlib.Path(path).read_bytes(), 0
    for case in rows():
        if "F" in case["files"]:
            yield f"row {case['name']}", case["files"]["F"].encode("latin-1"), 0
    for seed in range(arguments.seed, arguments.seed + arguments.count):
        yield f"seed {seed}", laid_out(seed, [word for it in drawn(seed) for word, _ in tokens_of(it)]).encode(), seed


def main():
    parser = argparse.ArgumentParser(usage=__doc__)
    parser.add_argument("binaries", nargs=2)
    parser.add_argument("files", nargs="*")
    parser.add_argument("--seed", type=int, default=1)
    parser.add_argument("--count", type=int, default=10_000)
    parser.add_argument("--jobs", type=int, default=multiprocessing.cpu_count())
    arguments = parser.parse_args()
    binaries = [str(pathlib.Path(path).resolve()) for path in arguments.binaries]
    count = failed = 0
    with multiprocessing.Pool(arguments.jobs) as pool:
        for name, found in pool.imap_unordered(compare, ((binaries, *part) for part in texts(arguments)), 8):
            count += 1
            failed += bool(found)
            for words in found:
                print(f"DIFFERS {name}: {words}")
    print(f"{count} programs, {failed} differ")
    return 1 if failed else 0


if __name__ == "__main__":
    sys.exit(main())
