#!/usr/bin/env python3
"""The worked examples, faults and limits of tests/rows.json, over a built program.

    tests/rows.py BIN [--only NAME]
    tests/rows.py BIN --cuts [--only NAME]
    tests/rows.py --write FOLDER

Each example has its files by name and what the program must answer to some command lines over them: status, standard output
and standard error, byte for byte. The answers were found by hand from the rules of the language and of its texts.

--cuts   instead: each beginning of the program of each example that is no table's row, and that program with each byte
         replaced by one of six, is given to `check`, which has to end with 0 or 1
--write  instead: each example's program F is written to FOLDER/NAME.al, for other scripts

The last line is 'N passed, M failed'; the status is 1 where M is not 0.
"""
import argparse
import json
import multiprocessing
import pathlib
import subprocess
import sys
import tempfile

BYTES = b"(}0.\x00\x80"


def rows(only=""):
    cases = json.loads((pathlib.Path(__file__).resolve().parent / "rows.json").read_text())
    return [case for case in cases if only in case["name"]]


def answer(program, words, room):
    done = subprocess.run([program, *words], cwd=room, capture_output=True, stdin=subprocess.DEVNULL, timeout=60)
    return {
        "status": done.returncode,
        "stdout": done.stdout.decode("latin-1"),
        "stderr": done.stderr.decode("latin-1"),
    }


def compared(program, case):
    """How many command lines of the example are answered as they should be; of the others what differs is printed."""
    right = 0
    with tempfile.TemporaryDirectory() as room:
        for name, text in case["files"].items():
            pathlib.Path(room, name).write_bytes(text.encode("latin-1"))
        for wanted in case["runs"]:
            got = answer(program, wanted["words"], room)
            wrong = [part for part in got if got[part] != wanted[part]]
            right += not wrong
            for part in wrong[:1]:
                print(f"{case['name']}: {' '.join(wanted['words'])}: {part} is {got[part]!r:.300}, not {wanted[part]!r:.300}")
    return right, len(case["runs"]) - right


def changed(text):
    """Each beginning of a text, and the text with each byte replaced."""
    for at in range(len(text)):
        yield text[:at]
        for byte in BYTES:
            if text[at] != byte:
                yield text[:at] + bytes([byte]) + text[at + 1 :]


def cut(given):
    program, name, text = given
    right = wrong = 0
    with tempfile.TemporaryDirectory() as room:
        file = pathlib.Path(room, "F")
        for source in changed(text):
            file.write_bytes(source)
            status = subprocess.run(
                [program, "check", "F"], cwd=room, stdout=subprocess.DEVNULL, stderr=subprocess.DEVNULL, timeout=60
            ).returncode
            if status in (0, 1):
                right += 1
            else:
                wrong += 1
                print(f"{name}: status {status} of {source!r:.300}")
    return right, wrong


def cuts(program, cases):
    given = [
        (program, case["name"], text.encode("latin-1"))
        for case in cases
        if not case["name"].startswith(("fault_", "limit_"))
        for name, text in case["files"].items()
        if name.startswith("F")
    ]
    with multiprocessing.Pool() as pool:
        return pool.map(cut, sorted(given, key=lambda it: -len(it[2])), chunksize=1)


def write(cases, folder):
    for case in cases:
        if "F" in case["files"]:
            pathlib.Path(folder, f"{case['name']}.al").write_bytes(case["files"]["F"].encode("latin-1"))


def main():
    parser = argparse.ArgumentParser(description=__doc__, formatter_class=argparse.RawDescriptionHelpFormatter)
    parser.add_argument("program", nargs="?")
    parser.add_argument("--only", default="")
    parser.add_argument("--cuts", action="store_true")
    parser.add_argument("--write", metavar="FOLDER")
    given = parser.parse_args()
    if given.write:
        write(rows(given.only), given.write)
        return 0
    if not given.program:
        parser.error("no program is named")
    program = str(pathlib.Path(given.program).resolve())
    cases = rows(given.only)
    counts = cuts(program, cases) if given.cuts else [compared(program, case) for case in cases]
    passed, failed = (sum(column) for column in zip(*counts))
    print(f"{passed} passed, {failed} failed")
    return 1 if failed else 0


if __name__ == "__main__":
    sys.exit(main())
