#!/usr/bin/env python3
"""The wrong bodies of tests/edits/CRATE.edits, each of which the contracts must refuse.

    tests/edits.py [CRATE ..]            tries them: `rt must-fail` in a copy of the repository
    tests/edits.py --list [CRATE ..]     names them
    tests/edits.py --applies             whether each applies, and each of crates/CRATE/must-fail: its file is there, and has
                                         what is replaced just once

A file has a part for each wrong body: a line `== MODULE.FUNCTION.WHAT`, then the file of the crate that it changes and
what it replaces by what, as `rt must-fail` reads it. Trying is no part of the gate, which tries those of
crates/CRATE/must-fail alone: each takes 10 to 30 seconds of processor time. The copy has what earlier checks kept, so
that only what they lack is proved first.

Exits with 1 where a wrong body passes, or doesn't apply.
"""

import glob
import os
import shutil
import subprocess
import sys
import tempfile

TOP = os.path.dirname(os.path.dirname(os.path.abspath(__file__)))
FOLDER = os.path.join(TOP, "tests", "edits")


def edits_of(crate):
    """The name and the text of each wrong body of a crate."""
    with open(os.path.join(FOLDER, f"{crate}.edits"), encoding="utf-8") as file:
        for part in ("\n" + file.read()).split("\n== ")[1:]:
            name, _, text = part.partition("\n")
            yield name, text.rstrip("\n") + "\n"


def crates():
    return sorted(name[: -len(".edits")] for name in os.listdir(FOLDER) if name.endswith(".edits"))


def misfit(crate, text):
    """Why a wrong body doesn't apply, if it doesn't."""
    source = None
    for line in text.splitlines():
        word, _, rest = line.partition(": " if ": " in line else ":")
        if word == "file":
            path = os.path.join(TOP, "crates", crate, rest)
            if not os.path.exists(path):
                return f"there is no {rest}"
            with open(path, encoding="utf-8") as file:
                source = file.read()
        elif word == "old":
            found = source.count(rest) if source is not None and rest else 0
            if found != 1:
                return f"{found} times: {rest}"
        elif word != "new":
            return f"no line of an edit: {line}"
    return None if source is not None else "it names no file"


def of_the_gate():
    """The crate, the name and the text of each wrong body that the gate tries."""
    for path in sorted(glob.glob(os.path.join(TOP, "crates", "*", "must-fail", "*.edit"))):
        with open(path, encoding="utf-8") as file:
            yield path.split(os.sep)[-3], os.path.basename(path), file.read()


def applies():
    count = failed = 0
    for crate, name, text in of_the_gate():
        count += 1
        why = misfit(crate, text)
        if why:
            failed += 1
            print(f"FAILED {crate}: {name}: {why}")
    for crate in crates():
        names = set()
        for name, text in edits_of(crate):
            count += 1
            why = misfit(crate, text) or ("its name stands twice" if name in names else None)
            names.add(name)
            if why:
                failed += 1
                print(f"FAILED {crate}: {name}: {why}")
    print(f"{count} wrong bodies, {failed} don't apply")
    return 1 if failed or not count else 0


def attempt(wanted):
    with tempfile.TemporaryDirectory() as room:
        for name in ("HANDLES", "crates.txt"):
            shutil.copy(os.path.join(TOP, name), room)
        subprocess.run(["cp", "-a", os.path.join(TOP, "crates"), room], check=True)
        for crate in os.listdir(os.path.join(room, "crates")):
            shutil.rmtree(os.path.join(room, "crates", crate, "must-fail"), ignore_errors=True)
        for crate in wanted:
            folder = os.path.join(room, "crates", crate, "must-fail")
            os.mkdir(folder)
            for name, text in edits_of(crate):
                with open(os.path.join(folder, f"{name}.edit"), "w", encoding="utf-8") as file:
                    file.write(text)
        return subprocess.run(["rt", "must-fail", *wanted], cwd=room).returncode


def main():
    words = sys.argv[1:]
    if words == ["--applies"]:
        return applies()
    if words[:1] == ["--list"]:
        for crate in words[1:] or crates():
            for name, _ in edits_of(crate):
                print(f"{crate}: {name}")
        return 0
    if any(word.startswith("-") or word not in crates() for word in words):
        print(__doc__, file=sys.stderr)
        return 2
    return attempt(words or crates())


if __name__ == "__main__":
    sys.exit(main())
